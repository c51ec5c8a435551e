"""What may be lent: every kind of buffer, read and written where it is, with nothing copied; and what may not."""
import array
import ctypes
import mmap
import unittest

import durbizhan
from durbizhan import buffers, library

from .cases import ALL, FIRST, GATE, LINE, MET, PLANE, ROWS, SECOND, SPAN, UNIT

GATE_AND_UNIT = (GATE, *UNIT)
BYTES = [bytes, bytearray, list, tuple, lambda symbols: memoryview(symbols), lambda symbols: array.array("B", symbols)]


def odd(data, letter):
    """A view with the elements of an array, one byte past where it would be aligned."""
    room = bytearray(len(data) * data.itemsize + 16)
    start = -buffers.address(memoryview(room)) % 8 + 1
    view = memoryview(room)[start : start + len(data) * data.itemsize].cast(letter)
    view[:] = memoryview(data)
    return view


class Read(unittest.TestCase):
    def test_symbols_of_every_kind(self):
        for kind in BYTES:
            self.assertEqual(durbizhan.numbers(PLANE, kind(MET), ALL).volume, 2)
            self.assertEqual(durbizhan.part(PLANE, kind(MET), kind(b"\1")), (2, 11))
            self.assertEqual(durbizhan.merge(PLANE, kind(MET)).expression, MET)

    def test_numbers_of_every_kind(self):
        as_array = array.array("q", ROWS)
        rows = [ROWS, tuple(ROWS), as_array, memoryview(as_array), memoryview(as_array).toreadonly()]
        rows.append((ctypes.c_int64 * 20)(*ROWS))
        if array.array("l").itemsize == 8:
            rows.append(array.array("l", ROWS))
        words = [FIRST, array.array("H", FIRST), memoryview(array.array("H", FIRST)), (ctypes.c_uint16 * 3)(*FIRST)]
        for one in rows:
            for first in words:
                self.assertEqual(durbizhan.raw_two(PLANE, one, [], first, SECOND), MET)

    def test_rows_of_rows(self):
        rows = memoryview(array.array("q", ROWS)).cast("B").cast("q", [4, 5])
        self.assertEqual(durbizhan.raw_two(PLANE, rows, [], FIRST, SECOND), MET)

    def test_nothing_is_copied(self):
        for data in (SPAN, bytearray(SPAN), memoryview(SPAN)[1:], array.array("B", SPAN), mmap.mmap(-1, 4096)):
            lent = buffers.read_from(data, ctypes.c_uint8)
            self.assertEqual(lent.start, buffers.address(memoryview(data)))
            self.assertEqual(ctypes.string_at(lent.start, len(data)), bytes(data))
            self.assertEqual(ctypes.addressof(lent.elements), lent.start)
        data = array.array("q", ROWS)
        self.assertEqual(buffers.read_from(data, ctypes.c_int64).start, data.buffer_info()[0])

    def test_a_part_is_read_alone(self):
        whole = b"xx" + SPAN + b"xx"
        self.assertEqual(durbizhan.colour(LINE, memoryview(whole)[2:-2], 1), 1)
        with self.assertRaises(durbizhan.BadExpression):
            durbizhan.colour(LINE, memoryview(whole)[2:-1], 1)

    def test_empty(self):
        for empty in (b"", bytearray(), [], (), memoryview(b""), memoryview(SPAN)[2:2], array.array("B")):
            self.assertEqual(durbizhan.report(LINE, empty, (0, 3)).total, 0)
            self.assertEqual(durbizhan.part(LINE, SPAN, empty), (0, 5))
            with self.assertRaises(durbizhan.BadFile):
                durbizhan.scene(empty)
            lent = buffers.read_from(empty, ctypes.c_uint8)
            self.assertEqual((len(lent.elements), lent.start), (0, lent.end))
            self.assertNotEqual(lent.start, 0)
        for empty in ([], array.array("q"), memoryview(array.array("q"))):
            self.assertEqual(durbizhan.raw_one(LINE, empty, empty, [1]), b"B")

    def test_another_type(self):
        for rows in (bytes(40), bytearray(40), *(array.array(letter, [0] * 5) for letter in "bBhHiIQdf")):
            with self.assertRaises(TypeError):
                durbizhan.raw_one(PLANE, rows, [], [1])
        others = [array.array(letter, [66]) for letter in "bhHiIqQdf"]
        for symbols in (*others, "B", "((WBB", [1.5], ["B"], {66}, iter([66]), None, 66):
            with self.assertRaises(TypeError):
                durbizhan.well_formed(LINE, symbols)
        for words in (b"\1\0", array.array("h", [1]), "1", [1.0]):
            with self.assertRaises(TypeError):
                durbizhan.leaves(words)
        swapped = (ctypes.c_uint16.__ctype_be__ * 1)(1)
        with self.assertRaises(TypeError):
            durbizhan.leaves(swapped)

    def test_gaps_and_odd_places(self):
        with self.assertRaises(ValueError):
            durbizhan.well_formed(LINE, memoryview(b"BxBxBx")[::2])
        with self.assertRaises(ValueError):
            durbizhan.well_formed(LINE, memoryview(b"WB")[::-1])
        with self.assertRaises(ValueError):
            durbizhan.raw_two(PLANE, odd(array.array("q", ROWS), "q"), [], FIRST, SECOND)
        with self.assertRaises(ValueError):
            durbizhan.leaves(odd(array.array("H", FIRST), "H"))


class Ranges(unittest.TestCase):
    """Numbers that the machine does not hold are no other numbers."""

    def test_whole_numbers(self):
        for number in (-1, 1 << 64, -(1 << 64), 1 << 200):
            for universe in ((number, 2, 2), (2, number, 2), (2, 2, number)):
                with self.assertRaises(OverflowError):
                    durbizhan.well_formed(universe, MET)
            with self.assertRaises(OverflowError):
                durbizhan.numbers(PLANE, MET, (0, number))
            with self.assertRaises(OverflowError):
                durbizhan.colour(PLANE, MET, 0, number)
            with self.assertRaises(OverflowError):
                durbizhan.sweep(PLANE, number, MET)
            with self.assertRaises(OverflowError):
                durbizhan.room(PLANE, number, 0)
        with self.assertRaises(durbizhan.Outside):
            durbizhan.colour(PLANE, MET, 0, (1 << 64) - 1)
        for number in (1.0, "1", None):
            with self.assertRaises(TypeError):
                durbizhan.colour(PLANE, MET, number)

    def test_elements(self):
        for rows in ([1 << 63, 0, 0, 0, 0], [-(1 << 63) - 1, 0, 0, 0, 0]):
            with self.assertRaises(OverflowError):
                durbizhan.raw_one(LINE, rows, [], [1])
            with self.assertRaises(OverflowError):
                durbizhan.raw_one(LINE, [], rows[:4], [1])
        with self.assertRaises(durbizhan.BadRows):
            durbizhan.raw_one(LINE, [-(1 << 63), 0, 0, 0, 0], [], [1])
        for words in ([-1], [65536], [257 + 65536]):
            with self.assertRaises(OverflowError):
                durbizhan.leaves(words)
        for symbols in ([-1], [256], [66 + 256]):
            with self.assertRaises(OverflowError):
                durbizhan.well_formed(LINE, symbols)

    def test_floats(self):
        with self.assertRaises(OverflowError):
            durbizhan.cut((0, 0, 1), 10**400)
        for number in ("1", None, 1j, [1]):
            with self.assertRaises(TypeError):
                durbizhan.cut((0, 0, 1), number)
        for corner in ((0, 0), (0, 0, 0, 0)):
            with self.assertRaises(ValueError):
                durbizhan.box(corner, (1, 1, 1))
        with self.assertRaises(durbizhan.BadKeys):
            durbizhan.mover(*GATE_AND_UNIT, [0, 2], array.array("d", [0, 0, 0]), [], [], [1])
        with self.assertRaises(TypeError):
            durbizhan.mover(*GATE_AND_UNIT, [0, 2], array.array("f", [0] * 6), [], [], [1])
        with self.assertRaises(TypeError):
            durbizhan.mover(*GATE_AND_UNIT, [0, 2.0], [0] * 6, [], [], [1])

    def test_as_many_numbers(self):
        for universe in ((2, 2), (2, 2, 2, 2)):
            with self.assertRaises(TypeError):
                durbizhan.well_formed(universe, MET)
        with self.assertRaises(TypeError):
            durbizhan.numbers((2, 2, 2, 0), MET, (0,))
        for given in ((), ([], [])):
            with self.assertRaises(TypeError):
                library.call("leaves", *given)


class Written(unittest.TestCase):
    def test_where_it_is_lent(self):
        for room in (bytearray(5), memoryview(bytearray(5)), array.array("B", bytes(5)), mmap.mmap(-1, 4096)):
            self.assertEqual(durbizhan.merge(LINE, b"((WBB", room).expression, SPAN)
            self.assertEqual(bytes(room[:5]), SPAN)

    def test_a_bytearray_can_grow_again(self):
        room = bytearray(5)
        view = durbizhan.merge(LINE, SPAN, room).expression
        with self.assertRaises(BufferError):
            room.append(0)
        view.release()
        room.append(0)
        view = memoryview(room)[:4]
        with self.assertRaises(durbizhan.NoRoom):
            durbizhan.merge(LINE, SPAN, view)
        self.assertEqual(bytes(view), SPAN[:4])

    def test_room_can_grow_where_it_was_refused(self):
        for room in (bytearray(4), array.array("B", bytes(4))):
            try:
                durbizhan.merge(LINE, SPAN, room)
            except durbizhan.NoRoom as short:
                room.extend(bytes(short.needed - len(room)))
            self.assertEqual(durbizhan.merge(LINE, SPAN, room).expression, SPAN)
        symbols = bytearray(SPAN + SPAN)
        try:
            durbizhan.merge(LINE, symbols, symbols)
        except ValueError:
            del symbols[5:]
        self.assertEqual(durbizhan.merge(LINE, symbols).expression, SPAN)

    def test_no_room_to_write_to(self):
        others = [array.array(letter, [0] * 5) for letter in "bhHiIqQdf"]
        for room in (*others, b"     ", memoryview(SPAN), [0] * 5, "     ", 5):
            with self.assertRaises(TypeError):
                durbizhan.merge(LINE, SPAN, room)
        with self.assertRaises(TypeError):
            durbizhan.merge(LINE, SPAN, memoryview(bytearray(16)).cast("B", [4, 4]))
        with self.assertRaises(ValueError):
            durbizhan.merge(LINE, SPAN, memoryview(bytearray(16))[::2])
        with self.assertRaises(TypeError):
            durbizhan.report(LINE, SPAN, (0, 3), bytearray(32))
        with self.assertRaises(ValueError):
            durbizhan.report(LINE, SPAN, (0, 3), odd(array.array("Q", [0] * 4), "Q"))

    def test_overlaps(self):
        room = bytearray(SPAN + SPAN)
        view = memoryview(room)
        overlapping = [(room, room), (view[:5], view[4:]), (view[4:], view[:5]), (view[2:3], view), (view, view[2:3])]
        for read, written in overlapping:
            with self.assertRaises(ValueError):
                durbizhan.merge(LINE, read, written)
        self.assertEqual(room, SPAN + SPAN)
        self.assertEqual(durbizhan.merge(LINE, view[:5], view[5:]).expression, SPAN)
        self.assertEqual(durbizhan.merge(LINE, view[5:], view[:5]).expression, SPAN)
        with self.assertRaises(durbizhan.NoRoom):
            durbizhan.merge(LINE, view[:5], view[2:2])

    def test_rooms_overlap_each_other(self):
        work = array.array("q", [0] * 9)
        with self.assertRaises(ValueError):
            durbizhan.pruned_raw_one(LINE, [-1, 1, 0, 0, 0], [], [256], work, memoryview(work).cast("B")[64:])
        with self.assertRaises(ValueError):
            durbizhan.pruned_raw_one(LINE, memoryview(work)[:5], [], [256], work)
        room = bytearray(5)
        read, written = buffers.read_from(room, ctypes.c_uint8), buffers.written_to(room, ctypes.c_uint8)
        for pair in ([read, written], [written, read], [written, written]):
            with self.assertRaises(ValueError):
                buffers.see_apart(pair)

    def test_what_is_only_read_may_overlap(self):
        words = array.array("H", FIRST)
        self.assertEqual(durbizhan.raw_two(PLANE, ROWS, [], words, words), durbizhan.raw_one(PLANE, ROWS, [], words))


if __name__ == "__main__":
    unittest.main()
