"""Every function on what it accepts and on what it refuses, at both sides of the edges, and what it leaves in lent
room."""
import array
import unittest
from unittest import mock

import durbizhan
from durbizhan import NoRoom, face, library

from .cases import ACCEPTED, FROM_ONE, GATE, LINE, PASSING, REFUSED, SPAN, UNIT

PATTERN = 0xA5
# those that return a count, and write a refusal as a line or none
COUNTS = {"leaves", "balls", "lines"}
WRITERS = {
    name: room[-1].name
    for name, parameters in library.PROTOTYPES.items()
    for room in [[parameter for parameter in parameters if isinstance(parameter, library.Room)]]
    if room
}


def call(name, *arguments, **named):
    return getattr(durbizhan, name)(*arguments, **named)


def what_was_written(answer):
    """Of an answer, the symbols, bytes or counts."""
    if isinstance(answer, (bytes, memoryview)):
        return answer
    if isinstance(answer, (durbizhan.Merged, durbizhan.Pruned)):
        return answer.expression
    return answer.counts if isinstance(answer, durbizhan.Report) else answer[1]


def lent(name, length):
    """Room full of the pattern."""
    return array.array("Q", [PATTERN] * length) if name == "report" else bytearray([PATTERN] * length)


class Functions(unittest.TestCase):
    def test_each_is_tried_both_ways(self):
        beside = {"scene"}
        self.assertEqual({name for name, _, _ in ACCEPTED} | beside, set(library.PROTOTYPES))
        self.assertEqual({name for name, _, _ in REFUSED} | COUNTS, set(library.PROTOTYPES))

    def test_accepted(self):
        for name, arguments, answer in ACCEPTED:
            with self.subTest(name=name, arguments=arguments):
                self.assertEqual(call(name, *arguments), answer)

    def test_refused(self):
        for name, arguments, kind in REFUSED:
            with self.subTest(name=name, arguments=arguments):
                with self.assertRaises(kind) as raised:
                    call(name, *arguments)
                self.assertIs(type(raised.exception), kind)

    def test_room_is_written_from_its_front(self):
        for name, arguments, answer in ((name, *rest) for name, *rest in ACCEPTED if name in WRITERS):
            length = len(what_was_written(answer))
            for more in (0, 1, 7):
                with self.subTest(name=name, arguments=arguments, more=more):
                    room = lent(name, length + more)
                    found = call(name, *arguments, **{WRITERS[name]: room})
                    self.assertIsInstance(what_was_written(found), memoryview)
                    self.assertIs(what_was_written(found).obj, room)
                    self.assertEqual(list(what_was_written(found)), list(what_was_written(answer)))
                    self.assertEqual(list(room), [*what_was_written(answer), *[PATTERN] * more])
                    self.assertEqual(plain(found), plain(answer))

    def test_no_room_leaves_it_as_it_was(self):
        for name, arguments, answer in ((name, *rest) for name, *rest in ACCEPTED if name in WRITERS):
            length = len(what_was_written(answer))
            for short in {0, length - 1}:
                with self.subTest(name=name, arguments=arguments, short=short):
                    room = lent(name, short)
                    with self.assertRaises(NoRoom) as raised:
                        call(name, *arguments, **{WRITERS[name]: room})
                    self.assertEqual(raised.exception.needed, length)
                    self.assertFalse(raised.exception.of_work)
                    self.assertEqual(str(raised.exception), f"refused 6 needed {length}")
                    self.assertEqual(list(room), [PATTERN] * short)

    def test_refusals_leave_room_as_it_was(self):
        for name, arguments, kind in ((name, *rest) for name, *rest in REFUSED if name in WRITERS):
            with self.subTest(name=name, arguments=arguments):
                room = lent(name, 64)
                with self.assertRaises(kind):
                    call(name, *arguments, **{WRITERS[name]: room})
                self.assertEqual(list(room), [PATTERN] * 64)

    def test_only_the_lent_part_is_written(self):
        for name, arguments, answer in ((name, *rest) for name, *rest in ACCEPTED if name in WRITERS):
            with self.subTest(name=name, arguments=arguments):
                length = len(what_was_written(answer))
                whole = lent(name, length + 6)
                call(name, *arguments, **{WRITERS[name]: memoryview(whole)[3 : 3 + length]})
                guard = [PATTERN] * 3
                self.assertEqual(list(whole), [*guard, *what_was_written(answer), *guard])


def plain(answer):
    """An answer with what was written as a list, so that a view and bytes can be compared."""
    if isinstance(answer, (bytes, memoryview)):
        return list(answer)
    return tuple(list(one) if isinstance(one, (bytes, memoryview, array.array)) else one for one in answer)


class Work(unittest.TestCase):
    """The work room of the pruned conversions: levels and one times the words, in nodes of three numbers."""

    TREES = {"one": [[256]], "two": [[256], [1]]}
    PRUNED = ["pruned_raw_one", "pruned_raw_two", "pruned_merged_one", "pruned_merged_two"]

    def test_as_much_as_is_needed(self):
        for name in self.PRUNED:
            trees = self.TREES[name[-3:]]
            nodes = 3 * len(trees)
            work = array.array("q", [PATTERN] * 3 * nodes)
            self.assertEqual(call(name, LINE, FROM_ONE, [], *trees, work=work).expression, SPAN)
            self.assertNotEqual(list(work), [PATTERN] * 3 * nodes)

    def test_one_number_less(self):
        for name in self.PRUNED:
            trees = self.TREES[name[-3:]]
            nodes = 3 * len(trees)
            for out in (None, bytearray([PATTERN] * 9)):
                work = array.array("q", [PATTERN] * (3 * nodes - 1))
                with self.assertRaises(NoRoom) as raised:
                    call(name, LINE, FROM_ONE, [], *trees, work=work, out=out)
                self.assertTrue(raised.exception.of_work)
                self.assertIsNone(raised.exception.__context__)
                self.assertEqual(raised.exception.needed, nodes)
                self.assertEqual(list(work), [PATTERN] * (3 * nodes - 1))
                self.assertIn(out, (None, bytearray([PATTERN] * 9)))


class Long(unittest.TestCase):
    """Expressions that are longer than what is lent at first."""

    UNIVERSE = (4, 5, 5)
    # frame 0 is cut through: 1 + 2 (1 + 2 + 4 + 8 + 8 + 16 + .. + 32,768) symbols
    CUT, LENGTH = [-1, 0, 0, 0, 2], 140431

    def test_conversions(self):
        self.assertGreater(self.LENGTH, face.FIRST_ROOM)
        raw = durbizhan.raw_one(self.UNIVERSE, self.CUT, [], [256])
        self.assertEqual(len(raw), self.LENGTH)
        self.assertEqual(durbizhan.pruned_raw_two(self.UNIVERSE, self.CUT, [], [256], [1]).expression, raw)
        found = durbizhan.verdict(self.UNIVERSE, self.CUT, [], [256], [1], (0, 0))
        self.assertEqual(found, (durbizhan.Hit(0, 0, 1 << 15), raw))

    def test_asked_once_where_room_is_known(self):
        raw = durbizhan.raw_one(self.UNIVERSE, self.CUT, [], [256])
        merged = durbizhan.merged_one(self.UNIVERSE, [-32, 1, 1, 1, -1], [], [256])
        self.assertGreater(len(merged), face.FIRST_ROOM)
        known = [
            ("raw_one", (LINE, FROM_ONE, [], [256])),
            ("merged_two", ((2, 2, 2), [], [2, 0, 0, 1], [512], [1])),
            ("pruned_raw_one", ((2, 2, 2), [], [2, 0, 0, 1], [512])),
            ("verdict", ((2, 2, 2), [], [2, 0, 0, 1], [1], [512], (0, 3))),
            ("mover", (GATE, *UNIT, *PASSING, [], [], [1])),
            ("sweep", (self.UNIVERSE, 1, raw)),
            ("merge", (self.UNIVERSE, raw)),
            ("shape_write", (self.UNIVERSE, merged)),
            ("shape_read", (durbizhan.shape_write(self.UNIVERSE, merged),)),
            ("octree_export", ((3, 1, 1), b"(WB")),
            ("octree_import", ((3, 1, 1), b"PFEFEFEFE")),
        ]
        for name, arguments in known:
            with self.subTest(name=name), mock.patch.object(face, "ask", wraps=face.ask) as asked:
                call(name, *arguments)
                # a pruned conversion is asked for its work room first
                wanted = 2 if name.startswith("pruned") else 1
                self.assertEqual([one.args[0] for one in asked.call_args_list], [name] * wanted)


if __name__ == "__main__":
    unittest.main()
