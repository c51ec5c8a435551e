"""What is lent to a call: numbers by value, and buffers by their place in memory, with nothing copied.

Any object that lends its memory is taken: bytes, bytearray, memoryview, array.array, mmap and the like. Its elements
have the type that the header names (`TYPES`), they are aligned and stand one straight after another. What is read may
also be any other sequence of numbers, which is copied into an array first.
"""
from __future__ import annotations

import array
import collections.abc
import ctypes
import itertools
import operator
import sys
from typing import Any, Dict, Iterable, NamedTuple

# a type of ctypes
Element = Any

# for each type of an element its letter, as array.array has it; and the letters that mean the same where they are as
# wide
TYPES: Dict[Element, str] = {
    ctypes.c_uint8: "B",
    ctypes.c_uint16: "H",
    ctypes.c_int64: "q",
    ctypes.c_uint64: "Q",
    ctypes.c_double: "d",
}
LETTERS = {"B": "B", "H": "H", "q": "ql", "Q": "QL", "d": "d"}
# what may stand before the letter of an element that is as the machine has it
NATIVE = "@=<" if sys.byteorder == "little" else "@=>!"

WHOLE_LIMIT = 1 << 64
# where the pointer of an empty buffer points
EMPTY = ctypes.c_uint64()


class Lent(NamedTuple):
    """A buffer that is lent: its elements, where they begin and end, whether they are written to, and who keeps
    them."""

    elements: Any
    start: int
    end: int
    written: bool
    keeper: memoryview


class Place(ctypes.Structure):
    """CPython's Py_buffer."""

    _fields_ = [
        ("buf", ctypes.c_void_p),
        ("obj", ctypes.c_void_p),
        ("len", ctypes.c_ssize_t),
        ("itemsize", ctypes.c_ssize_t),
        ("readonly", ctypes.c_int),
        ("ndim", ctypes.c_int),
        ("format", ctypes.c_char_p),
        ("shape", ctypes.c_void_p),
        ("strides", ctypes.c_void_p),
        ("suboffsets", ctypes.c_void_p),
        ("internal", ctypes.c_void_p),
    ]


PLAIN_BUFFER = 0
get_buffer = ctypes.pythonapi.PyObject_GetBuffer
get_buffer.argtypes = [ctypes.py_object, ctypes.POINTER(Place), ctypes.c_int]
release_buffer = ctypes.pythonapi.PyBuffer_Release
release_buffer.argtypes = [ctypes.POINTER(Place)]
release_buffer.restype = None


def address(view: memoryview) -> int:
    """Where the memory of a view begins."""
    place = Place()
    get_buffer(view, ctypes.byref(place), PLAIN_BUFFER)
    found = int(place.buf or 0)
    release_buffer(ctypes.byref(place))
    return found


def whole(value: Any) -> int:
    """A whole number of 64 bits: OverflowError where it is none of those, TypeError where it is no whole number."""
    number = operator.index(value)
    if not 0 <= number < WHOLE_LIMIT:
        raise OverflowError(f"{number} is not 0 to 2^64 - 1")
    return number


def real(value: Any) -> float:
    """A number as a float: OverflowError where there is none so large, TypeError where it is no number."""
    return float(array.array("d", (value,))[0])


def read_from(value: Any, element: Element) -> Lent:
    """Numbers to read. TypeError where they are of another type, OverflowError where one is out of its range."""
    try:
        view = memoryview(value)
    except TypeError:
        view = memoryview(copied(value, TYPES[element]))
    return lent(view, element, written=False)


def copied(value: Any, letter: str) -> Any:
    """A sequence of numbers as an array."""
    if not isinstance(value, collections.abc.Sequence):
        raise TypeError(f"{type(value).__name__} is neither a buffer nor a sequence of numbers")
    return array.array(letter, value)


def written_to(value: Any, element: Element) -> Lent:
    """Room to write to. TypeError where it is read-only or of another type."""
    view = memoryview(value)
    if view.readonly or view.ndim != 1:
        raise TypeError(f"what is lent to be written to is {'read-only' if view.readonly else 'not one row'}")
    return lent(view, element, written=True)


def lent(view: memoryview, element: Element, written: bool) -> Lent:
    """The memory of a view, as elements. ValueError where they do not stand one straight after another, aligned."""
    letter, size = TYPES[element], ctypes.sizeof(element)
    if view.format.lstrip(NATIVE) not in tuple(LETTERS[letter]) or view.itemsize != size:
        raise TypeError(f"elements of format {view.format!r} are lent where {letter!r} is wanted")
    if not view.c_contiguous:
        raise ValueError("the elements of a lent buffer do not stand one straight after another")
    count = view.nbytes // size
    start = address(view) if count else ctypes.addressof(EMPTY)
    if start % size:
        raise ValueError(f"a lent buffer of {size}-byte elements is not aligned")
    return Lent((element * count).from_address(start), start, start + count * size, written, view)


def see_apart(buffers: Iterable[Lent]) -> None:
    """ValueError where what is written to overlaps anything else. An empty buffer overlaps nothing."""
    for one, other in itertools.combinations(buffers, 2):
        if (one.written or other.written) and one.start < other.end and other.start < one.end:
            raise ValueError("what a call writes to overlaps another buffer of the call")
