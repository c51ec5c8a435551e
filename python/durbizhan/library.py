"""The shared library: where it is found, what its functions take, and how one is called.

`tools/shared` builds it from the clone, as target/native/libdurbizhan.so. It is looked for at its first call: the file
that the environment names in DURBIZHAN_LIBRARY, else libdurbizhan.so beside this module, where `pip install .` puts it,
else target/native/libdurbizhan.so of the clone. Where there is none, FileNotFoundError says what to run.

A call lets other threads run, and no function keeps anything: any number of threads may call at once, each with room of
its own. It takes up to 128 KiB of the thread's stack.
"""
from __future__ import annotations

import ctypes
import functools
import os
import pathlib
from typing import Any, Dict, List, NamedTuple, Optional, Tuple, Union

from .buffers import Element, Lent, read_from, real, see_apart, whole, written_to
from .limits import BOX_NUMBERS, MOST_BALL_NUMBERS, MOST_LINES_BYTES, MOST_NUMBERS, MOST_WORDS, ROW_LENGTH
from .refusals import ACCEPTED, refusal

NAME = "libdurbizhan.so"
HERE = pathlib.Path(__file__).resolve().parent
PLACES = (HERE / NAME, HERE.parent.parent / "target" / "native" / NAME)


class Whole(NamedTuple):
    """A parameter `uint64_t name`."""

    name: str

    @property
    def types(self) -> Tuple[Any, ...]:
        return (ctypes.c_uint64,)

    def lend(self, value: object) -> int:
        return whole(value)


class Real(NamedTuple):
    """A parameter `double name`."""

    name: str

    @property
    def types(self) -> Tuple[Any, ...]:
        return (ctypes.c_double,)

    def lend(self, value: object) -> float:
        return real(value)


class Read(NamedTuple):
    """A buffer to read, `const T *name, size_t name_count`."""

    name: str
    element: Element

    @property
    def types(self) -> Tuple[Any, ...]:
        return (ctypes.POINTER(self.element), ctypes.c_size_t)

    def lend(self, value: object) -> Lent:
        return read_from(value, self.element)


class Room(NamedTuple):
    """A buffer to write to, `T *name, size_t name_count`."""

    name: str
    element: Element

    @property
    def types(self) -> Tuple[Any, ...]:
        return (ctypes.POINTER(self.element), ctypes.c_size_t)

    def lend(self, value: object) -> Lent:
        return written_to(value, self.element)


class Array(NamedTuple):
    """An array of a fixed length, `T name[count]`, which a call writes. In an answer `length` is the place of the
    length that was written or is needed, and `of_work` that of the number that tells work room from room."""

    name: str
    element: Element
    count: int
    length: Optional[int] = None
    of_work: Optional[int] = None

    @property
    def types(self) -> Tuple[Any, ...]:
        return (ctypes.POINTER(self.element * self.count),)


Parameter = Union[Whole, Real, Read, Room, Array]

BYTE: Element = ctypes.c_uint8
WORD: Element = ctypes.c_uint16
COUNT: Element = ctypes.c_uint64
NUMBER: Element = ctypes.c_int64
FLOAT: Element = ctypes.c_double

UNIVERSE = (Whole("axes"), Whole("bits"), Whole("frame_bits"))
SURFACES = (*UNIVERSE, Read("rows", NUMBER), Read("balls", NUMBER))
ONE = (*SURFACES, Read("words", WORD))
TWO = (*SURFACES, Read("first", WORD), Read("second", WORD))
WINDOW = (Whole("first_frame"), Whole("last_frame"))
EXPRESSION = (*UNIVERSE, Read("expression", BYTE))
OUT = Room("out", BYTE)
WORK = Room("work", NUMBER)
BOX = tuple(Real(f"{name}_{axis}") for name in ("near", "far", "displacement") for axis in "xyz")
CUT = (
    *(Real(f"normal_{axis}") for axis in "xyz"),
    Real("offset"),
    *(Real(f"displacement_{axis}") for axis in "xyz"),
)


def answer(count: int, length: Optional[int] = None, of_work: Optional[int] = None) -> Array:
    """The array that a function answers in."""
    return Array("answer", COUNT, count, length, of_work)


# what each function of include/durbizhan.h takes, in its order and by its names
PROTOTYPES: Dict[str, Tuple[Parameter, ...]] = {
    "leaves": (Read("words", WORD),),
    "balls": (Read("words", WORD),),
    "room": (*UNIVERSE, Whole("leaves"), Whole("balls"), answer(1)),
    "raw_one": (*ONE, OUT, answer(1, 0)),
    "raw_two": (*TWO, OUT, answer(1, 0)),
    "merged_one": (*ONE, OUT, answer(1, 0)),
    "merged_two": (*TWO, OUT, answer(1, 0)),
    "pruned_raw_one": (*ONE, WORK, OUT, answer(3, 1, 0)),
    "pruned_raw_two": (*TWO, WORK, OUT, answer(3, 1, 0)),
    "pruned_merged_one": (*ONE, WORK, OUT, answer(3, 1, 0)),
    "pruned_merged_two": (*TWO, WORK, OUT, answer(3, 1, 0)),
    "verdict": (*TWO, *WINDOW, OUT, answer(5, 4)),
    "verdict_at_once": (*TWO, *WINDOW, answer(4)),
    "ends_at_once": (*TWO, *WINDOW, answer(3)),
    "contacts": (*TWO, *WINDOW, answer(3)),
    "mover": (
        *UNIVERSE,
        *BOX,
        Read("moments", COUNT),
        Read("corners", FLOAT),
        Read("rows", NUMBER),
        Read("balls", NUMBER),
        Read("words", WORD),
        OUT,
        answer(5, 4),
    ),
    "well_formed": EXPRESSION,
    "numbers": (*EXPRESSION, *WINDOW, answer(5)),
    "report": (*UNIVERSE, Read("expressions", BYTE), *WINDOW, Room("counts", COUNT), answer(2, 0)),
    "colour": (*EXPRESSION, Whole("x"), Whole("y"), Whole("z"), Whole("t"), answer(1)),
    "part": (*EXPRESSION, Read("path", BYTE), answer(2)),
    "sweep": (*UNIVERSE, Whole("axis"), Read("expression", BYTE), OUT, answer(4, 3)),
    "octree_export": (*EXPRESSION, OUT, answer(1, 0)),
    "octree_import": (*UNIVERSE, Read("octree", BYTE), OUT, answer(1, 0)),
    "merge": (*EXPRESSION, OUT, answer(2, 0)),
    "scene": (
        Read("bytes", BYTE),
        Array("rows", NUMBER, MOST_NUMBERS),
        Array("balls", NUMBER, MOST_BALL_NUMBERS),
        Array("first", WORD, MOST_WORDS),
        Array("second", WORD, MOST_WORDS),
        answer(10),
    ),
    "lines": (Read("scene", BYTE), Array("out", BYTE, MOST_LINES_BYTES)),
    "shape_read": (Read("bytes", BYTE), OUT, answer(4, 3)),
    "shape_write": (*EXPRESSION, OUT, answer(1, 0)),
    "box": (*BOX, Array("rows", NUMBER, BOX_NUMBERS)),
    "cut": (*CUT, Array("row", NUMBER, ROW_LENGTH)),
}


def place() -> pathlib.Path:
    """Where the shared library is. FileNotFoundError where there is none."""
    named = os.environ.get("DURBIZHAN_LIBRARY")
    for found in (pathlib.Path(named),) if named else PLACES:
        if found.is_file():
            return found
    looked = named or " or ".join(map(str, PLACES))
    raise FileNotFoundError(f"no shared library at {looked}: tools/shared, run in the clone, builds it")


@functools.lru_cache(maxsize=None)
def library() -> ctypes.CDLL:
    """The loaded library, with the types of every function. AttributeError where it lacks one."""
    loaded = ctypes.CDLL(str(place()))
    for name, parameters in PROTOTYPES.items():
        function = getattr(loaded, f"durbizhan_{name}")
        function.argtypes = [kind for parameter in parameters for kind in parameter.types]
        function.restype = ctypes.c_uint64
    return loaded


def handed(taken: object) -> Tuple[Any, ...]:
    """What the library is handed for one value: of a buffer its elements and their number."""
    return (taken.elements, len(taken.elements)) if isinstance(taken, Lent) else (taken,)


def call(name: str, *given: object) -> Tuple[int, List[Any]]:
    """Calls a function with a value for each parameter that is no array: what it returns, and the arrays it wrote. What
    was lent is given back before anything is raised."""
    parameters = [one for one in PROTOTYPES[name] if not isinstance(one, Array)]
    if len(parameters) != len(given):
        raise TypeError(f"{name} takes {len(parameters)} values, and {len(given)} are given")
    taken = [parameter.lend(value) for parameter, value in zip(parameters, given)]
    lent = [one for one in taken if isinstance(one, Lent)]
    arrays = [(one.element * one.count)() for one in PROTOTYPES[name] if isinstance(one, Array)]
    values = [value for one in taken for value in handed(one)]
    try:
        see_apart(lent)
        return int(getattr(library(), f"durbizhan_{name}")(*values, *map(ctypes.byref, arrays))), arrays
    finally:
        for buffer in lent:
            buffer.keeper.release()


def ask(name: str, *given: object) -> List[Any]:
    """The arrays that a function wrote, its answer last. Raises what it refuses."""
    number, arrays = call(name, *given)
    if number == ACCEPTED:
        return arrays
    last = PROTOTYPES[name][-1]
    length, of_work = (last.length, last.of_work) if isinstance(last, Array) else (None, None)
    needed = 0 if length is None else arrays[-1][length]
    raise refusal(number, needed, of_work is not None and arrays[-1][of_work] == 1)
