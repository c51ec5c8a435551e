"""What is answered: verdicts, counts, and what was written."""
from __future__ import annotations

import array
from dataclasses import dataclass
from typing import TYPE_CHECKING, ClassVar, Literal, NamedTuple, Sequence, Union

if TYPE_CHECKING:
    Row = array.array[int]
else:
    Row = array.array

# what was written: bytes, or where room was lent a view of its front
Symbols = Union[bytes, memoryview]
# room that is lent to be written to
Room = Union[bytearray, memoryview]
# the same for numbers of 64 bits: array.array of "q" or "Q", or a view with that format
NumberRoom = Union[Row, memoryview]
# whole numbers to read: a buffer of their type, which is not copied, or any other sequence
Whole = Sequence[int]


@dataclass(frozen=True)
class Clear:
    """No voxel of the window is shared. It is false, and `clear` is true.

    >>> bool(Clear()), Clear().clear, str(Clear())
    (False, True, 'clear')
    """

    clear: ClassVar[bool] = True

    def __bool__(self) -> Literal[False]:
        return False

    def __str__(self) -> str:
        return "clear"


@dataclass(frozen=True)
class Hit:
    """The first and the last frame of the window with a shared voxel, and how many voxels are shared in the window. It
    is true, and `clear` is false.

    >>> hit = Hit(1, 2, 5)
    >>> bool(hit), hit.clear, hit.first, str(hit)
    (True, False, 1, 'hit first 1 last 2 voxels 5')
    """

    first: int
    last: int
    voxels: int
    clear: ClassVar[bool] = False

    def __bool__(self) -> Literal[True]:
        return True

    def __str__(self) -> str:
        return f"hit first {self.first} last {self.last} voxels {self.voxels}"


@dataclass(frozen=True)
class Span:
    """The first and the last frame of the window with a shared voxel. It is true, and `clear` is false.

    >>> span = Span(1, 2)
    >>> bool(span), span.clear, span.last, str(span)
    (True, False, 2, 'hit first 1 last 2')
    """

    first: int
    last: int
    clear: ClassVar[bool] = False

    def __bool__(self) -> Literal[True]:
        return True

    def __str__(self) -> str:
        return f"hit first {self.first} last {self.last}"


Verdict = Union[Clear, Hit]
# the ends of a verdict
Ends = Union[Clear, Span]


def verdict_of(hit: int, first: int, last: int, voxels: int) -> Verdict:
    """A verdict as an answer has it: 0 is Clear."""
    return Hit(first, last, voxels) if hit else Clear()


def ends_of(hit: int, first: int, last: int) -> Ends:
    """The ends of a verdict as an answer has them: 0 is Clear."""
    return Span(first, last) if hit else Clear()


class Window(NamedTuple):
    """Frames first to last, both in."""

    first: int
    last: int


class Clearance(NamedTuple):
    """A verdict, and the raw expression that was written; as a condition it is its verdict."""

    verdict: Verdict
    expression: Symbols

    def __bool__(self) -> bool:
        return bool(self.verdict)


class Contacts(NamedTuple):
    """How many voxels of a window two trees surely share, over a voxel's whole block, share at its centre, and possibly
    share."""

    sure: int
    centre: int
    possible: int


class Numbers(NamedTuple):
    """The black voxels of a whole expression, and its verdict over a window."""

    volume: int
    verdict: Verdict


class Report(NamedTuple):
    """The black voxels of each frame of a window, and their total."""

    counts: NumberRoom
    total: int


class Merged(NamedTuple):
    """A merged expression, and the most symbols that merging holds back while it receives what is merged."""

    expression: Symbols
    held: int


class Pruned(NamedTuple):
    """The expression that a pruned conversion wrote, and the nodes that it looked at."""

    expression: Symbols
    looked: int


class Part(NamedTuple):
    """Where a block's part of an expression stands."""

    start: int
    length: int
