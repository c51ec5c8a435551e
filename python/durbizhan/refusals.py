"""Why a call is refused: an exception for each number of rule 8.1, and what accepts by its own name."""
from __future__ import annotations

from typing import Dict, Type

ACCEPTED = 0
BAD_FILE = 1
BAD_UNIVERSE = 2
BAD_ROWS = 3
BAD_TREE = 4
OVERFULL_TREE = 5
NO_ROOM = 6
BAD_EXPRESSION = 7
NOT_MERGED = 8
OUTSIDE = 9
BAD_PROXY = 10
BAD_KEYS = 11
BAD_STEP = 12


class Refused(Exception):
    """A refusal: its number, and the name that the header has for it. As text it is the line that the program prints.

    >>> str(BadTree()), BadTree().number, BadTree().name
    ('refused 4', 4, 'BAD_TREE')
    """

    number: int
    name: str

    def __str__(self) -> str:
        return f"refused {self.number}"


class BadFile(Refused):
    """No scene or no shape: its mark, its version, the zero byte of a scene of version 1, or its length."""

    number, name = BAD_FILE, "BAD_FILE"


class BadUniverse(Refused):
    """Axes not 1 to 4 (of a mover: not 4), bits over 10, frame bits over 12, or bits not 0 where there is one axis; of
    a sweep, no such axis to drop; of octrees, not three axes or bits that differ."""

    number, name = BAD_UNIVERSE, "BAD_UNIVERSE"


class BadRows(Refused):
    """A row that is not five numbers or a ball that is not four, over 256 rows (beside a mover: 250) or 64 balls, a
    number past its limit, or not 0 for an axis that is not there (of a ball's centre: or that is the last)."""

    number, name = BAD_ROWS, "BAD_ROWS"


class BadTree(Refused):
    """Words that do not make one shape: none, one that means nothing or names no row and no ball, too few shapes for an
    operator, or too many left."""

    number, name = BAD_TREE, "BAD_TREE"


class OverfullTree(Refused):
    """More than 255 words, or more than 32 shapes pending."""

    number, name = OVERFULL_TREE, "OVERFULL_TREE"


class NoRoom(Refused):
    """More is to be written than is lent. `needed` says how much it takes: symbols, of a file bytes, of a report
    counts; where `of_work` is true it is the work room of a pruned conversion that is short, and `needed` is in nodes,
    of three numbers each.

    >>> str(NoRoom(13))
    'refused 6 needed 13'
    """

    number, name = NO_ROOM, "NO_ROOM"

    def __init__(self, needed: int, of_work: bool = False) -> None:
        super().__init__(needed, of_work)
        self.needed = needed
        self.of_work = of_work

    def __str__(self) -> str:
        return f"refused {self.number} needed {self.needed}"


class BadExpression(Refused):
    """An expression that is not well-formed, no list of up to 256 such, or no octree."""

    number, name = BAD_EXPRESSION, "BAD_EXPRESSION"


class NotMerged(Refused):
    """An expression for a shape file, or from one, that is not merged."""

    number, name = NOT_MERGED, "NOT_MERGED"


class Outside(Refused):
    """A voxel, path or window that the universe does not hold, or a window that ends before it begins."""

    number, name = OUTSIDE, "OUTSIDE"


class BadProxy(Refused):
    """A number of a proxy that is no whole number of sixteenths or is past its limit, or near over far; of a mover,
    also a number of a corner, or a displacement that is not 0."""

    number, name = BAD_PROXY, "BAD_PROXY"


class BadKeys(Refused):
    """A mover's keys under 2 or over 64, not three corner numbers to a key, or moments that do not rise or are past the
    end of the last frame."""

    number, name = BAD_KEYS, "BAD_KEYS"


class BadStep(Refused):
    """A mover's step that is no whole number of sixteenths, or over 64 in size."""

    number, name = BAD_STEP, "BAD_STEP"


REFUSALS: Dict[int, Type[Refused]] = {kind.number: kind for kind in Refused.__subclasses__()}


class Unknown(Refused):
    """A number that is not in the table: the shared library is of another version than this package.

    >>> str(Unknown(13))
    'refused 13'
    """

    name = "UNKNOWN"

    def __init__(self, number: int) -> None:
        super().__init__(number)
        self.number = number


def refusal(number: int, needed: int, of_work: bool) -> Refused:
    """The exception for a number that is not 0."""
    if number == NO_ROOM:
        return NoRoom(needed, of_work)
    return REFUSALS[number]() if number in REFUSALS else Unknown(number)
