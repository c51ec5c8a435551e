"""Stand-ins: a Box or a Cut as rows of a universe of four axes, and a Box that moves from key to key."""
from __future__ import annotations

from typing import List, NamedTuple, Optional, Sequence

from . import face
from .answers import Clearance, Room, Row, Whole
from .face import Space, Triple
from .limits import BOX_ROWS
from .words import INTERSECTION, halfspace

STILL: Triple = (0, 0, 0)


class Box(NamedTuple):
    """A Box between two corners, displaced each frame. Each number is a whole number of sixteenths: a corner's at most
    4,096 in size, a displacement's at most 64; near is at most far.

    >>> Box((0, 4, 4), (3, 8, 8), (1, 0, 0)).rows()[:10]
    array('q', [0, 16, 0, 0, -16, 48, -16, 0, 0, 16])
    """

    near: Triple
    far: Triple
    displacement: Triple = STILL

    def rows(self) -> Row:
        """Its six rows: `box`. Refused: BadProxy."""
        return face.box(*self)

    def words(self, row: int = 0) -> List[int]:
        """Its tree, where its rows stand from row number `row` on.

        >>> Box((0, 0, 0), (1, 1, 1)).words(6)
        [262, 263, 3, 264, 3, 265, 3, 266, 3, 267, 3]
        """
        first, *others = (halfspace(row + i) for i in range(BOX_ROWS))
        return [first, *(word for other in others for word in (other, INTERSECTION))]


class Cut(NamedTuple):
    """A Cut, which holds where n.x + offset >= 0, displaced each frame. Each number is a whole number of sixteenths: of
    the normal and the displacement at most 64 in size, the offset at most 4,096."""

    normal: Triple
    offset: float
    displacement: Triple = STILL

    def rows(self) -> Row:
        """Its row: `cut`. Refused: BadProxy."""
        return face.cut(*self)


class Key(NamedTuple):
    """A key of a mover: a moment, and the near corner of its Box there."""

    moment: int
    corner: Triple


class Mover(NamedTuple):
    """A Box, which gives its size alone and stands still, and its keys, 2 to 64 of them; from key to key it moves
    evenly.

    >>> mover = Mover(Box((0, 0, 0), (3, 4, 4)), [Key(0, (0, 4, 4)), Key(8, (8, 4, 4))])
    >>> banister = Box((8, 0, 0), (10, 16, 8))
    >>> mover.verdict((4, 4, 4), banister.rows(), [], banister.words()).verdict
    Hit(first=5, last=7, voxels=80)
    """

    box: Box
    keys: Sequence[Key]

    def verdict(
        self, universe: Space, rows: Whole, balls: Whole, words: Whole, out: Optional[Room] = None
    ) -> Clearance:
        """Its verdict against a static tree, every frame by its own stretch, and the last stretch's raw expression:
        `mover`. Refused: BadUniverse, BadProxy, BadKeys, BadStep, BadRows, BadTree or OverfullTree, NoRoom."""
        moments = [key.moment for key in self.keys]
        corners = [number for key in self.keys for number in face.triple(key.corner)]
        return face.mover(universe, *self.box, moments, corners, rows, balls, words, out)
