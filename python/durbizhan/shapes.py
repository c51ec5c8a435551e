"""A shape: a universe and an expression in it, with the questions over an expression."""
from __future__ import annotations

from typing import NamedTuple, Optional

from . import face
from .answers import NumberRoom, Numbers, Part, Report, Room, Symbols, Whole
from .face import Frames, Space
from .universe import Universe


class Shape(NamedTuple):
    """An expression, raw or merged, and the universe that it is of: one byte a symbol, `(` then the low and the high
    half, `B` or `W`. Any bytes make one; each question is refused BadUniverse, then BadExpression, where they are none.

    >>> shape = Shape(Universe(2, 1, 1), b"(W(WB")
    >>> shape.numbers().volume, shape.colour(1, 1), shape.sweep(2).expression
    (1, 1, b'(WB')
    >>> Shape.from_bytes(shape.to_bytes()) == shape
    True
    """

    universe: Universe
    expression: Symbols

    @classmethod
    def from_bytes(cls, bytes: Whole, out: Optional[Room] = None) -> Shape:
        """The shape of a shape file, of version 1 or 2: `shape_read`. Refused: BadFile, BadUniverse, BadExpression,
        NotMerged, NoRoom."""
        return cls(*face.shape_read(bytes, out))

    def to_bytes(self, out: Optional[Room] = None) -> Symbols:
        """Its shape file, of version 2: `shape_write`. Refused: BadUniverse, BadExpression, NotMerged, NoRoom."""
        return face.shape_write(self.universe, self.expression, out)

    @classmethod
    def octree_import(cls, universe: Space, octree: Whole, out: Optional[Room] = None) -> Shape:
        """The merged shape of an octree, of three axes with equal bits. Refused: BadUniverse, BadExpression, NoRoom."""
        return cls(Universe(*universe), face.octree_import(universe, octree, out))

    def octree_export(self, out: Optional[Room] = None) -> Symbols:
        """Its octree. Refused: BadUniverse, BadExpression, NoRoom."""
        return face.octree_export(self.universe, self.expression, out)

    def well_formed(self) -> None:
        """Ends where it is well-formed. Refused: BadUniverse, BadExpression."""
        face.well_formed(self.universe, self.expression)

    def numbers(self, window: Optional[Frames] = None) -> Numbers:
        """Its volume, and its verdict over a window, or over all frames. Refused: BadUniverse, BadExpression,
        Outside."""
        return face.numbers(self.universe, self.expression, self._frames(window))

    def report(self, window: Optional[Frames] = None, counts: Optional[NumberRoom] = None) -> Report:
        """Its black voxels in each frame of a window, or of all frames, and their total. Refused: BadUniverse,
        BadExpression, Outside, NoRoom."""
        return face.report(self.universe, self.expression, self._frames(window), counts)

    def colour(self, x: int, y: int = 0, z: int = 0, t: int = 0) -> int:
        """Its colour at a voxel, 0 WHITE or 1 BLACK. Refused: BadUniverse, BadExpression, Outside."""
        return face.colour(self.universe, self.expression, x, y, z, t)

    def part(self, path: Whole) -> Part:
        """Where the part of a block stands in it. Refused: BadUniverse, BadExpression, Outside."""
        return face.part(self.universe, self.expression, path)

    def sweep(self, axis: int, out: Optional[Room] = None) -> Shape:
        """The space that it sweeps along an axis, counted from 1. Refused: BadUniverse, BadExpression, NoRoom."""
        return Shape(*face.sweep(self.universe, axis, self.expression, out))

    def merge(self, out: Optional[Room] = None) -> Shape:
        """The same, merged. Refused: BadUniverse, BadExpression, NoRoom."""
        return Shape(self.universe, face.merge(self.universe, self.expression, out).expression)

    def held(self) -> int:
        """The most symbols that merging it holds back. Refused: BadUniverse, BadExpression."""
        return face.merge(self.universe, self.expression).held

    def _frames(self, window: Optional[Frames]) -> Frames:
        """A window, or all frames."""
        return Universe(*self.universe).window if window is None else window
