"""A scene: two trees over rows and balls, and a window of frames."""
from __future__ import annotations

import array
from dataclasses import dataclass
from typing import NamedTuple, Optional, Tuple

from . import face
from .answers import Contacts, Ends, NumberRoom, Pruned, Room, Symbols, Verdict, Whole, Window
from .library import ask
from .limits import BALL_LENGTH, ROW_LENGTH
from .shapes import Shape
from .universe import Universe


class PrunedShape(NamedTuple):
    """The shape that a pruned conversion made, and the nodes that it looked at."""

    shape: Shape
    looked: int


@dataclass(frozen=True)
class Scene:
    """Two trees over rows and balls in a universe, and a window. Rows are five numbers to a halfspace, balls four to a
    ball; the words of a tree are in postfix order. Nothing is checked before it is asked, and what was given is kept as
    it is, so that buffers are read where they are. `version` is that of the file it was read from.

    >>> rows = [0, 1, -1, 0, 0,  1, -1, 1, 0, 0,  -2, 1, 0, 0, 0,  3, -1, 0, 0, 0]
    >>> scene = Scene(Universe(2, 2, 2), rows, [], [256, 257, 3], [258, 259, 3], Window(0, 3))
    >>> verdict = scene.verdict()
    >>> if verdict:
    ...     print(verdict, "in", scene.room(), "symbols at the most")
    hit first 1 last 2 voxels 2 in 31 symbols at the most
    >>> scene.merged(tree=1).sweep(axis=2).expression
    b'B'
    """

    universe: Universe
    rows: Whole
    balls: Whole
    first: Whole
    second: Whole
    window: Window
    version: Optional[int] = None

    def __post_init__(self) -> None:
        object.__setattr__(self, "universe", Universe(*self.universe))
        object.__setattr__(self, "window", Window(*self.window))

    @classmethod
    def from_bytes(cls, bytes: Whole) -> Scene:
        """The scene of a scene file, of version 1 to 3. Refused: BadFile, BadUniverse, BadRows, BadTree or
        OverfullTree, Outside."""
        *lent, answer = ask("scene", bytes)
        version, axes, bits, frame_bits, row_count, ball_count, *words, first_frame, last_frame = answer
        counts = (ROW_LENGTH * row_count, BALL_LENGTH * ball_count, *words)
        rows, balls, first, second = (array.array(kind, one[:count]) for kind, one, count in zip("qqHH", lent, counts))
        window = Window(first_frame, last_frame)
        return cls(Universe(axes, bits, frame_bits), rows, balls, first, second, window, version)

    def leaves(self) -> int:
        """How many words of both trees name a halfspace: N."""
        return face.leaves(self.first) + face.leaves(self.second)

    def room(self) -> int:
        """How many symbols the two trees intersected take at the most. Refused: BadUniverse."""
        return self.universe.room(self.leaves(), face.balls(self.first) + face.balls(self.second))

    def verdict(self, out: Optional[Room] = None) -> Verdict:
        """Whether the two trees share space in the window; `out` gets their raw expression. Refused: BadUniverse,
        BadRows, BadTree or OverfullTree, Outside, NoRoom."""
        return face.verdict(*self._surfaces(), self.first, self.second, self.window, out).verdict

    def verdict_at_once(self) -> Verdict:
        """The same verdict at once, with no expression written. Refused: BadUniverse, BadRows, BadTree or OverfullTree,
        Outside."""
        return face.verdict_at_once(*self._surfaces(), self.first, self.second, self.window)

    def ends(self) -> Ends:
        """The first and the last frame of that verdict alone, at once. Refused as `verdict_at_once` is."""
        return face.ends_at_once(*self._surfaces(), self.first, self.second, self.window)

    def contacts(self) -> Contacts:
        """Sure and possible contact in the window. Refused: BadUniverse, BadRows, BadTree or OverfullTree, Outside."""
        return face.contacts(*self._surfaces(), self.first, self.second, self.window)

    def raw(self, tree: Optional[int] = None, out: Optional[Room] = None) -> Shape:
        """The raw shape of tree 1 or 2, or of both intersected. Refused: BadUniverse, BadRows, BadTree or OverfullTree,
        NoRoom."""
        if tree is None:
            return self._shape(face.raw_two(*self._surfaces(), self.first, self.second, out))
        return self._shape(face.raw_one(*self._surfaces(), self._tree(tree), out))

    def merged(self, tree: Optional[int] = None, out: Optional[Room] = None) -> Shape:
        """The merged shape of tree 1 or 2, or of both intersected. Refused as `raw` is."""
        if tree is None:
            return self._shape(face.merged_two(*self._surfaces(), self.first, self.second, out))
        return self._shape(face.merged_one(*self._surfaces(), self._tree(tree), out))

    def pruned_raw(
        self, tree: Optional[int] = None, work: Optional[NumberRoom] = None, out: Optional[Room] = None
    ) -> PrunedShape:
        """The same as `raw` by the pruned conversion, and the nodes that it looked at; `work` is as of
        `pruned_raw_one`. Refused as `raw` is, and NoRoom of work."""
        if tree is None:
            return self._pruned(face.pruned_raw_two(*self._surfaces(), self.first, self.second, work, out))
        return self._pruned(face.pruned_raw_one(*self._surfaces(), self._tree(tree), work, out))

    def pruned_merged(
        self, tree: Optional[int] = None, work: Optional[NumberRoom] = None, out: Optional[Room] = None
    ) -> PrunedShape:
        """The same as `merged` by the pruned conversion, likewise."""
        if tree is None:
            return self._pruned(face.pruned_merged_two(*self._surfaces(), self.first, self.second, work, out))
        return self._pruned(face.pruned_merged_one(*self._surfaces(), self._tree(tree), work, out))

    def _surfaces(self) -> Tuple[Universe, Whole, Whole]:
        """The universe, the rows and the balls."""
        return self.universe, self.rows, self.balls

    def _tree(self, tree: int) -> Whole:
        """The words of tree 1 or 2."""
        if tree not in (1, 2):
            raise ValueError(f"there is no tree {tree}")
        return self.first if tree == 1 else self.second

    def _shape(self, expression: Symbols) -> Shape:
        return Shape(self.universe, expression)

    def _pruned(self, made: Pruned) -> PrunedShape:
        return PrunedShape(self._shape(made.expression), made.looked)


def scene(bytes: Whole) -> Scene:
    """Reads a scene file: `Scene.from_bytes`."""
    return Scene.from_bytes(bytes)
