"""The universe: axes, bits and frame bits."""
from __future__ import annotations

from typing import NamedTuple

from .answers import Window
from .library import ask


class Universe(NamedTuple):
    """A universe of 1 to 4 axes. The last counts frames, of which there are 2^frame_bits, 0 to 12 bits; along each
    other it is 2^bits units long, 0 to 10 bits. One axis counts frames alone, and bits is 0.

    It is a tuple, and three numbers serve in its place wherever a function takes one. Any numbers make one: it is
    refused BadUniverse by whatever is asked of it.

    >>> Universe(4, 6, 11).levels, Universe(4, 6, 11).window
    (29, Window(first=0, last=2047))
    >>> Universe(1, 2, 2).levels
    Traceback (most recent call last):
    durbizhan.refusals.BadUniverse: refused 2
    """

    axes: int
    bits: int
    frame_bits: int

    def room(self, leaves: int, balls: int = 0) -> int:
        """How many symbols an expression takes at the most, for so many words that name a halfspace, and so many that
        name a ball: where there is one, every block counts. Room as long is never refused NoRoom by a conversion or a
        verdict; a shape file takes 12 bytes more. Refused: BadUniverse.

        >>> Universe(2, 2, 2).room(4), Universe(2, 2, 2).room(1), Universe(2, 2, 2).room(0, 1)
        (31, 23, 31)
        """
        (answer,) = ask("room", *self, leaves, balls)
        return int(answer[0])

    def _checked(self) -> Universe:
        """Itself, unless it is refused."""
        self.room(0)
        return self

    @property
    def levels(self) -> int:
        """How often a block is halved until it is a voxel. Refused: BadUniverse."""
        axes, bits, frame_bits = self._checked()
        return (axes - 1) * bits + frame_bits

    @property
    def frames(self) -> int:
        """How many frames there are; the first is frame 0. Refused: BadUniverse."""
        return 1 << self._checked().frame_bits

    @property
    def window(self) -> Window:
        """All its frames. Refused: BadUniverse."""
        return Window(0, self.frames - 1)

    def side(self, axis: int) -> int:
        """How many units it is long along an axis, counted from 1. Refused: BadUniverse; ValueError where there is no
        such axis.

        >>> Universe(4, 6, 11).side(1), Universe(4, 6, 11).side(4)
        (64, 2048)
        """
        axes, bits, frame_bits = self._checked()
        if not 1 <= axis <= axes:
            raise ValueError(f"there is no axis {axis} of {axes}")
        return 1 << (frame_bits if axis == axes else bits)
