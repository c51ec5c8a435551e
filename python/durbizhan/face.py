"""Every function of include/durbizhan.h under its own name, without the prefix; `scene` stands beside `Scene`.

A universe is `Universe` or its three numbers, a window `Window` or its two; rows are five numbers to a halfspace and
balls four to a ball, all in one list; a tree is its words, an expression its symbols. Each list may be a buffer of the
right type, which is read where it is: bytes, bytearray or a view for symbols, array.array of "q" for rows and balls,
"H" for words, "Q" for moments and "d" for corners. Any other sequence of numbers is copied.

What a function writes goes into `out` where that is lent: a bytearray, or a view that is not read-only. Then what comes
back is a view of its front, with nothing copied; release it before the bytearray changes its length. Else the function
lends itself as much as it takes, and bytes come back. A refusal leaves `out` as it was.

A refusal is raised, by its own exception (`refusals`), and each function names its own in their order. A number that is
out of its type's range is an OverflowError, a buffer of another type a TypeError; ValueError is for one that is not
aligned or has gaps, and for `out` where it overlaps anything that the call reads.
"""
from __future__ import annotations

import array
from typing import Any, Callable, List, Optional, Sequence, Tuple

from .answers import (
    Clearance,
    Contacts,
    Ends,
    Merged,
    NumberRoom,
    Numbers,
    Part,
    Pruned,
    Report,
    Room,
    Row,
    Symbols,
    Verdict,
    Whole,
    Window,
    ends_of,
    verdict_of,
)
from .library import PROTOTYPES, Array, ask, call
from .limits import BOX_ROWS, NODE_LENGTH, SHAPE_HEADER_LENGTH
from .refusals import NoRoom
from .universe import Universe

Space = Tuple[int, int, int]
Frames = Tuple[int, int]
Triple = Tuple[float, float, float]

# as much as a conversion is lent at first, where the formula says more
FIRST_ROOM = 1 << 16


def _written(name: str, enough: Callable[[], int], *given: object, out: Optional[Room]) -> Tuple[List[int], Symbols]:
    """The answer of a call that writes symbols or bytes, and what it wrote: into `out`, or else into as much as is
    enough, and where that does not suffice, into as much as is needed."""
    if out is not None:
        return _filled(name, out, *given)
    try:
        answer, view = _filled(name, bytearray(enough()), *given)
    except NoRoom as short:
        if short.of_work:
            raise
        answer, view = _filled(name, bytearray(short.needed), *given)
    return answer, bytes(view)


def _filled(name: str, room: Any, *given: object) -> Tuple[List[int], memoryview]:
    """The answer of a call that writes to room, which it takes last, and a view of what it wrote."""
    answer = list(ask(name, *given, room)[-1])
    last = PROTOTYPES[name][-1]
    assert isinstance(last, Array) and last.length is not None
    return answer, memoryview(room)[: answer[last.length]]


def _enough(universe: Space, *trees: Whole, more: int = 0) -> int:
    """Room for the words of trees, and so many words more that name a halfspace; some of it, where that is much."""
    return min(Universe(*universe).room(sum(map(leaves, trees)) + more, sum(map(balls, trees))), FIRST_ROOM)


def triple(numbers: Sequence[float]) -> Triple:
    """Three numbers; ValueError where there are more or fewer."""
    x, y, z = numbers
    return x, y, z


# Counts and room.


def leaves(words: Whole) -> int:
    """How many words of one tree name a halfspace. Of a run with two trees, N is the sum. Nothing is refused.

    >>> leaves([256, 257, 3, 512])
    2
    """
    return call("leaves", words)[0]


def balls(words: Whole) -> int:
    """How many words of one tree name a ball. They count nothing of N. Nothing is refused.

    >>> balls([256, 512, 3])
    1
    """
    return call("balls", words)[0]


def room(universe: Space, leaves: int, balls: int) -> int:
    """How many symbols an expression takes at the most: `Universe.room`. Refused: BadUniverse."""
    return Universe(*universe).room(leaves, balls)


# Conversions.


def _converted(
    name: str, universe: Space, surfaces: Tuple[Whole, Whole], trees: Sequence[Whole], out: Optional[Room]
) -> Symbols:
    """What a conversion writes."""
    given = (*Universe(*universe), *surfaces, *trees)
    return _written(name, lambda: _enough(universe, *trees), *given, out=out)[1]


def raw_one(universe: Space, rows: Whole, balls: Whole, words: Whole, out: Optional[Room] = None) -> Symbols:
    """The raw expression of one tree. Refused: BadUniverse, BadRows, BadTree or OverfullTree, NoRoom.

    >>> raw_one((1, 0, 2), [-1, 1, 0, 0, 0], [], [256])
    b'((WBB'
    """
    return _converted("raw_one", universe, (rows, balls), [words], out)


def raw_two(
    universe: Space, rows: Whole, balls: Whole, first: Whole, second: Whole, out: Optional[Room] = None
) -> Symbols:
    """The raw expression of two trees intersected. Refused: BadUniverse, BadRows, BadTree or OverfullTree, NoRoom.

    >>> raw_two((1, 0, 2), [-1, 1, 0, 0, 0], [], [256], [1, 256, 4])
    b'((WWW'
    """
    return _converted("raw_two", universe, (rows, balls), [first, second], out)


def merged_one(universe: Space, rows: Whole, balls: Whole, words: Whole, out: Optional[Room] = None) -> Symbols:
    """The merged expression of one tree. Refused: BadUniverse, BadRows, BadTree or OverfullTree, NoRoom.

    >>> merged_one((1, 0, 2), [-1, 1, 0, 0, 0], [], [256, 256, 4])
    b'W'
    """
    return _converted("merged_one", universe, (rows, balls), [words], out)


def merged_two(
    universe: Space, rows: Whole, balls: Whole, first: Whole, second: Whole, out: Optional[Room] = None
) -> Symbols:
    """The merged expression of two trees intersected. Refused: BadUniverse, BadRows, BadTree or OverfullTree, NoRoom.

    >>> merged_two((1, 0, 2), [-1, 1, 0, 0, 0], [], [256], [1])
    b'((WBB'
    """
    return _converted("merged_two", universe, (rows, balls), [first, second], out)


# Pruned conversions.


def _work(name: str, *given: object) -> NumberRoom:
    """As much work room as a pruned conversion needs: lent none, it tells how many nodes, of three numbers each."""
    none, needed = array.array("q"), 0
    try:
        ask(name, *given, none, bytearray())
    except NoRoom as short:
        needed = short.needed
    return array.array("q", bytes(NODE_LENGTH * none.itemsize * needed))


def _pruned(
    name: str,
    universe: Space,
    surfaces: Tuple[Whole, Whole],
    trees: Sequence[Whole],
    work: Optional[NumberRoom],
    out: Optional[Room],
) -> Pruned:
    """What a pruned conversion writes, and the nodes that it looked at."""
    given = (*Universe(*universe), *surfaces, *trees)
    lent = _work(name, *given) if work is None else work
    answer, expression = _written(name, lambda: _enough(universe, *trees), *given, lent, out=out)
    return Pruned(expression, answer[2])


def pruned_raw_one(
    universe: Space,
    rows: Whole,
    balls: Whole,
    words: Whole,
    work: Optional[NumberRoom] = None,
    out: Optional[Room] = None,
) -> Pruned:
    """The raw expression of one tree by the pruned conversion: from a block to its halves it carries only what is still
    undecided, in work room. That is lent as array.array of "q" or a view with that format, three numbers to a node and
    (L + 1) nodes to each word of the trees, or else made for the call. It is scratch: what it holds afterwards says
    nothing. Refused: BadUniverse, BadRows, BadTree or OverfullTree, NoRoom of work, in nodes, and NoRoom of symbols.

    >>> pruned_raw_one((1, 0, 2), [-1, 1, 0, 0, 0], [], [256])
    Pruned(expression=b'((WBB', looked=5)
    """
    return _pruned("pruned_raw_one", universe, (rows, balls), [words], work, out)


def pruned_raw_two(
    universe: Space,
    rows: Whole,
    balls: Whole,
    first: Whole,
    second: Whole,
    work: Optional[NumberRoom] = None,
    out: Optional[Room] = None,
) -> Pruned:
    """The raw expression of two trees intersected, by the pruned conversion: work room and refusals as of
    `pruned_raw_one`."""
    return _pruned("pruned_raw_two", universe, (rows, balls), [first, second], work, out)


def pruned_merged_one(
    universe: Space,
    rows: Whole,
    balls: Whole,
    words: Whole,
    work: Optional[NumberRoom] = None,
    out: Optional[Room] = None,
) -> Pruned:
    """The merged expression of one tree by the pruned conversion: work room and refusals as of `pruned_raw_one`."""
    return _pruned("pruned_merged_one", universe, (rows, balls), [words], work, out)


def pruned_merged_two(
    universe: Space,
    rows: Whole,
    balls: Whole,
    first: Whole,
    second: Whole,
    work: Optional[NumberRoom] = None,
    out: Optional[Room] = None,
) -> Pruned:
    """The merged expression of two trees intersected, by the pruned conversion: work room and refusals as of
    `pruned_raw_one`."""
    return _pruned("pruned_merged_two", universe, (rows, balls), [first, second], work, out)


# Verdicts.


def verdict(
    universe: Space,
    rows: Whole,
    balls: Whole,
    first: Whole,
    second: Whole,
    window: Frames,
    out: Optional[Room] = None,
) -> Clearance:
    """Whether two trees share space in a window, both ends in; their raw expression is written. Refused: BadUniverse,
    BadRows, BadTree or OverfullTree, Outside, NoRoom.

    >>> verdict((1, 0, 2), [-1, 1, 0, 0, 0], [], [256], [1], (0, 2))
    Clearance(verdict=Hit(first=1, last=2, voxels=2), expression=b'((WBB')
    """
    given = (*Universe(*universe), rows, balls, first, second, *Window(*window))
    answer, expression = _written("verdict", lambda: _enough(universe, first, second), *given, out=out)
    return Clearance(verdict_of(*answer[:4]), expression)


def verdict_at_once(universe: Space, rows: Whole, balls: Whole, first: Whole, second: Whole, window: Frames) -> Verdict:
    """The verdict of `verdict` at once: no room is lent, and no expression is written. Refused: BadUniverse, BadRows,
    BadTree or OverfullTree, Outside.

    >>> verdict_at_once((1, 0, 12), [-1, 1, 0, 0, 0], [], [256], [1], (0, 4095))
    Hit(first=1, last=4095, voxels=4095)
    """
    answer = ask("verdict_at_once", *Universe(*universe), rows, balls, first, second, *Window(*window))[-1]
    return verdict_of(*answer)


def ends_at_once(universe: Space, rows: Whole, balls: Whole, first: Whole, second: Whole, window: Frames) -> Ends:
    """The ends of that verdict alone, at once: nothing is counted, and a block is entered only where it could better
    them. Refused as `verdict_at_once` is.

    >>> ends_at_once((1, 0, 12), [-1, 1, 0, 0, 0], [], [256], [1], (0, 4095))
    Span(first=1, last=4095)
    """
    answer = ask("ends_at_once", *Universe(*universe), rows, balls, first, second, *Window(*window))[-1]
    return ends_of(*answer)


def contacts(universe: Space, rows: Whole, balls: Whole, first: Whole, second: Whole, window: Frames) -> Contacts:
    """How many voxels of a window two trees share: surely, over a voxel's whole block; at its centre, as a verdict
    counts them; and possibly. Where the last is 0, no point of these voxels lies strictly inside both. Refused:
    BadUniverse, BadRows, BadTree or OverfullTree, Outside.

    >>> contacts((1, 0, 2), [-3, 2, 0, 0, 0], [], [256], [1], (0, 3))
    Contacts(sure=2, centre=3, possible=3)
    """
    answer = ask("contacts", *Universe(*universe), rows, balls, first, second, *Window(*window))[-1]
    return Contacts(*answer)


def mover(
    universe: Space,
    near: Triple,
    far: Triple,
    displacement: Triple,
    moments: Whole,
    corners: Sequence[float],
    rows: Whole,
    balls: Whole,
    words: Whole,
    out: Optional[Room] = None,
) -> Clearance:
    """Whether a mover and a static tree share space, every frame by its own stretch. The mover is a Box from near to
    far, which gives its size alone and whose displacement is 0, with 2 to 64 keys: moments that rise, and the near
    corner at each, three numbers to a corner. The static tree has at most 250 rows, and there are four axes. Of the raw
    expressions, that of the last stretch comes back; each is written over the one before. Refused: BadUniverse,
    BadProxy, BadKeys, BadStep, BadRows, BadTree or OverfullTree, NoRoom with the largest need of any stretch.

    >>> mover((4, 1, 1), (0, 0, 0), (1, 1, 1), (0, 0, 0), [0, 2], [0, 0, 0, 2, 0, 0], [], [], [1]).verdict
    Hit(first=0, last=1, voxels=3)
    """
    box = (*triple(near), *triple(far), *triple(displacement))
    given = (*Universe(*universe), *box, moments, corners, rows, balls, words)
    answer, expression = _written("mover", lambda: _enough(universe, words, more=BOX_ROWS), *given, out=out)
    return Clearance(verdict_of(*answer[:4]), expression)


# Questions over an expression.


def well_formed(universe: Space, expression: Whole) -> None:
    """Ends where an expression is well-formed. Refused: BadUniverse, BadExpression.

    >>> well_formed((1, 0, 2), b"((WBB")
    >>> well_formed((1, 0, 1), b"((WBB")
    Traceback (most recent call last):
    durbizhan.refusals.BadExpression: refused 7
    """
    ask("well_formed", *Universe(*universe), expression)


def numbers(universe: Space, expression: Whole, window: Frames) -> Numbers:
    """The black voxels of an expression in the whole universe, and its verdict over a window. Refused: BadUniverse,
    BadExpression, Outside.

    >>> numbers((1, 0, 2), b"((WBB", (0, 1))
    Numbers(volume=3, verdict=Hit(first=1, last=1, voxels=1))
    """
    volume, *rest = ask("numbers", *Universe(*universe), expression, *Window(*window))[-1]
    return Numbers(volume, verdict_of(*rest))


def report(universe: Space, expressions: Whole, window: Frames, counts: Optional[NumberRoom] = None) -> Report:
    """The black voxels of each frame of a window, summed over 0 to 256 expressions that stand one straight after
    another, and their total. The counts are set in `counts`, array.array of "Q" or a view with that format, of whose
    front a view comes back; or else in an array of their own. Refused: BadUniverse, BadExpression, Outside, NoRoom.

    >>> report((1, 0, 2), b"((WBB" b"((BWW", (0, 3))
    Report(counts=array('Q', [1, 1, 1, 1]), total=4)
    """
    given = (*Universe(*universe), expressions, *Window(*window))
    if counts is not None:
        answer, view = _filled("report", counts, *given)
        return Report(view, answer[1])
    row = array.array("Q", bytes(8 * min(max(window[1] - window[0] + 1, 0), FIRST_ROOM)))
    answer, _ = _filled("report", row, *given)
    return Report(row, answer[1])


def colour(universe: Space, expression: Whole, x: int, y: int = 0, z: int = 0, t: int = 0) -> int:
    """The colour at a voxel, 0 WHITE or 1 BLACK. Its place along the last axis is its frame; above the axes it is 0.
    Refused: BadUniverse, BadExpression, Outside.

    >>> [colour((1, 0, 2), b"((WBB", frame) for frame in range(4)]
    [0, 1, 1, 1]
    """
    return int(ask("colour", *Universe(*universe), expression, x, y, z, t)[-1][0])


def part(universe: Space, expression: Whole, path: Whole) -> Part:
    """Where a block's part of an expression stands; its path has a byte for each half, 0 low or 1 high. Refused:
    BadUniverse, BadExpression, Outside.

    >>> part((1, 0, 2), b"((WBB", [0, 1])
    Part(start=3, length=1)
    """
    return Part(*ask("part", *Universe(*universe), expression, path)[-1])


# From expression to expression.


def sweep(universe: Space, axis: int, expression: Whole, out: Optional[Room] = None) -> Tuple[Universe, Symbols]:
    """The space that an expression sweeps along an axis, counted from 1: the universe without that axis, and the merged
    expression there, black exactly where some voxel over it is black. It is never longer than what is swept. Refused:
    BadUniverse, also where there is one axis alone or no such axis, BadExpression, NoRoom.

    >>> sweep((2, 1, 1), 2, b"(W(WB")
    (Universe(axes=1, bits=0, frame_bits=1), b'(WB')
    """
    given = (*Universe(*universe), axis, expression)
    answer, swept = _written("sweep", lambda: len(expression), *given, out=out)
    return Universe(*answer[:3]), swept


def octree_export(universe: Space, expression: Whole, out: Optional[Room] = None) -> Symbols:
    """The octree of an expression of three axes with equal bits: `P` for partly full, followed by its eight sons, `F`
    for full and `E` for empty, with no `P` whose sons are all `F` or all `E`. It is shorter than four times the
    expression. Refused: BadUniverse, also where there are not three axes or the bits differ, BadExpression, NoRoom.

    >>> octree_export((3, 1, 1), b"(WB")
    b'PEEEEFFFF'
    """
    given = (*Universe(*universe), expression)
    return _written("octree_export", lambda: 4 * len(expression), *given, out=out)[1]


def octree_import(universe: Space, octree: Whole, out: Optional[Room] = None) -> Symbols:
    """The merged expression of such an octree, reduced or not. It is shorter than twice the octree. Refused as
    `octree_export` is, BadExpression for no octree.

    >>> octree_import((3, 1, 1), b"PEEEEFFFF")
    b'(WB'
    """
    given = (*Universe(*universe), octree)
    return _written("octree_import", lambda: 2 * len(octree), *given, out=out)[1]


def merge(universe: Space, expression: Whole, out: Optional[Room] = None) -> Merged:
    """The merged expression of a raw or merged one, and the most symbols that merging holds back while it receives it.
    Refused: BadUniverse, BadExpression, NoRoom.

    >>> merge((1, 0, 2), b"((WW(WB")
    Merged(expression=b'(W(WB', held=4)
    """
    given = (*Universe(*universe), expression)
    answer, merged = _written("merge", lambda: len(expression), *given, out=out)
    return Merged(merged, answer[1])


# Files.


def lines(scene: Whole) -> str:
    """The lines that the program prints for a scene file. READ THE LINE: a refusal is the one line `refused n`, or
    `refused 6 needed n` where over 32,768 symbols are needed. Nothing is raised.

    >>> lines(b"")
    'refused 1\\n'
    """
    count, (out,) = call("lines", scene)
    return str(memoryview(out)[:count], "ascii")


def shape_read(bytes: Whole, out: Optional[Room] = None) -> Tuple[Universe, Symbols]:
    """Reads a shape file, of version 1 or 2: its universe and its symbols, which are merged. Refused: BadFile,
    BadUniverse, BadExpression, NotMerged, NoRoom.

    >>> shape_read(b"BNT" b"\\2\\0" b"\\1\\0\\2" b"\\5\\0\\0\\0" b"((WBB")
    (Universe(axes=1, bits=0, frame_bits=2), b'((WBB')
    """
    answer, expression = _written("shape_read", lambda: len(bytes), bytes, out=out)
    return Universe(*answer[:3]), expression


def shape_write(universe: Space, expression: Whole, out: Optional[Room] = None) -> Symbols:
    """The shape file of a merged expression, of version 2: 12 bytes and the symbols. Refused: BadUniverse,
    BadExpression, NotMerged, NoRoom.

    >>> shape_write((1, 0, 2), b"((WBB")
    b'BNT\\x02\\x00\\x01\\x00\\x02\\x05\\x00\\x00\\x00((WBB'
    """
    given = (*Universe(*universe), expression)
    return _written("shape_write", lambda: SHAPE_HEADER_LENGTH + len(expression), *given, out=out)[1]


# Stand-ins.


def box(near: Triple, far: Triple, displacement: Triple = (0, 0, 0)) -> Row:
    """The six rows of a stand-in Box for axes 4, near and far of x, of y, of z; the displacement is per frame. Refused:
    BadProxy.

    >>> box((0, 0, 0), (1, 1, 1), (0.5, 0, 0))[:10]
    array('q', [0, 16, 0, 0, -8, 16, -16, 0, 0, 8])
    """
    return array.array("q", ask("box", *triple(near), *triple(far), *triple(displacement))[-1])


def cut(normal: Triple, offset: float, displacement: Triple = (0, 0, 0)) -> Row:
    """The row of a stand-in Cut for axes 4, which holds where n.x + offset >= 0. Refused: BadProxy.

    >>> cut((1, 0, 0), -2.5, (0.5, 0, 0))
    array('q', [-640, 256, 0, 0, -128])
    """
    return array.array("q", ask("cut", *triple(normal), offset, *triple(displacement))[-1])
