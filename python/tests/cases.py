"""What each function answers, and what it refuses, at both sides of the edges: name, arguments, and the answer or the
exception. Everything but the arguments stands written out here."""
import array
import pathlib
import struct

from durbizhan import (
    BadExpression,
    BadFile,
    BadKeys,
    BadProxy,
    BadRows,
    BadStep,
    BadTree,
    BadUniverse,
    Clear,
    Clearance,
    Contacts,
    Hit,
    Merged,
    NotMerged,
    Numbers,
    Outside,
    OverfullTree,
    Part,
    Pruned,
    Report,
    Span,
    Universe,
)

TOP = pathlib.Path(__file__).resolve().parent.parent.parent
EXAMPLES = TOP / "examples"

# the scene of examples/program.txt: a stand-in that moves a voxel a frame, and one that stands from 2 to 3
PLANE = (2, 2, 2)
ROWS = [0, 1, -1, 0, 0, 1, -1, 1, 0, 0, -2, 1, 0, 0, 0, 3, -1, 0, 0, 0]
FIRST, SECOND = [256, 257, 3], [258, 259, 3]
ALL = (0, 3)

# four frames, black from frame 1 on
LINE = (1, 0, 2)
FROM_ONE = [-1, 1, 0, 0, 0]
SPAN = b"((WBB"
# both stand-ins of the plane, raw as well as merged
MET = b"(W(((WBW((BWW"

# the limits of rules 2.1, 2.5, 2.6, 2.10 and 3.2, and what is just past them
LARGEST = [1 << 40, -(1 << 24), 0, 0, 0]
MOST_WORDS = [1] + [0, 2] * 127
MOST_PENDING = [1] * 32 + [3] * 31
PAST = {
    "rows": [
        (BadRows, [(1 << 40) + 1, 0, 0, 0, 0]),
        (BadRows, [0, (1 << 24) + 1, 0, 0, 0]),
        (BadRows, [0, 0, 1, 0, 0]),
        (BadRows, [0, 0, 0, 0]),
        (BadRows, FROM_ONE * 257),
    ],
    "balls": [(BadRows, balls) for balls in ([0, 0, 0, 1025], [0, 0, 0, -1], [1, 0, 0, 1], [0, 0, 0, 1] * 65)],
    "words": [
        (BadTree, []),
        (BadTree, [2]),
        (BadTree, [5]),
        (BadTree, [1, 1]),
        (BadTree, [257]),
        (BadTree, [513]),
        (OverfullTree, MOST_WORDS + [0, 2]),
        (OverfullTree, [1] * 33 + [3] * 32),
    ],
}
UNIVERSES = [(0, 0, 2), (5, 0, 2), (1, 1, 2), (2, 11, 2), (2, 2, 13), (2, 2, (1 << 64) - 1)]

ONES = ["raw_one", "merged_one", "pruned_raw_one", "pruned_merged_one"]
TWOS = ["raw_two", "merged_two", "pruned_raw_two", "pruned_merged_two"]


def pruned_or_not(name, expression, looked):
    """What a conversion answers: with the nodes looked at where it is pruned."""
    return Pruned(expression, looked) if name.startswith("pruned") else expression


def converted():
    """Conversions: one tree, and two."""
    ball = [0, 0, 0, 1]
    for name in ONES:
        yield name, (LINE, FROM_ONE, [], [256]), pruned_or_not(name, SPAN, 5)
        yield name, (LINE, FROM_ONE, ball, [512]), pruned_or_not(name, b"B", 1)
        yield name, (LINE, LARGEST * 256, ball * 64, [511, 575, 3]), pruned_or_not(name, b"B", 3)
        yield name, (LINE, [], [], MOST_WORDS), pruned_or_not(name, b"B", 255)
        yield name, (LINE, [], [], MOST_PENDING), pruned_or_not(name, b"B", 63)
        skin = b"((WWW" if "raw" in name else b"W"
        yield name, (LINE, FROM_ONE, [], [256, 256, 4]), pruned_or_not(name, skin, 15)
    for name in TWOS:
        yield name, (LINE, FROM_ONE, [], [256], [1]), pruned_or_not(name, SPAN, 6)
        yield name, (LINE, FROM_ONE, [], [0], [256]), pruned_or_not(name, b"W", 2)
        nothing = b"((WWW" if "raw" in name else b"W"
        yield name, (LINE, FROM_ONE, [], [256], [1, 256, 4]), pruned_or_not(name, nothing, 4 + 2 + 2 + 2 + 2)


def unconverted():
    """What conversions refuse."""
    for name in ONES + TWOS:
        trees = [[256]] if name in ONES else [[256], [1]]
        yield from ((name, (universe, FROM_ONE, [], *trees), BadUniverse) for universe in UNIVERSES)
        yield from ((name, (LINE, rows, [], *trees), kind) for kind, rows in PAST["rows"])
        yield from ((name, (LINE, FROM_ONE, balls, *trees), kind) for kind, balls in PAST["balls"])
        yield from ((name, (LINE, FROM_ONE, [], words, *trees[1:]), kind) for kind, words in PAST["words"])
    for name in TWOS:
        yield from ((name, (LINE, FROM_ONE, [], [1], words), kind) for kind, words in PAST["words"])


def judged():
    """Verdicts, in lent room and at once, and sure and possible contact."""
    both = (PLANE, ROWS, [], FIRST, SECOND)
    yield "verdict", (*both, ALL), Clearance(Hit(1, 2, 2), MET)
    yield "verdict", (*both, (2, 2)), Clearance(Hit(2, 2, 1), MET)
    yield "verdict", (*both, (3, 3)), Clearance(Clear(), MET)
    yield "verdict", (LINE, FROM_ONE, [0, 0, 0, 0], [256], [512], (0, 3)), Clearance(Hit(1, 3, 3), SPAN)
    for window, hit in ((ALL, (1, 2, 2)), ((2, 2), (2, 2, 1))):
        yield "verdict_at_once", (*both, window), Hit(*hit)
        yield "ends_at_once", (*both, window), Span(*hit[:2])
    yield "verdict_at_once", (*both, (3, 3)), Clear()
    yield "ends_at_once", (*both, (3, 3)), Clear()
    yield "verdict_at_once", (LINE, FROM_ONE, [0, 0, 0, 0], [256], [512], (0, 3)), Hit(1, 3, 3)
    yield "ends_at_once", (LINE, FROM_ONE, [0, 0, 0, 0], [512], [256], (0, 3)), Span(1, 3)
    yield "contacts", (*both, ALL), Contacts(0, 2, 2)
    yield "contacts", (*both, (0, 0)), Contacts(0, 0, 0)
    yield "contacts", (LINE, FROM_ONE, [0, 0, 0, 0], [512], [256], (0, 3)), Contacts(3, 3, 3)
    yield "contacts", (LINE, [-3, 2, 0, 0, 0], [], [256], [1], (0, 3)), Contacts(2, 3, 3)


def unjudged():
    """What verdicts, answers at once and contacts refuse."""
    for name in ("verdict", "verdict_at_once", "ends_at_once", "contacts"):
        yield from ((name, (universe, FROM_ONE, [], [256], [1], (0, 0)), BadUniverse) for universe in UNIVERSES)
        yield from ((name, (LINE, rows, [], [256], [1], (0, 3)), kind) for kind, rows in PAST["rows"])
        yield from ((name, (LINE, FROM_ONE, balls, [256], [1], (0, 3)), kind) for kind, balls in PAST["balls"])
        yield from ((name, (LINE, FROM_ONE, [], words, [1], (0, 3)), kind) for kind, words in PAST["words"])
        yield from ((name, (LINE, FROM_ONE, [], [1], words, (0, 3)), kind) for kind, words in PAST["words"])
        yield from ((name, (LINE, FROM_ONE, [], [1], [1], window), Outside) for window in ((0, 4), (2, 1)))


# one place and two frames; the mover goes past it in the first
GATE = (4, 0, 1)
UNIT = ((0, 0, 0), (1, 1, 1), (0, 0, 0))
PASSING = ([0, 2], [0, 0, 0, 2, 0, 0])
LONG = (4, 0, 12)


def moved():
    """Movers: against all of space, against nothing, with the most keys, the last moment and the largest step."""
    yield "mover", (GATE, *UNIT, *PASSING, [], [], [1]), Clearance(Hit(0, 0, 1), b"(BW")
    yield "mover", (GATE, *UNIT, *PASSING, [], [], [0]), Clearance(Clear(), b"W")
    yield "mover", (GATE, *UNIT, *PASSING, LARGEST * 250, [0, 0, 0, 0], [505, 512, 3, 0, 3]), Clearance(Clear(), b"W")
    yield "mover", (LONG, *UNIT, range(64), [0.0] * 192, [], [], [0]), Clearance(Clear(), b"W")
    yield "mover", (LONG, *UNIT, [0, 4096], [0.0] * 6, [], [], [1]), Clearance(Hit(0, 4095, 4096), b"B")
    yield "mover", (GATE, *UNIT, [0, 1], [0, 0, 0, 64, 0, 0], [], [], [0]), Clearance(Clear(), b"W")


def unmoved():
    """What a mover refuses, each at its own edge."""
    still = ([], [], [0])
    for universe in (*UNIVERSES, (3, 0, 1)):
        yield "mover", (universe, *UNIT, *PASSING, *still), BadUniverse
    for near, far, displacement in ((0, 1, 1), (2, 1, 0), (0, 4096.0625, 0)):
        yield "mover", (GATE, (near, 0, 0), (far, 1, 1), (displacement, 0, 0), *PASSING, *still), BadProxy
    yield "mover", (GATE, *UNIT, [0, 2], [0, 0, 0, 0.03125, 0, 0], *still), BadProxy
    yield "mover", (LONG, *UNIT, range(65), [0.0] * 195, *still), BadKeys
    for moments in ([0], [0, 0], [2, 0], [0, 3]):
        yield "mover", (GATE, *UNIT, moments, [0.0] * 3 * len(moments), *still), BadKeys
    yield "mover", (GATE, *UNIT, [0, 2], [0.0] * 5, *still), BadKeys
    yield "mover", (GATE, *UNIT, [0, 1], [0, 0, 0, 64.0625, 0, 0], *still), BadStep
    yield "mover", (GATE, *UNIT, [0, 2], [0, 0, 0, 0.0625, 0, 0], *still), BadStep
    yield "mover", (GATE, *UNIT, *PASSING, LARGEST * 251, [], [0]), BadRows
    yield "mover", (GATE, *UNIT, *PASSING, [], [0, 0, 0, 1025], [0]), BadRows
    yield from (("mover", (GATE, *UNIT, *PASSING, [], [], words), kind) for kind, words in PAST["words"])


def asked():
    """Questions over an expression."""
    yield "well_formed", (LINE, SPAN), None
    yield "well_formed", (PLANE, MET), None
    yield "numbers", (LINE, SPAN, (0, 1)), Numbers(3, Hit(1, 1, 1))
    yield "numbers", (LINE, SPAN, (0, 0)), Numbers(3, Clear())
    yield "numbers", (PLANE, MET, ALL), Numbers(2, Hit(1, 2, 2))
    yield "report", (LINE, SPAN, (0, 3)), Report(array.array("Q", [0, 1, 1, 1]), 3)
    yield "report", (LINE, SPAN + b"((BWW", (0, 1)), Report(array.array("Q", [1, 1]), 2)
    yield "report", (LINE, b"", (0, 3)), Report(array.array("Q", [0, 0, 0, 0]), 0)
    yield "report", (LINE, b"B" * 256, (3, 3)), Report(array.array("Q", [256]), 256)
    yield "report", (LONG, b"B", (0, 4095)), Report(array.array("Q", [1] * 4096), 4096)
    yield from (("colour", (LINE, SPAN, frame), colour) for frame, colour in enumerate([0, 1, 1, 1]))
    yield "colour", (PLANE, MET, 2, 1), 1
    yield "colour", (PLANE, MET, 1, 2), 0
    yield "colour", ((4, 1, 1), b"(W(W(W(WB", 1, 1, 1, 1), 1
    yield "part", (LINE, SPAN, b""), Part(0, 5)
    yield "part", (LINE, SPAN, [0]), Part(1, 3)
    yield "part", (LINE, SPAN, [0, 1]), Part(3, 1)
    yield "part", (LINE, SPAN, [1, 1]), Part(4, 1)


def unasked():
    """What the questions refuse."""
    more = {
        "well_formed": (),
        "numbers": ((0, 0),),
        "report": ((0, 0),),
        "colour": (0,),
        "part": ([],),
        "octree_export": (),
        "merge": (),
        "shape_write": (),
    }
    for name, rest in more.items():
        universes = [*UNIVERSES, *([LINE, (3, 1, 2), (4, 1, 1)] if name == "octree_export" else [])]
        yield from ((name, (universe, b"W", *rest), BadUniverse) for universe in universes)
        wrong = (b"(", b"w", b"(((((WWWWWW") + (() if name == "report" else (b"", b"WW", b"(WWW"))
        yield from ((name, ((3, 1, 1), symbols, *rest), BadExpression) for symbols in wrong)
    for name in ("numbers", "report"):
        yield from ((name, (LINE, SPAN, window), Outside) for window in ((0, 4), (3, 2), (4, 4)))
    yield "report", (LINE, b"B" * 257, (0, 3)), BadExpression
    for voxel in ((4,), (0, 1), (0, 0, 1), (0, 0, 0, 1)):
        yield "colour", (LINE, SPAN, *voxel), Outside
    yield from (("part", (LINE, SPAN, path), Outside) for path in ([2], [0, 0, 0]))


def made():
    """From expression to expression, and octrees."""
    yield "sweep", (PLANE, 2, MET), (Universe(1, 0, 2), b"(W(BW")
    yield "sweep", (PLANE, 1, MET), (Universe(1, 0, 2), b"((WB(BW")
    yield "sweep", ((4, 1, 2), 4, b"W"), (Universe(3, 1, 1), b"W")
    yield "octree_export", ((3, 1, 1), b"(WB"), b"PEEEEFFFF"
    yield "octree_export", ((3, 1, 1), b"(WW"), b"E"
    yield "octree_export", ((3, 0, 0), b"B"), b"F"
    yield "octree_import", ((3, 1, 1), b"PEEEEFFFF"), b"(WB"
    yield "octree_import", ((3, 1, 1), b"PFFFFFFFF"), b"B"
    yield "octree_import", ((3, 0, 0), b"E"), b"W"
    yield "merge", (LINE, SPAN), Merged(SPAN, 3)
    yield "merge", (LINE, b"((WW(WW"), Merged(b"W", 4)
    yield "merge", (LINE, b"(B(BW"), Merged(b"(B(BW", 4)


def unmade():
    """What these refuse, beside what all questions do."""
    yield from (("sweep", (universe, 1, b"W"), BadUniverse) for universe in [*UNIVERSES, LINE])
    yield from (("sweep", (PLANE, axis, b"W"), BadUniverse) for axis in (0, 3, (1 << 64) - 1))
    yield from (("sweep", (PLANE, 1, symbols), BadExpression) for symbols in (b"", b"(", b"WW"))
    for universe in [*UNIVERSES, LINE, (3, 1, 2), (4, 1, 1)]:
        yield "octree_import", (universe, b"F"), BadUniverse
    for octree in (b"", b"P", b"PFFFFFFF", b"PFFFFFFFFF", b"f", b"PPFFFFFFFFFFFFFFF"):
        yield "octree_import", ((3, 1, 1), octree), BadExpression
    yield "octree_import", ((3, 0, 0), b"PFFFFFFFF"), BadExpression


def scene_file(version=3, universe=(2, 2, 2), window=(0, 3), rows=ROWS, balls=(), first=FIRST, second=SECOND):
    """A scene file of version 2 or 3, as rules 7.2 and 7.6 say."""
    counts = (len(rows) // 5, len(first), len(second), *window)
    file = b"HSC" + struct.pack("<H3B5H", version, *universe, *counts)
    file += struct.pack("<H", len(balls) // 4) if version == 3 else b""
    file += struct.pack(f"<{len(rows)}q", *rows)
    file += b"".join(struct.pack("<3hH", *balls[i : i + 4]) for i in range(0, len(balls), 4))
    return file + struct.pack(f"<{len(first) + len(second)}H", *first, *second)


def shape_file(symbols=SPAN, universe=(1, 0, 2), version=2, mark=b"BNT"):
    """A shape file of version 2, as rule 7.3 says."""
    return mark + struct.pack("<H3BI", version, *universe, len(symbols)) + symbols


def filed():
    """Files."""
    hit = "leaves 4 raw 13 room 31\nhit first 1 last 2 voxels 2\n"
    yield "lines", ((EXAMPLES / "program.scene").read_bytes(),), "axes 2 bits 2\n" + hit
    yield "lines", (scene_file(),), "axes 2 bits 2 frame 2\n" + hit
    yield "lines", (b"",), "refused 1\n"
    yield "lines", (scene_file(window=(0, 4)),), "refused 9\n"
    yield "shape_read", (shape_file(),), (Universe(*LINE), SPAN)
    yield "shape_read", (b"BNT\1\0\1\2\5\0\0\0" + SPAN,), (Universe(*LINE), SPAN)
    yield "shape_write", (LINE, SPAN), shape_file()
    yield "shape_write", ((4, 10, 12), b"B"), shape_file(b"B", (4, 10, 12))


def unfiled():
    """What files refuse."""
    whole = scene_file()
    for file in (b"", whole[:-1], whole + b"\0", b"hSC" + whole[3:], scene_file(version=4), whole[:19]):
        yield "scene", (file,), BadFile
    for universe in ((0, 2, 2), (5, 2, 2), (2, 11, 2), (2, 2, 13)):
        yield "scene", (scene_file(universe=universe),), BadUniverse
    yield "scene", (scene_file(rows=[(1 << 40) + 1, 0, 0, 0, 0]),), BadRows
    yield "scene", (scene_file(balls=[0, 0, 0, 1025]),), BadRows
    yield from (("scene", (scene_file(first=words),), kind) for kind, words in PAST["words"] if 257 not in words)
    yield from (("scene", (scene_file(window=window),), Outside) for window in ((0, 4), (2, 1)))
    whole = shape_file()
    for file in (b"", whole[:-1], whole + b"W", shape_file(version=3), shape_file(mark=b"BNt")):
        yield "shape_read", (file,), BadFile
    for universe in ((0, 0, 2), (5, 0, 2), (1, 1, 2)):
        yield "shape_read", (shape_file(universe=universe),), BadUniverse
    yield from (("shape_read", (shape_file(symbols),), BadExpression) for symbols in (b"", b"(", b"(((WWWW"))
    yield "shape_read", (shape_file(b"(WW"),), NotMerged
    yield "shape_write", (LINE, b"((BBW"), NotMerged


def counted():
    """Counts and room."""
    yield from (("leaves", (words,), count) for words, count in (([], 0), ([255, 256, 511, 512], 2), (FIRST, 2)))
    yield from (("balls", (words,), count) for words, count in (([], 0), ([511, 512, 575, 576], 2), (FIRST, 0)))
    yield "room", (PLANE, 4, 0), 31
    yield "room", (PLANE, 1, 0), 23
    yield "room", (PLANE, 0, 1), 31
    yield "room", ((4, 10, 12), 0, (1 << 64) - 1), (1 << 43) - 1
    yield "room", (LINE, 0, 0), 1


def uncounted():
    """What the room question refuses."""
    yield from (("room", (universe, 0, 0), BadUniverse) for universe in UNIVERSES)


def stood():
    """Stand-ins, at the limits of rule 6.2."""
    x, y = [0, 16, 0, 0, -8, 16, -16, 0, 0, 8], [0, 0, 16, 0, 0, 32, 0, -16, 0, 0]
    z = [0, 0, 0, 16, 0, 48, 0, 0, -16, 0]
    yield "box", ((0, 0, 0), (1, 2, 3), (0.5, 0, -0.0)), array.array("q", x + y + z)
    x, y = [65536, 16, 0, 0, 0, 65536, -16, 0, 0, 0], [0, 0, 16, 0, 0, 0, 0, -16, 0, 0]
    z = [0, 0, 0, 16, -1024, 1, 0, 0, -16, 1024]
    yield "box", ((-4096, 0, 0), (4096, 0, 0.0625), (0, 0, 64)), array.array("q", x + y + z)
    yield "cut", ((1, 0, 0), -2.5, (0.5, 0, 0)), array.array("q", [-640, 256, 0, 0, -128])
    yield "cut", ((64, -64, 0.0625), 4096, (0, 64, 0)), array.array("q", [1 << 20, 16384, -16384, 16, 1 << 20])


def unstood():
    """What stand-ins refuse: past a limit, no sixteenth, no number, near over far."""
    one = (1, 1, 1)
    for number in (4096.0625, 1 / 32, float("nan"), float("inf")):
        yield "box", ((0, 0, 0), (number, 4096, 4096)), BadProxy
        yield "cut", (one, number), BadProxy
    for number in (64.0625, -64.0625, 1 / 32):
        yield "box", ((0, 0, 0), one, (0, number, 0)), BadProxy
        yield "cut", ((0, 0, number), 0), BadProxy
        yield "cut", (one, 0, (number, 0, 0)), BadProxy
    yield "box", ((0, 0, 1.0625), one), BadProxy


ACCEPTED = [case for cases in (converted, judged, moved, asked, made, filed, counted, stood) for case in cases()]
REFUSED = [
    case for cases in (unconverted, unjudged, unmoved, unasked, unmade, unfiled, uncounted, unstood) for case in cases()
]
