"""Durbizhan: a clearance checker for animated shots. The face for Python.

Two stand-ins are trees over halfspaces and balls, the frame is one more axis, and a scene answers whether they ever
share space:

>>> from durbizhan import Box, Scene, Universe, Window
>>> sleeve, banister = Box((0, 4, 4), (3, 8, 8), (1, 0, 0)), Box((12, 0, 0), (14, 16, 8))
>>> rows = sleeve.rows() + banister.rows()
>>> shot = Scene(Universe(4, 4, 4), rows, [], sleeve.words(), banister.words(row=6), Window(0, 9))
>>> print(shot.verdict())
hit first 9 last 9 voxels 16
>>> shot.contacts()
Contacts(sure=0, centre=16, possible=16)

`Universe`, `Scene`, `Shape`, `Box`, `Cut` and `Mover` have the questions as methods. Every function, refusal,
word and limit of include/durbizhan.h stands here under its own name, without the prefix, and the places of an answer
are fields of what comes back; `durbizhan.face` says what is lent and what comes back, `durbizhan.refusals` what is
raised, `durbizhan.library` where the shared library is looked for.
"""
from .answers import Clear, Clearance, Contacts, Ends, Hit, Merged, Numbers, Part, Pruned, Report, Span, Verdict, Window
from .face import (
    balls,
    box,
    colour,
    contacts,
    cut,
    ends_at_once,
    leaves,
    lines,
    merge,
    merged_one,
    merged_two,
    mover,
    numbers,
    octree_export,
    octree_import,
    part,
    pruned_merged_one,
    pruned_merged_two,
    pruned_raw_one,
    pruned_raw_two,
    raw_one,
    raw_two,
    report,
    room,
    shape_read,
    shape_write,
    sweep,
    verdict,
    verdict_at_once,
    well_formed,
)
from .limits import (
    BALL_LENGTH,
    BOX_NUMBERS,
    BOX_ROWS,
    CENTRE_LIMIT,
    CLEAR,
    COEFFICIENT_LIMIT,
    CORNER_LENGTH,
    CORNER_LIMIT,
    HIT,
    LEAST_AXES,
    LEAST_KEYS,
    MOST_AXES,
    MOST_BALLS,
    MOST_BALL_NUMBERS,
    MOST_BITS,
    MOST_EXPRESSIONS,
    MOST_FRAMES,
    MOST_FRAME_BITS,
    MOST_KEYS,
    MOST_LEVELS,
    MOST_LINES_BYTES,
    MOST_LINES_SYMBOLS,
    MOST_NUMBERS,
    MOST_PENDING,
    MOST_ROWS,
    MOST_SCENE_BYTES,
    MOST_SHAPE_SYMBOLS,
    MOST_STATIC_ROWS,
    MOST_WORDS,
    NODE_LENGTH,
    NORMAL_LIMIT,
    OFFSET_LIMIT,
    RADIUS_LIMIT,
    ROW_LENGTH,
    SHAPE_HEADER_LENGTH,
    STACK_CONVERSION,
    STACK_MOST,
    STACK_OTHER,
    VERSION,
    VERSION_MAJOR,
    VERSION_MINOR,
)
from .proxies import Box, Cut, Key, Mover
from .refusals import (
    ACCEPTED,
    BAD_EXPRESSION,
    BAD_FILE,
    BAD_KEYS,
    BAD_PROXY,
    BAD_ROWS,
    BAD_STEP,
    BAD_TREE,
    BAD_UNIVERSE,
    NO_ROOM,
    NOT_MERGED,
    OUTSIDE,
    OVERFULL_TREE,
    BadExpression,
    BadFile,
    BadKeys,
    BadProxy,
    BadRows,
    BadStep,
    BadTree,
    BadUniverse,
    NoRoom,
    NotMerged,
    Outside,
    OverfullTree,
    Refused,
    Unknown,
)
from .scenes import PrunedShape, Scene, scene
from .shapes import Shape
from .universe import Universe
from .words import (
    BLACK,
    FIRST_BALL,
    FIRST_HALFSPACE,
    INTERSECTION,
    MINUS,
    UNION,
    WHITE,
    ball,
    halfspace,
)

__all__ = [
    "ACCEPTED", "BAD_EXPRESSION", "BAD_FILE", "BAD_KEYS", "BAD_PROXY", "BAD_ROWS", "BAD_STEP", "BAD_TREE",
    "BAD_UNIVERSE", "BALL_LENGTH", "BLACK", "BOX_NUMBERS", "BOX_ROWS", "BadExpression", "BadFile", "BadKeys",
    "BadProxy", "BadRows", "BadStep", "BadTree", "BadUniverse", "Box", "CENTRE_LIMIT", "CLEAR", "COEFFICIENT_LIMIT",
    "CORNER_LENGTH", "CORNER_LIMIT", "Clear", "Clearance", "Contacts", "Cut", "Ends", "FIRST_BALL", "FIRST_HALFSPACE",
    "HIT", "Hit", "INTERSECTION", "Key", "LEAST_AXES", "LEAST_KEYS", "MINUS", "MOST_AXES", "MOST_BALLS",
    "MOST_BALL_NUMBERS", "MOST_BITS", "MOST_EXPRESSIONS", "MOST_FRAMES", "MOST_FRAME_BITS", "MOST_KEYS", "MOST_LEVELS",
    "MOST_LINES_BYTES", "MOST_LINES_SYMBOLS", "MOST_NUMBERS", "MOST_PENDING", "MOST_ROWS", "MOST_SCENE_BYTES",
    "MOST_SHAPE_SYMBOLS", "MOST_STATIC_ROWS", "MOST_WORDS", "Merged", "Mover", "NODE_LENGTH", "NORMAL_LIMIT",
    "NOT_MERGED", "NO_ROOM", "NoRoom", "NotMerged", "Numbers", "OFFSET_LIMIT", "OUTSIDE", "OVERFULL_TREE", "Outside",
    "OverfullTree", "Part", "Pruned", "PrunedShape", "RADIUS_LIMIT", "ROW_LENGTH", "Refused", "Report",
    "SHAPE_HEADER_LENGTH", "STACK_CONVERSION", "STACK_MOST", "STACK_OTHER", "Scene", "Shape", "Span", "UNION",
    "Universe", "Unknown", "VERSION", "VERSION_MAJOR", "VERSION_MINOR", "Verdict", "WHITE", "Window", "ball", "balls",
    "box", "colour", "contacts", "cut", "ends_at_once", "halfspace", "leaves", "lines", "merge", "merged_one",
    "merged_two", "mover", "numbers", "octree_export", "octree_import", "part", "pruned_merged_one",
    "pruned_merged_two", "pruned_raw_one", "pruned_raw_two", "raw_one", "raw_two", "report", "room", "scene",
    "shape_read", "shape_write", "sweep", "verdict", "verdict_at_once", "well_formed",
]
