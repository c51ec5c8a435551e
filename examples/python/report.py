"""How much of each frame, for a lead: shots of scene files, which share one universe and one window, a column for each
and one for all. Where none is named, two shots that are written below: a stand-in that moves a voxel a frame meets a
wall one voxel deep in the first and one three voxels deep in the second. At the repository's top:

    tools/shared
    PYTHONPATH=python python3 examples/python/report.py

It prints

    frame  shot 1  shot 2     all
        0       0       0       0
        1       1       0       1
        2       1       0       1
        3       0       1       1
        4       0       2       2
        5       0       2       2
        6       0       1       1
        7       0       0       0
    total       2       6       8
"""
import pathlib
import sys

import durbizhan
from durbizhan import INTERSECTION, Refused, Scene, Universe, Window, halfspace

# The stand-in between t and t + 1, and the two walls: from 2 to 3, and from 4 to 7.
MOVER = [
    0, 1, -1, 0, 0,
    1, -1, 1, 0, 0,
]  # fmt: skip
WALLS = [[-2, 1, 0, 0, 0, 3, -1, 0, 0, 0], [-4, 1, 0, 0, 0, 7, -1, 0, 0, 0]]
FIRST = [halfspace(0), halfspace(1), INTERSECTION]
SECOND = [halfspace(2), halfspace(3), INTERSECTION]
WRITTEN = [Scene(Universe(2, 3, 3), MOVER + wall, [], FIRST, SECOND, Window(0, 7)) for wall in WALLS]


def table(shots: list[Scene]) -> str:
    """A column for each shot and one for all, whose expressions stand one straight after another."""
    universe, window = shots[0].universe, shots[0].window
    expressions = [shot.merged().expression for shot in shots]
    reports = [durbizhan.report(universe, one, window) for one in [*expressions, b"".join(expressions)]]
    frames = map(str, range(window.first, window.last + 1))
    rows = [*zip(frames, *(one.counts for one in reports)), ("total", *(one.total for one in reports))]
    titles = "".join(f"  shot {place}" for place in range(1, len(shots) + 1))
    lines = (f"{name:>5}" + "".join(f"{count:8}" for count in counts) for name, *counts in rows)
    return "\n".join([f"frame{titles}     all", *lines])


def main(names: list[str]) -> int:
    try:
        shots = [Scene.from_bytes(pathlib.Path(name).read_bytes()) for name in names] or WRITTEN
        for name, shot in zip(names, shots):
            if (shot.universe, shot.window) != (shots[0].universe, shots[0].window):
                print(f"{name} is of another universe or window")
                return 1
        print(table(shots))
    except Refused as refused:
        print(refused)
        return 1
    except OSError as wrong:
        print(wrong, file=sys.stderr)
        return 1
    return 0


if __name__ == "__main__":
    sys.exit(main(sys.argv[1:]))
