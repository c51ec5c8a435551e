"""The scene of examples/program.txt, converted and judged from Python. At the repository's top:

    tools/shared
    PYTHONPATH=python python3 examples/python/clear.py

It prints

    axes 2 bits 2
    leaves 4 raw 13 room 31
    hit first 1 last 2 voxels 2

and of a scene file, named behind it, the lines of that one: examples/program.scene has these.
"""
import pathlib
import sys

import durbizhan
from durbizhan import INTERSECTION, Refused, Scene, Universe, Window, halfspace

# Two stand-ins of two halfspaces each: one that moves a voxel a frame, and one that stands from 2 to 3.
ROWS = [
    0, 1, -1, 0, 0,
    1, -1, 1, 0, 0,
    -2, 1, 0, 0, 0,
    3, -1, 0, 0, 0,
]  # fmt: skip
FIRST = [halfspace(0), halfspace(1), INTERSECTION]
SECOND = [halfspace(2), halfspace(3), INTERSECTION]
SCENE = Scene(Universe(2, 2, 2), ROWS, [], FIRST, SECOND, Window(0, 3))


def judged(scene: Scene) -> str:
    """The lines of a scene."""
    room = bytearray(scene.room())
    verdict, raw = durbizhan.verdict(
        scene.universe, scene.rows, scene.balls, scene.first, scene.second, scene.window, room
    )
    # asked for its numbers, the expression that was written has the same verdict
    assert durbizhan.numbers(scene.universe, raw, scene.window).verdict == verdict
    universe = f"axes {scene.universe.axes} bits {scene.universe.bits}"
    return f"{universe}\nleaves {scene.leaves()} raw {len(raw)} room {len(room)}\n{verdict}\n"


def main(names: list[str]) -> int:
    if names:
        sys.stdout.write(durbizhan.lines(pathlib.Path(names[0]).read_bytes()))
        return 0
    try:
        sys.stdout.write(judged(SCENE))
    except Refused as refused:
        print(refused)
        return 1
    return 0


if __name__ == "__main__":
    sys.exit(main(sys.argv[1:]))
