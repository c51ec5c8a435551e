"""The space that a mover sweeps, for whoever builds a set: tree 1 of a scene file, converted, swept along the frame
axis and written as a shape file. At the repository's top:

    tools/shared
    PYTHONPATH=python python3 examples/python/sweep.py examples/sleeve.scene target/sleeve.shape

The space has one axis fewer, and its last axis stands as its frame axis. It prints

    axes 3 bits 4 frame 4
    symbols 31 volume 256
"""
import pathlib
import sys

from durbizhan import Refused, Scene


def main(names: list[str]) -> int:
    if len(names) != 2:
        print("usage: sweep.py SCENE SHAPE", file=sys.stderr)
        return 2
    try:
        scene = Scene.from_bytes(pathlib.Path(names[0]).read_bytes())
        space = scene.merged(tree=1).sweep(scene.universe.axes)
        volume, file = space.numbers().volume, space.to_bytes()
    except Refused as refused:
        print(refused)
        return 1
    pathlib.Path(names[1]).write_bytes(file)
    print("axes {} bits {} frame {}".format(*space.universe))
    print(f"symbols {len(space.expression)} volume {volume}")
    return 0


if __name__ == "__main__":
    sys.exit(main(sys.argv[1:]))
