"""Contacts that centres miss: of a scene file, for each frame of its window in which the two stand-ins possibly share
space, the voxels that they surely share, over the voxel's whole block, those that they share at its centre, as a
verdict counts them, and those that they possibly share. At the repository's top:

    tools/shared
    PYTHONPATH=python python3 examples/python/contacts.py examples/keyed.scene

It prints

    frame    sure  centre  possible
       10       0       0        16
       11       0      16        32
       12      16      32        32
       13      16      32        32
       14       0      16        32
       15       0       0        16
       20       0      16        16
       21      16      32        32
       22      32      32        32
       23      16      32        32
       24       0      16        16
    total      96     224       288
"""
import dataclasses
import pathlib
import sys

from durbizhan import Contacts, Refused, Scene, Window


def row(name: object, counts: Contacts) -> str:
    return f"{name:>5}{counts.sure:8}{counts.centre:8}{counts.possible:10}"


def table(scene: Scene) -> str:
    """A row for each frame with possible contact, and the total of the window."""
    total, rows = scene.contacts(), []
    for frame in range(scene.window.first, scene.window.last + 1):
        counts = dataclasses.replace(scene, window=Window(frame, frame)).contacts()
        if counts.possible:
            rows.append(row(frame, counts))
    return "\n".join(["frame    sure  centre  possible", *rows, row("total", total)])


def main(names: list[str]) -> int:
    if len(names) != 1:
        print("usage: contacts.py SCENE", file=sys.stderr)
        return 2
    try:
        print(table(Scene.from_bytes(pathlib.Path(names[0]).read_bytes())))
    except Refused as refused:
        print(refused)
        return 1
    except OSError as wrong:
        print(wrong, file=sys.stderr)
        return 1
    return 0


if __name__ == "__main__":
    sys.exit(main(sys.argv[1:]))
