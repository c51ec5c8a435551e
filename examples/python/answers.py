"""An answer at once: of a scene file, the verdict over its window, and its ends alone, with no room lent. At the
repository's top:

    tools/shared
    PYTHONPATH=python python3 examples/python/answers.py examples/sleeve.scene

It prints

    verdict hit first 9 last 9 voxels 16
    ends    hit first 9 last 9
"""
import pathlib
import sys

from durbizhan import Refused, Scene


def main(names: list[str]) -> int:
    if len(names) != 1:
        print("usage: answers.py SCENE", file=sys.stderr)
        return 2
    try:
        scene = Scene.from_bytes(pathlib.Path(names[0]).read_bytes())
        print(f"verdict {scene.verdict_at_once()}\nends    {scene.ends()}")
    except Refused as refused:
        print(refused)
        return 1
    except OSError as wrong:
        print(wrong, file=sys.stderr)
        return 1
    return 0


if __name__ == "__main__":
    sys.exit(main(sys.argv[1:]))
