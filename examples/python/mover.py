"""A keyed mover against a static Box, from a text: `axes 4 bits K frame F`, `mover X Y Z` with the size of the mover,
`key MOMENT X Y Z` with the near corner at a moment, and `box X Y Z  X Y Z` from near to far. `#` begins a comment.

    tools/shared
    PYTHONPATH=python python3 examples/python/mover.py examples/mover.keys

The sleeve of examples/mover.keys meets the banister on its way there and on its way back, and between them it stands
clear of it. It prints

    hit first 11 last 24 voxels 224

or else `clear`, or `refused N`, and behind 6 what is needed.
"""
import pathlib
import sys

from durbizhan import Box, Key, Mover, Refused, Universe, Verdict


def triple(words: list[str]) -> tuple[float, float, float]:
    x, y, z = map(float, words)
    return x, y, z


def judged(text: str) -> Verdict:
    """The verdict of the mover that a text describes."""
    lines = [line.split("#")[0].split() for line in text.splitlines()]
    told = {line[0]: line[1:] for line in lines if line}
    keys = [Key(int(line[1]), triple(line[2:])) for line in lines if line[:1] == ["key"]]
    banister = Box(triple(told["box"][:3]), triple(told["box"][3:]))
    mover = Mover(Box((0, 0, 0), triple(told["mover"])), keys)
    axes, bits, frame_bits = map(int, told["axes"][::2])
    static = (Universe(axes, bits, frame_bits), banister.rows(), [], banister.words())
    return mover.verdict(*static).verdict


def main(names: list[str]) -> int:
    if len(names) != 1:
        print(__doc__, file=sys.stderr)
        return 2
    try:
        print(judged(pathlib.Path(names[0]).read_text(encoding="utf-8")))
    except Refused as refused:
        print(refused)
        return 1
    except (OSError, KeyError, ValueError) as wrong:
        print(f"no such text: {wrong!r}", file=sys.stderr)
        return 2
    return 0


if __name__ == "__main__":
    sys.exit(main(sys.argv[1:]))
