"""A solid from layout: an octree as text becomes the merged expression, and comes back as it was, reduced. At the
repository's top:

    tools/shared
    PYTHONPATH=python python3 examples/python/octree.py 2 examples/solid.octree

The first word is the bits of each of the three axes. It prints the expression, which is in examples/solid.expression,
and the octree again:

    (B(((((BWWWWW
    PFFFFPFEEEEEEEEEE
"""
import pathlib
import sys

from durbizhan import Refused, Shape


def main(words: list[str]) -> int:
    if len(words) != 2:
        return 2
    bits, octree = int(words[0]), pathlib.Path(words[1]).read_bytes().rstrip(b"\n")
    try:
        solid = Shape.octree_import((3, bits, bits), octree)
        again = solid.octree_export()
    except Refused as refused:
        print(refused)
        return 1
    print(str(solid.expression, "ascii"))
    print(str(again, "ascii"))
    return 0


if __name__ == "__main__":
    sys.exit(main(sys.argv[1:]))
