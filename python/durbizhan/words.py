"""The words of a tree. In an answer WHITE and BLACK are colours."""

WHITE = 0
BLACK = 1
UNION = 2
INTERSECTION = 3
MINUS = 4
FIRST_HALFSPACE = 256
FIRST_BALL = 512


def halfspace(i: int) -> int:
    """The word that names halfspace i, 0 to 255: row i of those that are lent.

    >>> halfspace(1)
    257
    """
    return FIRST_HALFSPACE + i


def ball(i: int) -> int:
    """The word that names ball i, 0 to 63.

    >>> ball(1)
    513
    """
    return FIRST_BALL + i
