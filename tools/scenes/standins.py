"""Stand-ins as rows and words. Corners, steps and sizes are whole numbers of sixteenths, three to each."""
from .lines import OPERATORS, Wrong

AND, OR = OPERATORS['AND'], OPERATORS['OR']
MOST_KEYS, MOST_STEP = 64, 16 * 64


def box_rows(near, far, step):
    """The six rows of a Box (rule 6.3)."""
    rows = []
    for axis in range(3):
        along = [16 if other == axis else 0 for other in range(3)]
        rows += [[-near[axis], *along, -step[axis]], [far[axis], *[-number for number in along], step[axis]]]
    return rows


def cut_row(normal, offset, step):
    """The row of a Cut (rule 6.4)."""
    return [16 * offset, *[16 * number for number in normal], -sum(n * v for n, v in zip(normal, step))]


def frame_rows(axes, frames, first, last):
    """The rows that hold in the frames first to last, both in: one for each end that is not the universe's own."""
    rows = []
    if first > 0: rows.append([-first] + [1 if axis == axes else 0 for axis in range(1, 5)])
    if last < frames - 1: rows.append([last + 1] + [-1 if axis == axes else 0 for axis in range(1, 5)])
    return rows


def joined(shapes, operator):
    """The words of shapes joined by an operator one after another."""
    return shapes[0] + [word for shape in shapes[1:] for word in shape + [operator]]


def held(first, count):
    """The words of so many rows from a row on, joined by AND; BLACK where there are none."""
    return joined([[256 + first + row] for row in range(count)], AND) if count else [OPERATORS['BLACK']]


def box_of(numbers):
    """The corners and the step of a box line: without one it stands still."""
    return numbers[:3], numbers[3:6], numbers[6:] or [0] * 3


def step_of(start, end):
    """What a mover moves a frame from one key to the next (rule 15.4)."""
    frames = end.numbers[0] - start.numbers[0]
    changes = [after - before for before, after in zip(start.numbers[1:], end.numbers[1:])]
    if any(change % frames or abs(change) > MOST_STEP * frames for change in changes):
        wanted = 'a step of a multiple of 1/16 from -64 to 64 was expected since line %d, in %d frames (number 12)'
        raise Wrong(end.place, wanted % (start.place, frames))
    return [change // frames for change in changes]


def key_checks(mover, keys, frames):
    """The keys of a mover are as rules 15.1 and 15.3 say."""
    if not 2 <= len(keys) <= MOST_KEYS:
        wanted = '2 to %d key lines were expected behind it, not %d (number 11)' % (MOST_KEYS, len(keys))
        raise Wrong(mover.place, wanted)
    for before, key in zip(keys, keys[1:]):
        if before.numbers[0] >= key.numbers[0]:
            raise Wrong(key.place, 'a moment after %d was expected (number 11)' % before.numbers[0])
    if keys[-1].numbers[0] > frames:
        raise Wrong(keys[-1].place, 'a moment up to %d was expected, the end of the last frame (number 11)' % frames)


def stretches(mover, keys, frames):
    """For each stretch of a mover the rows of its Box, worked back to time 0, and of its frames (rules 15.5, 15.6)."""
    key_checks(mover, keys, frames)
    rows = []
    for start, end in zip(keys, keys[1:]):
        step, moment = step_of(start, end), start.numbers[0]
        near = [place - moment * v for place, v in zip(start.numbers[1:], step)]
        far = [place + size for place, size in zip(near, mover.numbers)]
        rows.append(box_rows(near, far, step) + frame_rows(4, frames, moment, end.numbers[0] - 1))
    return rows
