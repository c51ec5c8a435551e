"""The text of a scene, which makes the same bytes again. Six rows of a Box, and a tree's words for them, are told as a
box."""
from fractions import Fraction

from .lines import OPERATORS
from .standins import MOST_STEP, box_rows, held

WORDS = {OPERATORS[word]: word for word in ('WHITE', 'BLACK', 'OR', 'AND', 'MINUS')}
MOST_PLACE = 16 * 4096


def decimal(number):
    """A number of sixteenths in decimals."""
    return ('%.4f' % (number / 16)).rstrip('0').rstrip('.')


def box_at(scene, at):
    """Near, far and step of the Box whose rows stand at a row, or None."""
    rows = scene.rows[at:at + 6]
    if scene.axes != 4 or len(rows) < 6: return None
    near, far, step = [-row[0] for row in rows[::2]], [row[0] for row in rows[1::2]], [-row[4] for row in rows[::2]]
    within = all(abs(place) <= MOST_PLACE for place in near + far) and all(abs(v) <= MOST_STEP for v in step)
    ordered = all(n <= f for n, f in zip(near, far))
    return (near, far, step) if within and ordered and box_rows(near, far, step) == rows else None


def term(number, name):
    """A number of times a name, with its sign."""
    return '%s %s%s' % ('-' if number < 0 else '+', '' if abs(number) == 1 else '%d ' % abs(number), name)


def meaning(row, axes):
    """Where a halfspace holds, in words for whoever reads."""
    along = {1: 't', 2: 'xt', 3: 'xyt', 4: 'xyzt'}.get(axes, '')
    names = [along[axis] if axis < len(along) else 'axis%d' % (axis + 1) for axis in range(4)]
    terms = [(number, name) for number, name in zip(row[1:], names) if number]
    if not terms: return 'everywhere' if row[0] >= 0 else 'nowhere'
    (number, name), *others = terms
    if not others: return '%s %s %s' % (name, '>=' if number > 0 else '<=', Fraction(-row[0], number))
    return '%s >= %d' % (' '.join(term(*each) for each in terms).removeprefix('+ '), -row[0])


def row_lines(scene):
    """A line for each row or Box, and the first row of each Box."""
    lines, boxes, at = [], [], 0
    while at < len(scene.rows):
        box = box_at(scene, at)
        if box:
            numbers = '  '.join(' '.join(map(decimal, part)) for part in box)
            lines.append('box %s  # box%d, h%d to h%d' % (numbers, len(boxes), at, at + 5))
            boxes.append(at)
        else:
            numbers = ' '.join(map(str, scene.rows[at]))
            lines.append('row %s  # h%d: %s' % (numbers, at, meaning(scene.rows[at], scene.axes)))
        at += 6 if box else 1
    return lines, boxes


def word_of(word):
    """One word: an operator, a row, a ball, or a number where it means nothing."""
    if 256 <= word < 512: return 'h%d' % (word - 256)
    if 512 <= word < 576: return 'ball%d' % (word - 512)
    return WORDS.get(word, str(word))


def tree_words(tree, boxes):
    """The words of a tree, a Box's eleven as one."""
    known = {256 + first: (number, held(first, 6)) for number, first in enumerate(boxes) if first + 6 <= 256}
    words, at = [], 0
    while at < len(tree):
        number, box = known.get(tree[at], (0, []))
        whole = box and tree[at:at + len(box)] == box
        words.append('box%d' % number if whole else word_of(tree[at]))
        at += len(box) if whole else 1
    return words


def text_of(scene):
    """The text of a scene. Its version is told where no other line says it."""
    lines, boxes = row_lines(scene)
    frame = '' if scene.version == 1 else ' frame %d' % scene.frame_bits
    head = ['axes %d bits %d%s' % (scene.axes, scene.bits, frame)]
    if scene.version == 3 and not scene.balls: head.append('version 3')
    head.append('window %d %d' % (scene.first, scene.last))
    balls = ['ball %s  # ball%d' % (' '.join(map(str, ball)), number) for number, ball in enumerate(scene.balls)]
    trees = [' '.join(['tree %d:' % number] + tree_words(tree, boxes)) for number, tree in enumerate(scene.trees, 1)]
    return '\n'.join(head + lines + balls + trees) + '\n'
