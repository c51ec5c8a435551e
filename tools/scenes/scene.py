"""A scene of the lines of a text."""
from collections import namedtuple

from .files import Scene
from .lines import AXES, NUMBERED, OPERATORS, U16, Wrong, lines_of
from .standins import OR, box_of, box_rows, cut_row, frame_rows, held, joined, stretches

MOST_ROWS, MOST_BALLS, MOST_WORDS = 256, 64, 255

# What a name stands for: its words, the line that says so, and whether words can name all of its rows or its ball.
Standin = namedtuple('Standin', 'words line named')
# The universe of an axes line: its numbers, and how many frames there are.
Universe = namedtuple('Universe', 'axes bits frame_bits frames')


def only(lines, end, kind, form, number=None):
    """The one line of a kind, of a tree the one with a number. A second is wrong; so is none where a form is given."""
    found = [line for line in lines if line.kind == kind and number in (None, line.numbers[0])]
    if len(found) > 1:
        raise Wrong(found[1].place, 'one such line was expected, and line %d is the first' % found[0].place)
    if not found and form: raise Wrong(end, '%s was expected before the text ends' % form)
    return found[0] if found else None


def universe_of(line):
    """The universe that a line names. Without frame bits there are as many frames as an axis has units."""
    axes, bits, *frame = line.numbers
    return Universe(axes, bits, frame[0] if frame else None, 2 ** (frame[0] if frame else bits))


def keys_of(lines):
    """The keys of each mover, by its line: those behind it and before the next."""
    keys, mover = {}, None
    for line in lines:
        if line.kind == 'mover': mover = line.place; keys[mover] = []
        elif line.kind == 'key':
            if mover is None: raise Wrong(line.place, 'a mover line was expected before its key')
            keys[mover].append(line)
    return keys


def proxy_rows(line, universe, keys):
    """The rows of a line, as one list or, of a mover, as one for each stretch."""
    if line.kind in ('box', 'cut', 'mover') and universe.axes != 4:
        raise Wrong(line.place, 'axes 4 was expected for a %s' % line.kind)
    if line.kind == 'row': return [[line.numbers]]
    if line.kind == 'cut': return [[cut_row(line.numbers[:3], line.numbers[3], line.numbers[4:] or [0] * 3)]]
    if line.kind == 'mover': return stretches(line, keys[line.place], universe.frames)
    if line.kind == 'frame': return [frame_line_rows(line, universe)]
    near, far, step = box_of(line.numbers)
    if any(n > f for n, f in zip(near, far)):
        raise Wrong(line.place, 'a near corner up to the far one was expected on each axis (number 10)')
    return [box_rows(near, far, step)]


def frame_line_rows(line, universe):
    """The rows of a frame line."""
    first, last = line.numbers
    if not 1 <= universe.axes <= 4: raise Wrong(line.place, 'axes 1 to 4 was expected for a frame')
    if not first <= last < universe.frames:
        wanted = 'frames from 0 to %d were expected, the first up to the last' % (universe.frames - 1)
        raise Wrong(line.place, wanted)
    return frame_rows(universe.axes, universe.frames, first, last)


def standins_of(lines, universe):
    """All rows, all balls, and of each stand-in line what its name stands for."""
    rows, balls, standins, keys = [], [], [], keys_of(lines)
    for line in lines:
        if line.kind == 'ball':
            standins.append(Standin([512 + len(balls)], line, len(balls) < MOST_BALLS))
            balls.append(line.numbers)
        elif line.kind in ('row', 'box', 'cut', 'frame', 'mover'):
            shapes = []
            for part in proxy_rows(line, universe, keys):
                shapes.append(held(len(rows), len(part)))
                rows += part
            standins.append(Standin(joined(shapes, OR), line, len(rows) <= MOST_ROWS))
    return rows, balls, standins


def names_of(standins):
    """What each name stands for: its own, and its number in its kind."""
    names, counts = {}, {}
    for standin in standins:
        line, count = standin.line, counts.get(standin.line.kind, 0)
        if line.name in names:
            first = names[line.name].line.place
            raise Wrong(line.place, 'a name of its own was expected, and %s is that of line %d' % (line.name, first))
        counts[line.kind] = count + 1
        if line.kind not in ('row', 'ball'): names['%s%d' % (line.kind, count)] = standin
        if line.name: names[line.name] = standin
    return names


def numbered(word):
    """The word of a row or a ball that is named by its number, whether there is one or not."""
    match = NUMBERED.fullmatch(word)
    if not match or match[1] not in ('h', 'ball') or len(match[2]) > 3: return None
    number = int(match[2])
    if match[1] == 'h': return 256 + number if number < MOST_ROWS else None
    return 512 + number if number < MOST_BALLS else None


def words_of(word, place, names):
    """The words that a word of a text stands for."""
    if word in OPERATORS: return [OPERATORS[word]]
    if word in names:
        if names[word].named: return names[word].words
        raise Wrong(place, 'a stand-in among the first %d rows and %d balls was expected, and %s is none'
                    % (MOST_ROWS, MOST_BALLS, word))
    if numbered(word) is not None: return [numbered(word)]
    try: return [U16(word)]
    except ValueError:
        raise Wrong(place, 'a name, an operator or a number up to 65535 was expected, not %r' % word) from None


def tree_of(line, names):
    """The words of a tree. One that a mover makes too long is told here, since its words are not in the text."""
    words = [number for word in line.words for number in words_of(word, line.place, names)]
    moves = any(word in names and names[word].line.kind == 'mover' for word in line.words)
    most = MOST_WORDS if moves else 65535
    if len(words) > most:
        raise Wrong(line.place, 'a tree of up to %d words was expected, not of %d' % (most, len(words)))
    return words


def version_of(asked, universe, balls):
    """The version of the file: the first that has a place for all, or a later one that a line names."""
    least = 3 if balls else 1 if universe.frame_bits is None else 2
    if asked and asked.numbers[0] < least:
        raise Wrong(asked.place, 'version %d or later was expected by the other lines' % least)
    return asked.numbers[0] if asked else least


def bits_of(universe, version):
    """The two bytes for bits and frame bits. Version 1 has a zero for the latter; where none are named, later versions
    have as many as an axis has bits, and one axis has frame bits alone."""
    if universe.frame_bits is not None: return universe.bits, universe.frame_bits
    if version == 1: return universe.bits, 0
    return (0 if universe.axes == 1 and universe.bits <= 10 else universe.bits), universe.bits


def window_of(line, universe, end):
    """The first and the last frame: all frames where no line says."""
    if line: return line.numbers
    if universe.frames > 65536: raise Wrong(end, 'window FIRST LAST was expected before the text ends')
    return [0, universe.frames - 1]


def scene_of(data):
    """The scene that a text's bytes say."""
    lines, end = lines_of(data)
    universe = universe_of(only(lines, end, 'axes', AXES))
    rows, balls, standins = standins_of(lines, universe)
    names = names_of(standins)
    trees = [tree_of(only(lines, end, 'tree', 'tree %d: WORDS' % number, number), names) for number in (1, 2)]
    if max(len(rows), len(balls)) > 65535: raise Wrong(end, 'up to 65535 rows and balls were expected')
    version = version_of(only(lines, end, 'version', None), universe, balls)
    first, last = window_of(only(lines, end, 'window', None), universe, end)
    return Scene(version, universe.axes, *bits_of(universe, version), first, last, rows, balls, trees)
