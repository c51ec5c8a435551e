"""A text, line by line: of each line its kind, its name and its numbers, or what was expected there."""
import re
from collections import namedtuple
from fractions import Fraction

# A line: where it stands, its kind, its name or None, its numbers; of a tree its words stand behind its number.
Line = namedtuple('Line', 'place kind name numbers words')

OPERATORS = {'WHITE': 0, 'BLACK': 1, 'OR': 2, 'UNION': 2, 'AND': 3, 'INTERSECTION': 3, 'MINUS': 4}
# What a name may not be: a stand-in's number in its kind.
NUMBERED = re.compile('(h|box|cut|ball|frame|mover)([0-9]+)')


class Wrong(Exception):
    """What was expected, and where: the number of a line, or `byte` and its number."""

    def __init__(self, place, expected):
        super().__init__(expected)
        self.place = place


def whole(low, high):
    """How a word is read as a whole number from low to high."""
    def read(word):
        if re.fullmatch('[+-]?[0-9]{1,30}', word) and low <= int(word) <= high: return int(word)
        raise ValueError('a whole number from %d to %d, not %r' % (low, high, word))
    return read


def sixteenths(low, high):
    """How a word, `3`, `-0.0625` or `3/16`, is read as so many sixteenths: a proxy's number (rule 6.2)."""
    def read(word):
        if re.fullmatch('[+-]?[0-9]{1,30}([.][0-9]{1,30}|/0*[1-9][0-9]{0,29})?', word):
            number = 16 * Fraction(word)
            if number.denominator == 1 and 16 * low <= number <= 16 * high: return int(number)
        raise ValueError('a multiple of 1/16 from %d to %d, not %r' % (low, high, word))
    return read


BYTE, U16, I16, I64 = whole(0, 255), whole(0, 65535), whole(-2**15, 2**15 - 1), whole(-2**63, 2**63 - 1)
PLACE, STEP, SIZE = sixteenths(-4096, 4096), sixteenths(-64, 64), sixteenths(0, 4096)

# The lines of numbers: how each is written, and how its numbers are read, for each count that it may have.
FORMS = {
    'version': ('version V', [[whole(1, 3)]]),
    'window': ('window FIRST LAST', [[U16] * 2]),
    'row': ('row [NAME] A0 A1 A2 A3 A4', [[I64] * 5]),
    'box': ('box [NAME] NEAR FAR [STEP]', [[PLACE] * 6, [PLACE] * 6 + [STEP] * 3]),
    'cut': ('cut [NAME] NORMAL OFFSET [STEP]', [[STEP] * 3 + [PLACE], [STEP] * 3 + [PLACE] + [STEP] * 3]),
    'ball': ('ball [NAME] X Y Z RADIUS', [[I16] * 3 + [U16]]),
    'frame': ('frame [NAME] FIRST LAST', [[U16] * 2]),
    'mover': ('mover [NAME] SIZE', [[SIZE] * 3]),
    'key': ('key MOMENT NEAR', [[U16] + [PLACE] * 3]),
}
AXES, TREE = 'axes D bits K [frame F]', 'tree 1: WORDS or tree 2: WORDS'
KINDS = ['axes', *FORMS, 'tree']
RESERVED = {word.upper() for word in [*OPERATORS, *KINDS, 'bits']}


def expected(place, form, found):
    """That a line is not of its form."""
    return Wrong(place, '%s was expected: %s' % (form, found))


def name_of(place, form, words):
    """The name that stands before the numbers, or None, and the numbers' words."""
    if '[NAME]' not in form or not words or not re.match('[^0-9+.-]', words[0]): return None, words
    name = words[0]
    if not re.fullmatch('[A-Za-z_][A-Za-z0-9_]*', name):
        raise expected(place, form, 'a name of letters, digits and _, not %r' % name)
    if name.upper() in RESERVED or NUMBERED.fullmatch(name):
        raise expected(place, form, 'a name, and %s is a word' % name)
    return name, words[1:]


def numbers_of(place, form, readings, words):
    """The numbers of a line, as many as one of its readings has."""
    for reading in readings:
        if len(reading) != len(words): continue
        try: return [read(word) for read, word in zip(reading, words)]
        except ValueError as wrong: raise expected(place, form, wrong) from None
    counts = ' or '.join(str(len(reading)) for reading in readings)
    raise expected(place, form, '%s numbers, not %d' % (counts, len(words)))


def axes_line(place, words):
    """The universe: axes, bits and, where they are named, frame bits."""
    if len(words) not in (3, 5) or words[1::2] != ['bits', 'frame'][:len(words) // 2]:
        raise expected(place, AXES, 'not %r' % ' '.join(words))
    return Line(place, 'axes', None, numbers_of(place, AXES, [[BYTE] * 2, [BYTE] * 3], words[::2]), [])


def tree_line(place, text):
    """A tree: its number, and its words."""
    number, colon, words = text.partition(':')
    if not colon or number.strip() not in ('1', '2'): raise expected(place, TREE, 'not %r' % ('tree ' + text.strip()))
    return Line(place, 'tree', None, [int(number)], words.split())


def line_of(place, text):
    """One line, whose first word is its kind."""
    kind, words = text.split()[0], text.split()[1:]
    if kind == 'axes': return axes_line(place, words)
    if kind == 'tree': return tree_line(place, text.split(None, 1)[1] if words else '')
    if kind not in FORMS: raise Wrong(place, 'a line of %s was expected, not %r' % (', '.join(KINDS), kind))
    form, readings = FORMS[kind]
    name, words = name_of(place, form, words)
    return Line(place, kind, name, numbers_of(place, form, readings, words), [])


def lines_of(data):
    """The lines of a text's bytes, without comments and empty lines, and the number of its last one."""
    try: texts = data.decode('utf-8').split('\n')
    except UnicodeDecodeError as wrong:
        raise Wrong(data[:wrong.start].count(b'\n') + 1, 'text in UTF-8 was expected') from None
    bare = [(place, text.split('#')[0]) for place, text in enumerate(texts, 1)]
    return [line_of(place, text) for place, text in bare if text.strip()], max(1, len(texts) - (texts[-1] == ''))
