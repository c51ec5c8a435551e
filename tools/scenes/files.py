"""The bytes of a scene file, there and back (rules 7.1 to 7.6)."""
import struct
from collections import namedtuple

from .lines import Wrong

# A scene: rows of five numbers, balls of four, two lists of words. In version 1 a zero stands for the frame bits.
Scene = namedtuple('Scene', 'version axes bits frame_bits first last rows balls trees')


def bytes_of(scene):
    """The file of a scene."""
    out = b'HSC' + struct.pack('<HBBB', scene.version, scene.axes, scene.bits, scene.frame_bits)
    out += struct.pack('<5H', len(scene.rows), len(scene.trees[0]), len(scene.trees[1]), scene.first, scene.last)
    if scene.version == 3: out += struct.pack('<H', len(scene.balls))
    out += b''.join(struct.pack('<5q', *row) for row in scene.rows)
    out += b''.join(struct.pack('<3hH', *ball) for ball in scene.balls)
    return out + b''.join(struct.pack('<%dH' % len(tree), *tree) for tree in scene.trees)


def header_of(data):
    """The version of a file and the length of its header."""
    if data[:3] != b'HSC'[:len(data)]: raise Wrong('byte 0', 'the mark HSC was expected, not %r' % data[:3])
    if len(data) < 5: raise Wrong('byte %d' % len(data), 'a header of 18 bytes was expected, and the file ends')
    version, = struct.unpack_from('<H', data, 3)
    if version not in (1, 2, 3): raise Wrong('byte 3', 'version 1, 2 or 3 was expected, not %d' % version)
    length = 20 if version == 3 else 18
    if len(data) < length:
        raise Wrong('byte %d' % len(data), 'a header of %d bytes was expected, and the file ends' % length)
    if version == 1 and data[7] != 0:
        raise Wrong('byte 7', 'a zero was expected, which version 1 has there, not %d' % data[7])
    return version, length


def scene_of(data):
    """The scene of a file."""
    version, at = header_of(data)
    axes, bits, frame_bits, rows, first_words, second_words, first, last = struct.unpack_from('<3B5H', data, 5)
    balls = struct.unpack_from('<H', data, 18)[0] if version == 3 else 0
    counts = [('5q', rows), ('3hH', balls), ('H', first_words), ('H', second_words)]
    length = at + sum(struct.calcsize('<' + form) * count for form, count in counts)
    if len(data) != length:
        wanted = 'a file of %d bytes was expected by its counts, not of %d' % (length, len(data))
        raise Wrong('byte %d' % min(len(data), length), wanted)
    parts = []
    for form, count in counts:
        part = data[at:at + struct.calcsize('<' + form) * count]
        parts.append([list(numbers) for numbers in struct.iter_unpack('<' + form, part)])
        at += len(part)
    trees = [[word for word, in part] for part in parts[2:]]
    return Scene(version, axes, bits, frame_bits, first, last, parts[0], parts[1], trees)
