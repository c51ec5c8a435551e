"""The version, the numbers of a verdict, and the limits that the library checks, as include/durbizhan.h names them."""

VERSION_MAJOR = 1
VERSION_MINOR = 0
VERSION = "1.0"

# verdicts
CLEAR = 0
HIT = 1

# a universe: its axes, the bits of its axes, and its levels and frames at the most
LEAST_AXES = 1
MOST_AXES = 4
MOST_BITS = 10
MOST_FRAME_BITS = 12
MOST_LEVELS = 42
MOST_FRAMES = 4096

# rows: the numbers of one, the most of them and of their numbers, and the largest size of the first and of the others
ROW_LENGTH = 5
MOST_ROWS = 256
MOST_NUMBERS = 1280
OFFSET_LIMIT = 1099511627776
COEFFICIENT_LIMIT = 16777216

# balls: the numbers of one, the most of them and of their numbers, the largest size of a centre number, and the largest
# radius
BALL_LENGTH = 4
MOST_BALLS = 64
MOST_BALL_NUMBERS = 256
CENTRE_LIMIT = 1024
RADIUS_LIMIT = 1024

# trees: the most words of one, and the most shapes that are pending while it is read
MOST_WORDS = 255
MOST_PENDING = 32

# proxies: the rows of a Box and their numbers; the largest size of a number of a corner and of a Cut's offset, and of
# one of a normal, a displacement and a mover's step, which are all whole numbers of sixteenths
BOX_ROWS = 6
BOX_NUMBERS = 30
CORNER_LIMIT = 4096
NORMAL_LIMIT = 64

# movers: the fewest and the most keys, the numbers of a key's corner, and the most rows beside a mover
LEAST_KEYS = 2
MOST_KEYS = 64
CORNER_LENGTH = 3
MOST_STATIC_ROWS = 250

# the numbers of work room to a node of a pruned conversion, and the most expressions of a report
NODE_LENGTH = 3
MOST_EXPRESSIONS = 256

# files: the most bytes of a scene whose lines are asked for, of its lines, and the most symbols of its raw expression;
# the bytes of a shape file before its symbols, and the most symbols of one
MOST_SCENE_BYTES = 65536
MOST_LINES_BYTES = 256
MOST_LINES_SYMBOLS = 32768
SHAPE_HEADER_LENGTH = 12
MOST_SHAPE_SYMBOLS = 4294967295

# the stack that a call takes, in bytes: a conversion, a verdict, an answer at once or `contacts`; any function; any
# other one than those and `lines`, `mover` and `sweep`
STACK_CONVERSION = 81920
STACK_MOST = 131072
STACK_OTHER = 16384
