//! The words of a tree, and the limits that the library checks.

/// The word that pushes WHITE.
pub const WHITE: u16 = 0;
/// The word that pushes BLACK.
pub const BLACK: u16 = 1;
/// The word that joins the last two shapes by UNION.
pub const UNION: u16 = 2;
/// The word that joins the last two shapes by INTERSECTION.
pub const INTERSECTION: u16 = 3;
/// The word that takes the last shape from the one before it.
pub const MINUS: u16 = 4;
/// The word that names halfspace 0.
pub const FIRST_HALFSPACE: u16 = 256;
/// The word that names ball 0.
pub const FIRST_BALL: u16 = 512;

/// The fewest axes of a universe.
pub const LEAST_AXES: u64 = 1;
/// The most axes of a universe.
pub const MOST_AXES: u64 = 4;
/// The most bits of an axis that does not count frames.
pub const MOST_BITS: u64 = 10;
/// The most bits of the axis that counts frames.
pub const MOST_FRAME_BITS: u64 = 12;
/// The most levels of a universe.
pub const MOST_LEVELS: u64 = 42;
/// The most frames of a universe.
pub const MOST_FRAMES: u64 = 4_096;

/// The numbers of a row.
pub const ROW_LENGTH: usize = 5;
/// The most rows.
pub const MOST_ROWS: usize = 256;
/// The most numbers of rows.
pub const MOST_NUMBERS: usize = 1_280;
/// The largest size of a row's first number.
pub const OFFSET_LIMIT: i64 = 1_099_511_627_776;
/// The largest size of a row's other numbers.
pub const COEFFICIENT_LIMIT: i64 = 16_777_216;

/// The numbers of a ball.
pub const BALL_LENGTH: usize = 4;
/// The most balls.
pub const MOST_BALLS: usize = 64;
/// The most numbers of balls.
pub const MOST_BALL_NUMBERS: usize = 256;
/// The largest size of a ball's centre number.
pub const CENTRE_LIMIT: i64 = 1_024;
/// The largest radius of a ball.
pub const RADIUS_LIMIT: i64 = 1_024;

/// The most words of a tree.
pub const MOST_WORDS: usize = 255;
/// The most shapes that a tree has pending.
pub const MOST_PENDING: usize = 32;

/// The rows of a Box.
pub const BOX_ROWS: usize = 6;
/// The numbers of a Box's rows.
pub const BOX_NUMBERS: usize = 30;
/// The largest size of a corner's number, and of a Cut's offset.
pub const CORNER_LIMIT: i64 = 4_096;
/// The largest size of a normal's number, and of a displacement's.
pub const NORMAL_LIMIT: i64 = 64;

/// The fewest keys of a mover.
pub const LEAST_KEYS: usize = 2;
/// The most keys of a mover.
pub const MOST_KEYS: usize = 64;
/// The numbers of a key's corner.
pub const CORNER_LENGTH: usize = 3;
/// The most rows that stand beside a mover.
pub const MOST_STATIC_ROWS: usize = 250;

/// The numbers of work room to a node of a pruned conversion.
pub const NODE_LENGTH: usize = 3;
/// The most expressions of a report.
pub const MOST_EXPRESSIONS: u64 = 256;
/// The most bytes of a scene whose lines are asked for.
pub const MOST_SCENE_BYTES: usize = 65_536;
/// The most bytes that the lines of a scene have.
pub const MOST_LINES_BYTES: usize = 256;
/// The most symbols that the raw expression of a scene has whose lines are asked for.
pub const MOST_LINES_SYMBOLS: u64 = 32_768;
/// The bytes of a shape file before its symbols.
pub const SHAPE_HEADER_LENGTH: usize = 12;
/// The most symbols of a shape file.
pub const MOST_SHAPE_SYMBOLS: u64 = 4_294_967_295;

/// The most bytes of the stack that a conversion, a verdict or [`contacts`](crate::contacts) takes.
pub const STACK_CONVERSION: usize = 81_920;
/// The most bytes of the stack that any function takes.
pub const STACK_MOST: usize = 131_072;
/// The most bytes of the stack that a function takes that is none of those, nor [`lines`](crate::lines),
/// [`mover`](crate::mover) or [`sweep`](crate::sweep).
pub const STACK_OTHER: usize = 16_384;

/// The word that names halfspace `i`: row `i` of those that are lent.
///
/// ```
/// assert_eq!(durbizhan::halfspace(1), 257);
/// ```
pub const fn halfspace(i: u8) -> u16 {
    FIRST_HALFSPACE + i as u16
}

/// The word that names ball `i`. There are words for 64; what stands behind them means nothing.
///
/// ```
/// assert_eq!(durbizhan::ball(1), 513);
/// ```
pub const fn ball(i: u8) -> u16 {
    FIRST_BALL + i as u16
}
