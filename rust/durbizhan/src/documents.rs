//! Scene files are read and put into lines, shape files are read and written.

use crate::face;
use crate::refusal::accepted;
use crate::{Refusal, Shape, Universe, Window};
use crate::{BALL_LENGTH, MOST_BALL_NUMBERS, MOST_LINES_BYTES, MOST_NUMBERS, MOST_WORDS, ROW_LENGTH};

/// What a scene file holds.
#[derive(Clone, Debug, PartialEq, Eq)]
pub struct Scene {
    /// The version of the file, 1 to 3.
    pub version: u64,
    /// Its universe.
    pub universe: Universe,
    /// Five numbers to a row.
    pub rows: Vec<i64>,
    /// Four numbers to a ball.
    pub balls: Vec<i64>,
    /// The words of tree 1.
    pub first: Vec<u16>,
    /// The words of tree 2.
    pub second: Vec<u16>,
    /// Its window.
    pub window: Window,
}

/// Reads a scene file, of version 1 to 3.
///
/// Refused, in this order: [`Refusal::BadFile`], [`Refusal::BadUniverse`], [`Refusal::BadRows`] for the rows and then
/// for the balls, [`Refusal::BadTree`] or [`Refusal::OverfullTree`] for the first tree and then for the second,
/// [`Refusal::Outside`].
///
/// ```
/// use durbizhan::{scene, Window};
///
/// let scene = scene(&std::fs::read("../../examples/program.scene")?)?;
/// assert_eq!(scene.rows.len(), 4 * 5);
/// assert_eq!(scene.window, Window { first: 0, last: 3 });
/// # Ok::<(), Box<dyn std::error::Error>>(())
/// ```
pub fn scene(bytes: &[u8]) -> Result<Scene, Refusal> {
    let (mut rows, mut balls) = ([0; MOST_NUMBERS], [0; MOST_BALL_NUMBERS]);
    let (mut first, mut second) = ([0; MOST_WORDS], [0; MOST_WORDS]);
    let mut answer = [0; 10];
    let number = unsafe {
        face::durbizhan_scene(
            bytes.as_ptr(),
            bytes.len(),
            &mut rows,
            &mut balls,
            &mut first,
            &mut second,
            &mut answer,
        )
    };
    accepted(number, 0)?;
    let [version, axes, bits, frame_bits, counts @ .., first_frame, last_frame] = answer;
    let [row_count, ball_count, first_count, second_count] = counts.map(|count| count as usize);
    Ok(Scene {
        version,
        universe: Universe { axes, bits, frame_bits },
        rows: rows[..ROW_LENGTH * row_count].to_vec(),
        balls: balls[..BALL_LENGTH * ball_count].to_vec(),
        first: first[..first_count].to_vec(),
        second: second[..second_count].to_vec(),
        window: Window { first: first_frame, last: last_frame },
    })
}

/// The lines that the program prints for a scene file. READ THE LINE: a refusal is the one line `refused n`, or
/// `refused 6 needed n`.
///
/// ```
/// use durbizhan::lines;
///
/// let printed = lines(&std::fs::read("../../examples/program.scene")?);
/// assert_eq!(printed, "axes 2 bits 2\nleaves 4 raw 13 room 31\nhit first 1 last 2 voxels 2\n");
/// assert_eq!(lines(b""), "refused 1\n");
/// # Ok::<(), std::io::Error>(())
/// ```
pub fn lines(scene: &[u8]) -> String {
    let mut out = [0; MOST_LINES_BYTES];
    let count = unsafe { face::durbizhan_lines(scene.as_ptr(), scene.len(), &mut out) };
    out[..count as usize].iter().copied().map(char::from).collect()
}

/// Reads a shape file, of version 1 or 2: its symbols are written to the front of `out`.
///
/// Refused, in this order: [`Refusal::BadFile`], [`Refusal::BadUniverse`], [`Refusal::BadExpression`],
/// [`Refusal::NotMerged`], [`Refusal::NoRoom`].
///
/// ```
/// use durbizhan::{shape_read, shape_write, Shape, Universe};
///
/// let universe = Universe { axes: 1, bits: 0, frame_bits: 2 };
/// let (mut file, mut symbols) = ([0; 15], [0; 8]);
/// shape_write(universe, b"(WB", &mut file)?;
/// assert_eq!(shape_read(&file, &mut symbols)?, Shape { universe, length: 3 });
/// assert_eq!(&symbols[..3], b"(WB");
/// # Ok::<(), durbizhan::Refusal>(())
/// ```
pub fn shape_read(bytes: &[u8], out: &mut [u8]) -> Result<Shape, Refusal> {
    let mut answer = [0; 4];
    let number = unsafe {
        face::durbizhan_shape_read(bytes.as_ptr(), bytes.len(), out.as_mut_ptr(), out.len(), &mut answer)
    };
    let [axes, bits, frame_bits, length] = answer;
    accepted(number, length)?;
    Ok(Shape { universe: Universe { axes, bits, frame_bits }, length: length as usize })
}

/// The shape file of a merged expression, of version 2, written to the front of `out`: how many bytes it has, which are
/// 12 more than the symbols.
///
/// Refused, in this order: [`Refusal::BadUniverse`], [`Refusal::BadExpression`], [`Refusal::NotMerged`],
/// [`Refusal::NoRoom`].
///
/// ```
/// use durbizhan::{shape_write, Refusal, Universe};
///
/// let frames = Universe { axes: 1, bits: 0, frame_bits: 2 };
/// let mut file = [0; 15];
/// assert_eq!(shape_write(frames, b"(WB", &mut file), Ok(15));
/// assert_eq!(shape_write(frames, b"(BB", &mut file), Err(Refusal::NotMerged));
/// ```
pub fn shape_write(universe: Universe, expression: &[u8], out: &mut [u8]) -> Result<usize, Refusal> {
    let mut answer = [0; 1];
    let number = unsafe {
        face::durbizhan_shape_write(
            universe.axes,
            universe.bits,
            universe.frame_bits,
            expression.as_ptr(),
            expression.len(),
            out.as_mut_ptr(),
            out.len(),
            &mut answer,
        )
    };
    let [length] = answer;
    accepted(number, length)?;
    Ok(length as usize)
}
