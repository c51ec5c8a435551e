//! Questions to an expression, and its merging.

use std::ops::Range;

use crate::face;
use crate::refusal::accepted;
use crate::{Refusal, Universe};

/// The colour at a voxel.
#[derive(Clone, Copy, Debug, PartialEq, Eq)]
pub enum Colour {
    /// Empty.
    White,
    /// Full.
    Black,
}

/// The length of the merged expression that was written, and the most symbols that are held back while the expression
/// is received.
#[derive(Clone, Copy, Debug, PartialEq, Eq)]
pub struct Merged {
    /// How many symbols were written.
    pub length: usize,
    /// The most symbols that are held back, at most twice the levels.
    pub held: u64,
}

/// Whether an expression is well-formed: refused [`Refusal::BadUniverse`] or [`Refusal::BadExpression`] where not.
///
/// ```
/// use durbizhan::{well_formed, Refusal, Universe};
///
/// let frames = Universe { axes: 1, bits: 0, frame_bits: 2 };
/// assert_eq!(well_formed(frames, b"(WB"), Ok(()));
/// assert_eq!(well_formed(frames, b"(W"), Err(Refusal::BadExpression));
/// ```
pub fn well_formed(universe: Universe, expression: &[u8]) -> Result<(), Refusal> {
    let Universe { axes, bits, frame_bits } = universe;
    let number =
        unsafe { face::durbizhan_well_formed(axes, bits, frame_bits, expression.as_ptr(), expression.len()) };
    accepted(number, 0)
}

/// The colour of an expression at a voxel: its place along each axis, 0 above the axes. The place along the last axis
/// is its frame.
///
/// Refused, in this order: [`Refusal::BadUniverse`], [`Refusal::BadExpression`], [`Refusal::Outside`].
///
/// ```
/// use durbizhan::{colour, Colour, Universe};
///
/// let frames = Universe { axes: 1, bits: 0, frame_bits: 2 };
/// assert_eq!(colour(frames, b"(WB", [1, 0, 0, 0]), Ok(Colour::White));
/// assert_eq!(colour(frames, b"(WB", [2, 0, 0, 0]), Ok(Colour::Black));
/// ```
pub fn colour(universe: Universe, expression: &[u8], voxel: [u64; 4]) -> Result<Colour, Refusal> {
    let [x, y, z, t] = voxel;
    let mut answer = [0; 1];
    let number = unsafe {
        face::durbizhan_colour(
            universe.axes,
            universe.bits,
            universe.frame_bits,
            expression.as_ptr(),
            expression.len(),
            x,
            y,
            z,
            t,
            &mut answer,
        )
    };
    accepted(number, 0)?;
    Ok(if answer == [0] { Colour::White } else { Colour::Black })
}

/// Where a block's part of an expression stands. The path has a byte for each half, 0 low or 1 high.
///
/// Refused, in this order: [`Refusal::BadUniverse`], [`Refusal::BadExpression`], [`Refusal::Outside`].
///
/// ```
/// use durbizhan::{part, Universe};
///
/// let frames = Universe { axes: 1, bits: 0, frame_bits: 2 };
/// let expression = b"(W(BW";
/// assert_eq!(&expression[part(frames, expression, &[1])?], b"(BW");
/// # Ok::<(), durbizhan::Refusal>(())
/// ```
pub fn part(universe: Universe, expression: &[u8], path: &[u8]) -> Result<Range<usize>, Refusal> {
    let mut answer = [0; 2];
    let number = unsafe {
        face::durbizhan_part(
            universe.axes,
            universe.bits,
            universe.frame_bits,
            expression.as_ptr(),
            expression.len(),
            path.as_ptr(),
            path.len(),
            &mut answer,
        )
    };
    accepted(number, 0)?;
    let [start, length] = answer.map(|place| place as usize);
    Ok(start..start + length)
}

/// The merged expression of a raw or merged one, written to the front of `out`.
///
/// Refused, in this order: [`Refusal::BadUniverse`], [`Refusal::BadExpression`], [`Refusal::NoRoom`].
///
/// ```
/// use durbizhan::{merge, Universe};
///
/// let frames = Universe { axes: 1, bits: 0, frame_bits: 2 };
/// let mut out = [0; 5];
/// let merged = merge(frames, b"((BBW", &mut out)?;
/// assert_eq!(&out[..merged.length], b"(BW");
/// # Ok::<(), durbizhan::Refusal>(())
/// ```
pub fn merge(universe: Universe, expression: &[u8], out: &mut [u8]) -> Result<Merged, Refusal> {
    let mut answer = [0; 2];
    let number = unsafe {
        face::durbizhan_merge(
            universe.axes,
            universe.bits,
            universe.frame_bits,
            expression.as_ptr(),
            expression.len(),
            out.as_mut_ptr(),
            out.len(),
            &mut answer,
        )
    };
    let [length, held] = answer;
    accepted(number, length)?;
    Ok(Merged { length: length as usize, held })
}
