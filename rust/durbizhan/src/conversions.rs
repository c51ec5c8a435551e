//! Room, the leaves of a tree, and the conversions of one tree and of two intersected.

use crate::face;
use crate::refusal::accepted;
use crate::{Refusal, Universe};

/// How many words of a tree name a halfspace. Of a run with two trees, the sum is what [`room`] asks for.
///
/// ```
/// use durbizhan::{halfspace, leaves, BLACK, UNION};
///
/// assert_eq!(leaves(&[halfspace(0), BLACK, UNION]), 1);
/// ```
pub fn leaves(words: &[u16]) -> u64 {
    unsafe { face::durbizhan_leaves(words.as_ptr(), words.len()) }
}

/// How many words of a tree name a ball.
///
/// ```
/// use durbizhan::{ball, balls, halfspace, UNION};
///
/// assert_eq!(balls(&[halfspace(0), ball(0), UNION]), 1);
/// ```
pub fn balls(words: &[u16]) -> u64 {
    unsafe { face::durbizhan_balls(words.as_ptr(), words.len()) }
}

/// How many symbols an expression takes at the most, for a run with so many words that name a halfspace and so many
/// that name a ball. So much room is never refused [`Refusal::NoRoom`] by a conversion or a verdict.
///
/// Refused: [`Refusal::BadUniverse`].
///
/// ```
/// use durbizhan::{room, Universe};
///
/// assert_eq!(room(Universe { axes: 2, bits: 2, frame_bits: 2 }, 4, 0), Ok(31));
/// ```
pub fn room(universe: Universe, leaves: u64, balls: u64) -> Result<u64, Refusal> {
    let Universe { axes, bits, frame_bits } = universe;
    let mut answer = [0; 1];
    let number = unsafe { face::durbizhan_room(axes, bits, frame_bits, leaves, balls, &mut answer) };
    let [symbols] = answer;
    accepted(number, 0)?;
    Ok(symbols)
}

type OneTree = unsafe extern "C" fn(
    u64, u64, u64, *const i64, usize, *const i64, usize, *const u16, usize, *mut u8, usize, *mut [u64; 1],
) -> u64;

fn one_tree(
    convert: OneTree,
    universe: Universe,
    rows: &[i64],
    balls: &[i64],
    words: &[u16],
    out: &mut [u8],
) -> Result<usize, Refusal> {
    let Universe { axes, bits, frame_bits } = universe;
    let mut answer = [0; 1];
    let number = unsafe {
        convert(
            axes,
            bits,
            frame_bits,
            rows.as_ptr(),
            rows.len(),
            balls.as_ptr(),
            balls.len(),
            words.as_ptr(),
            words.len(),
            out.as_mut_ptr(),
            out.len(),
            &mut answer,
        )
    };
    let [length] = answer;
    accepted(number, length)?;
    Ok(length as usize)
}

/// The raw expression of one tree, written to the front of `out`: its length.
///
/// Refused, in this order: [`Refusal::BadUniverse`], [`Refusal::BadRows`] for the rows and then for the balls,
/// [`Refusal::BadTree`] or [`Refusal::OverfullTree`], [`Refusal::NoRoom`].
///
/// ```
/// use durbizhan::{halfspace, raw_one, Universe, UNION};
///
/// let frames = Universe { axes: 1, bits: 0, frame_bits: 2 };
/// // from time 2 on, or up to time 2
/// let (rows, words) = ([-2, 1, 0, 0, 0, 2, -1, 0, 0, 0], [halfspace(0), halfspace(1), UNION]);
/// let mut out = [0; 8];
/// let length = raw_one(frames, &rows, &[], &words, &mut out)?;
/// assert_eq!(&out[..length], b"(BB");
/// # Ok::<(), durbizhan::Refusal>(())
/// ```
pub fn raw_one(
    universe: Universe,
    rows: &[i64],
    balls: &[i64],
    words: &[u16],
    out: &mut [u8],
) -> Result<usize, Refusal> {
    one_tree(face::durbizhan_raw_one, universe, rows, balls, words, out)
}

/// The merged expression of one tree, written to the front of `out`: its length. Refused as [`raw_one`] is.
///
/// ```
/// use durbizhan::{halfspace, merged_one, Refusal, Universe, UNION};
///
/// let frames = Universe { axes: 1, bits: 0, frame_bits: 2 };
/// let (rows, words) = ([-2, 1, 0, 0, 0, 2, -1, 0, 0, 0], [halfspace(0), halfspace(1), UNION]);
/// // lent no room, it tells how much it takes
/// assert_eq!(merged_one(frames, &rows, &[], &words, &mut []), Err(Refusal::NoRoom { needed: 1 }));
/// let mut out = [0; 1];
/// assert_eq!(merged_one(frames, &rows, &[], &words, &mut out), Ok(1));
/// assert_eq!(&out, b"B");
/// ```
pub fn merged_one(
    universe: Universe,
    rows: &[i64],
    balls: &[i64],
    words: &[u16],
    out: &mut [u8],
) -> Result<usize, Refusal> {
    one_tree(face::durbizhan_merged_one, universe, rows, balls, words, out)
}

type TwoTrees = unsafe extern "C" fn(
    u64, u64, u64, *const i64, usize, *const i64, usize, *const u16, usize, *const u16, usize, *mut u8, usize,
    *mut [u64; 1],
) -> u64;

fn two_trees(
    convert: TwoTrees,
    universe: Universe,
    rows: &[i64],
    balls: &[i64],
    [first, second]: [&[u16]; 2],
    out: &mut [u8],
) -> Result<usize, Refusal> {
    let Universe { axes, bits, frame_bits } = universe;
    let mut answer = [0; 1];
    let number = unsafe {
        convert(
            axes,
            bits,
            frame_bits,
            rows.as_ptr(),
            rows.len(),
            balls.as_ptr(),
            balls.len(),
            first.as_ptr(),
            first.len(),
            second.as_ptr(),
            second.len(),
            out.as_mut_ptr(),
            out.len(),
            &mut answer,
        )
    };
    let [length] = answer;
    accepted(number, length)?;
    Ok(length as usize)
}

/// The raw expression of two trees intersected, written to the front of `out`: its length.
///
/// Refused, in this order: [`Refusal::BadUniverse`], [`Refusal::BadRows`] for the rows and then for the balls,
/// [`Refusal::BadTree`] or [`Refusal::OverfullTree`] for the first tree and then for the second, [`Refusal::NoRoom`].
///
/// ```
/// use durbizhan::{halfspace, raw_two, Universe, BLACK};
///
/// let frames = Universe { axes: 1, bits: 0, frame_bits: 2 };
/// let mut out = [0; 8];
/// let length = raw_two(frames, &[-2, 1, 0, 0, 0], &[], &[halfspace(0)], &[BLACK], &mut out)?;
/// assert_eq!(&out[..length], b"(WB");
/// # Ok::<(), durbizhan::Refusal>(())
/// ```
pub fn raw_two(
    universe: Universe,
    rows: &[i64],
    balls: &[i64],
    first: &[u16],
    second: &[u16],
    out: &mut [u8],
) -> Result<usize, Refusal> {
    two_trees(face::durbizhan_raw_two, universe, rows, balls, [first, second], out)
}

/// The merged expression of two trees intersected, written to the front of `out`: its length. Refused as [`raw_two`]
/// is.
///
/// ```
/// use durbizhan::{halfspace, merged_two, Universe, BLACK, MINUS};
///
/// let frames = Universe { axes: 1, bits: 0, frame_bits: 2 };
/// // what is taken from itself leaves no skin
/// let nothing = [halfspace(0), halfspace(0), MINUS];
/// let mut out = [0; 8];
/// let length = merged_two(frames, &[-2, 1, 0, 0, 0], &[], &nothing, &[BLACK], &mut out)?;
/// assert_eq!(&out[..length], b"W");
/// # Ok::<(), durbizhan::Refusal>(())
/// ```
pub fn merged_two(
    universe: Universe,
    rows: &[i64],
    balls: &[i64],
    first: &[u16],
    second: &[u16],
    out: &mut [u8],
) -> Result<usize, Refusal> {
    two_trees(face::durbizhan_merged_two, universe, rows, balls, [first, second], out)
}
