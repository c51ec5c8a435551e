//! The pruned conversions of one tree and of two intersected, in lent work room.

use crate::face;
use crate::refusal::accepted;
use crate::{Refusal, Universe};

/// The length of the expression that a pruned conversion wrote, and the nodes that it looked at.
#[derive(Clone, Copy, Debug, PartialEq, Eq)]
pub struct Pruned {
    /// How many symbols were written.
    pub length: usize,
    /// How many nodes were looked at, over all examined blocks.
    pub looked: u64,
}

/// What a call answered: whether it lacks work room, the length or the need, and the nodes looked at.
fn pruned_of(number: u64, [lack, length, looked]: [u64; 3]) -> Result<Pruned, Refusal> {
    match accepted(number, length) {
        Err(Refusal::NoRoom { needed }) if lack == 1 => Err(Refusal::NoWorkRoom { needed }),
        Err(refusal) => Err(refusal),
        Ok(()) => Ok(Pruned { length: length as usize, looked }),
    }
}

type OneTree = unsafe extern "C" fn(
    u64, u64, u64, *const i64, usize, *const i64, usize, *const u16, usize, *mut i64, usize, *mut u8, usize,
    *mut [u64; 3],
) -> u64;

fn one_tree(
    convert: OneTree,
    universe: Universe,
    rows: &[i64],
    balls: &[i64],
    words: &[u16],
    work: &mut [i64],
    out: &mut [u8],
) -> Result<Pruned, Refusal> {
    let Universe { axes, bits, frame_bits } = universe;
    let mut answer = [0; 3];
    let number = unsafe {
        convert(
            axes,
            bits,
            frame_bits,
            rows.as_ptr(),
            rows.len(),
            balls.as_ptr(),
            balls.len(),
            words.as_ptr(),
            words.len(),
            work.as_mut_ptr(),
            work.len(),
            out.as_mut_ptr(),
            out.len(),
            &mut answer,
        )
    };
    pruned_of(number, answer)
}

/// The raw expression of one tree, pruned, written to the front of `out`: as [`raw_one`](crate::raw_one) writes it, but
/// from a block to its halves only what is left of the tree is carried.
///
/// It is carried in the work room, three numbers to a node, and takes as many nodes as the levels and one times the
/// words. What the work room holds afterwards is of no use.
///
/// Refused, in this order: [`Refusal::BadUniverse`], [`Refusal::BadRows`] for the rows and then for the balls,
/// [`Refusal::BadTree`] or [`Refusal::OverfullTree`], [`Refusal::NoWorkRoom`], [`Refusal::NoRoom`].
///
/// ```
/// use durbizhan::{halfspace, pruned_raw_one, Pruned, Refusal, Universe};
///
/// let frames = Universe { axes: 1, bits: 0, frame_bits: 2 };
/// let (rows, words) = ([-2, 1, 0, 0, 0], [halfspace(0)]);
/// let mut out = [0; 8];
/// let refused = pruned_raw_one(frames, &rows, &[], &words, &mut [], &mut out);
/// assert_eq!(refused, Err(Refusal::NoWorkRoom { needed: 3 }));
/// let mut work = [0; 3 * 3];
/// let found = pruned_raw_one(frames, &rows, &[], &words, &mut work, &mut out)?;
/// assert_eq!(found, Pruned { length: 3, looked: 3 });
/// assert_eq!(&out[..found.length], b"(WB");
/// # Ok::<(), Refusal>(())
/// ```
pub fn pruned_raw_one(
    universe: Universe,
    rows: &[i64],
    balls: &[i64],
    words: &[u16],
    work: &mut [i64],
    out: &mut [u8],
) -> Result<Pruned, Refusal> {
    one_tree(face::durbizhan_pruned_raw_one, universe, rows, balls, words, work, out)
}

/// The merged expression of one tree, pruned, written to the front of `out`: as [`merged_one`](crate::merged_one)
/// writes it. Work room and refusals are those of [`pruned_raw_one`].
///
/// ```
/// use durbizhan::{halfspace, pruned_merged_one, Universe, UNION};
///
/// let frames = Universe { axes: 1, bits: 0, frame_bits: 2 };
/// let (rows, words) = ([-2, 1, 0, 0, 0, 2, -1, 0, 0, 0], [halfspace(0), halfspace(1), UNION]);
/// let (mut work, mut out) = ([0; 3 * 9], [0; 8]);
/// let found = pruned_merged_one(frames, &rows, &[], &words, &mut work, &mut out)?;
/// assert_eq!(&out[..found.length], b"B");
/// # Ok::<(), durbizhan::Refusal>(())
/// ```
pub fn pruned_merged_one(
    universe: Universe,
    rows: &[i64],
    balls: &[i64],
    words: &[u16],
    work: &mut [i64],
    out: &mut [u8],
) -> Result<Pruned, Refusal> {
    one_tree(face::durbizhan_pruned_merged_one, universe, rows, balls, words, work, out)
}

type TwoTrees = unsafe extern "C" fn(
    u64, u64, u64, *const i64, usize, *const i64, usize, *const u16, usize, *const u16, usize, *mut i64, usize,
    *mut u8, usize, *mut [u64; 3],
) -> u64;

fn two_trees(
    convert: TwoTrees,
    universe: Universe,
    rows: &[i64],
    balls: &[i64],
    [first, second]: [&[u16]; 2],
    work: &mut [i64],
    out: &mut [u8],
) -> Result<Pruned, Refusal> {
    let Universe { axes, bits, frame_bits } = universe;
    let mut answer = [0; 3];
    let number = unsafe {
        convert(
            axes,
            bits,
            frame_bits,
            rows.as_ptr(),
            rows.len(),
            balls.as_ptr(),
            balls.len(),
            first.as_ptr(),
            first.len(),
            second.as_ptr(),
            second.len(),
            work.as_mut_ptr(),
            work.len(),
            out.as_mut_ptr(),
            out.len(),
            &mut answer,
        )
    };
    pruned_of(number, answer)
}

/// The raw expression of two trees intersected, pruned, written to the front of `out`: as [`raw_two`](crate::raw_two)
/// writes it. The words of both trees count for the work room of [`pruned_raw_one`], and the second tree is judged
/// behind the first.
///
/// ```
/// use durbizhan::{halfspace, pruned_raw_two, Pruned, Universe, BLACK};
///
/// let frames = Universe { axes: 1, bits: 0, frame_bits: 2 };
/// let (mut work, mut out) = ([0; 3 * 6], [0; 8]);
/// let found = pruned_raw_two(frames, &[-2, 1, 0, 0, 0], &[], &[halfspace(0)], &[BLACK], &mut work, &mut out)?;
/// // two nodes over the whole universe, and one over each half: BLACK is decided at once
/// assert_eq!(found, Pruned { length: 3, looked: 4 });
/// assert_eq!(&out[..found.length], b"(WB");
/// # Ok::<(), durbizhan::Refusal>(())
/// ```
pub fn pruned_raw_two(
    universe: Universe,
    rows: &[i64],
    balls: &[i64],
    first: &[u16],
    second: &[u16],
    work: &mut [i64],
    out: &mut [u8],
) -> Result<Pruned, Refusal> {
    two_trees(face::durbizhan_pruned_raw_two, universe, rows, balls, [first, second], work, out)
}

/// The merged expression of two trees intersected, pruned, written to the front of `out`: as
/// [`merged_two`](crate::merged_two) writes it. Work room and refusals are those of [`pruned_raw_two`].
///
/// ```
/// use durbizhan::{halfspace, pruned_merged_two, Universe, MINUS, BLACK};
///
/// let frames = Universe { axes: 1, bits: 0, frame_bits: 2 };
/// let nothing = [halfspace(0), halfspace(0), MINUS];
/// let (mut work, mut out) = ([0; 3 * 12], [0; 8]);
/// let found = pruned_merged_two(frames, &[-2, 1, 0, 0, 0], &[], &nothing, &[BLACK], &mut work, &mut out)?;
/// assert_eq!(&out[..found.length], b"W");
/// # Ok::<(), durbizhan::Refusal>(())
/// ```
pub fn pruned_merged_two(
    universe: Universe,
    rows: &[i64],
    balls: &[i64],
    first: &[u16],
    second: &[u16],
    work: &mut [i64],
    out: &mut [u8],
) -> Result<Pruned, Refusal> {
    two_trees(face::durbizhan_pruned_merged_two, universe, rows, balls, [first, second], work, out)
}
