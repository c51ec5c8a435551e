//! How much of each frame of a window is black.

use crate::face;
use crate::refusal::accepted;
use crate::{Refusal, Universe, Window};

/// How many counts of a row were set, one for each frame of the window, and their total.
#[derive(Clone, Copy, Debug, PartialEq, Eq)]
pub struct Report {
    /// How many counts stand at the front of the row.
    pub frames: usize,
    /// Their sum.
    pub total: u64,
}

/// The black voxels of each frame of a window, summed over a list of up to 256 expressions that stand one straight
/// after another: one count for each frame, set at the front of `counts`.
///
/// Refused, in this order: [`Refusal::BadUniverse`], [`Refusal::BadExpression`], [`Refusal::Outside`],
/// [`Refusal::NoRoom`].
///
/// ```
/// use durbizhan::{report, Universe, Window};
///
/// let frames = Universe { axes: 1, bits: 0, frame_bits: 2 };
/// let mut counts = [0; 4];
/// let found = report(frames, b"(WBB", Window { first: 0, last: 3 }, &mut counts)?;
/// assert_eq!((counts, found.total), ([1, 1, 2, 2], 6));
/// # Ok::<(), durbizhan::Refusal>(())
/// ```
pub fn report(
    universe: Universe,
    expressions: &[u8],
    window: Window,
    counts: &mut [u64],
) -> Result<Report, Refusal> {
    let mut answer = [0; 2];
    let number = unsafe {
        face::durbizhan_report(
            universe.axes,
            universe.bits,
            universe.frame_bits,
            expressions.as_ptr(),
            expressions.len(),
            window.first,
            window.last,
            counts.as_mut_ptr(),
            counts.len(),
            &mut answer,
        )
    };
    let [frames, total] = answer;
    accepted(number, frames)?;
    Ok(Report { frames: frames as usize, total })
}
