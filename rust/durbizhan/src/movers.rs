//! The verdict of a mover over its keys.

use crate::face;
use crate::verdicts::clearance_of;
use crate::{Clearance, Refusal, Universe};

/// A key of a mover: a moment, and the near corner of its Box there.
#[derive(Clone, Copy, Debug, PartialEq)]
pub struct Key {
    /// A whole moment, up to the end of the last frame.
    pub moment: u64,
    /// Three numbers, each a whole number of sixteenths.
    pub corner: [f64; 3],
}

/// The verdict of a mover, a Box from near to far that moves evenly from key to key, against one static tree: every
/// frame by its own stretch. The length is that of the last stretch's raw expression, which stands at the front of
/// `out`; each stretch's is written over the one before.
///
/// Refused, in this order: [`Refusal::BadUniverse`], also where there are not four axes, [`Refusal::BadProxy`],
/// [`Refusal::BadKeys`], [`Refusal::BadStep`], [`Refusal::BadRows`] for the rows and then for the balls,
/// [`Refusal::BadTree`] or [`Refusal::OverfullTree`], [`Refusal::NoRoom`] with the largest need of any stretch.
///
/// ```
/// use durbizhan::{mover, Key, Universe, Verdict, BLACK};
///
/// let universe = Universe { axes: 4, bits: 1, frame_bits: 2 };
/// // a cube that comes from -3 in one frame, and stands at 1 for two
/// let keys = [(0, -3.0), (1, 1.0), (3, 1.0)].map(|(moment, x)| Key { moment, corner: [x, 0.0, 0.0] });
/// let mut out = [0; 64];
/// let found = mover(universe, [[0.0; 3], [1.0; 3]], &keys, &[], &[], &[BLACK], &mut out)?;
/// assert_eq!(found.verdict, Verdict::Hit { first: 1, last: 2, voxels: 2 });
/// # Ok::<(), durbizhan::Refusal>(())
/// ```
pub fn mover(
    universe: Universe,
    [near, far]: [[f64; 3]; 2],
    keys: &[Key],
    rows: &[i64],
    balls: &[i64],
    words: &[u16],
    out: &mut [u8],
) -> Result<Clearance, Refusal> {
    let moments: Vec<u64> = keys.iter().map(|key| key.moment).collect();
    let corners: Vec<f64> = keys.iter().flat_map(|key| key.corner).collect();
    let mut answer = [0; 5];
    let number = unsafe {
        face::durbizhan_mover(
            universe.axes,
            universe.bits,
            universe.frame_bits,
            near[0],
            near[1],
            near[2],
            far[0],
            far[1],
            far[2],
            0.0,
            0.0,
            0.0,
            moments.as_ptr(),
            moments.len(),
            corners.as_ptr(),
            corners.len(),
            rows.as_ptr(),
            rows.len(),
            balls.as_ptr(),
            balls.len(),
            words.as_ptr(),
            words.len(),
            out.as_mut_ptr(),
            out.len(),
            &mut answer,
        )
    };
    clearance_of(number, answer)
}
