//! The space that an expression sweeps.

use crate::face;
use crate::refusal::accepted;
use crate::{Refusal, Shape, Universe};

/// The space that an expression sweeps along an axis, counted from 1: the merged expression of the universe without
/// that axis, written to the front of `out`. Room as long as the expression always suffices.
///
/// Refused, in this order: [`Refusal::BadUniverse`], also where there is no such axis or no other,
/// [`Refusal::BadExpression`], [`Refusal::NoRoom`].
///
/// ```
/// use durbizhan::{sweep, Universe};
///
/// // x is halved first, and then the frame: what is at x 0 in frame 1 alone has been at x 0
/// let universe = Universe { axes: 2, bits: 1, frame_bits: 1 };
/// let mut out = [0; 5];
/// let space = sweep(universe, b"((WBW", 2, &mut out)?;
/// assert_eq!(space.universe, Universe { axes: 1, bits: 0, frame_bits: 1 });
/// assert_eq!(&out[..space.length], b"(BW");
/// # Ok::<(), durbizhan::Refusal>(())
/// ```
pub fn sweep(universe: Universe, expression: &[u8], axis: u64, out: &mut [u8]) -> Result<Shape, Refusal> {
    let mut answer = [0; 4];
    let number = unsafe {
        face::durbizhan_sweep(
            universe.axes,
            universe.bits,
            universe.frame_bits,
            axis,
            expression.as_ptr(),
            expression.len(),
            out.as_mut_ptr(),
            out.len(),
            &mut answer,
        )
    };
    let [axes, bits, frame_bits, length] = answer;
    accepted(number, length)?;
    Ok(Shape { universe: Universe { axes, bits, frame_bits }, length: length as usize })
}
