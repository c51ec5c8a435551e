//! Octrees of an expression, and expressions of an octree.

use crate::face;
use crate::refusal::accepted;
use crate::{Refusal, Universe};

type Exchange =
    unsafe extern "C" fn(u64, u64, u64, *const u8, usize, *mut u8, usize, *mut [u64; 1]) -> u64;

fn exchanged(call: Exchange, universe: Universe, symbols: &[u8], out: &mut [u8]) -> Result<usize, Refusal> {
    let Universe { axes, bits, frame_bits } = universe;
    let (given, lent) = (symbols.len(), out.len());
    let mut answer = [0; 1];
    let number = unsafe {
        call(axes, bits, frame_bits, symbols.as_ptr(), given, out.as_mut_ptr(), lent, &mut answer)
    };
    let [length] = answer;
    accepted(number, length)?;
    Ok(length as usize)
}

/// The octree of an expression of three axes with equal bits, with no `P` whose eight sons are all `F` or all `E`,
/// written to the front of `out`: its length. Room four times as long as the expression always suffices.
///
/// Refused, in this order: [`Refusal::BadUniverse`], also where there are not three axes or the bits differ,
/// [`Refusal::BadExpression`], [`Refusal::NoRoom`].
///
/// ```
/// use durbizhan::{octree_export, Universe};
///
/// let mut out = [0; 12];
/// let length = octree_export(Universe { axes: 3, bits: 1, frame_bits: 1 }, b"(BW", &mut out)?;
/// assert_eq!(&out[..length], b"PFFFFEEEE");
/// # Ok::<(), durbizhan::Refusal>(())
/// ```
pub fn octree_export(universe: Universe, expression: &[u8], out: &mut [u8]) -> Result<usize, Refusal> {
    exchanged(face::durbizhan_octree_export, universe, expression, out)
}

/// The merged expression of such an octree, reduced or not, written to the front of `out`: its length. Room twice as
/// long as the octree always suffices. Refused as [`octree_export`] is.
///
/// ```
/// use durbizhan::{octree_import, Universe};
///
/// let mut out = [0; 18];
/// let length = octree_import(Universe { axes: 3, bits: 1, frame_bits: 1 }, b"PFEEEEEEE", &mut out)?;
/// assert_eq!(&out[..length], b"(((BWWW");
/// # Ok::<(), durbizhan::Refusal>(())
/// ```
pub fn octree_import(universe: Universe, octree: &[u8], out: &mut [u8]) -> Result<usize, Refusal> {
    exchanged(face::durbizhan_octree_import, universe, octree, out)
}
