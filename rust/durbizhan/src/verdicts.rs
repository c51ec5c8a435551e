//! Verdicts: of two trees, in lent room and at once, of an expression; and sure and possible contact.

use crate::face;
use crate::refusal::accepted;
use crate::{Refusal, Universe, Window};

/// Whether there is contact in a window.
#[derive(Clone, Copy, Debug, PartialEq, Eq)]
pub enum Verdict {
    /// No voxel of the window is black in both.
    Clear,
    /// Some voxel is. Between the first and the last frame there may be frames without one.
    Hit {
        /// The first frame of the window with such a voxel.
        first: u64,
        /// The last one.
        last: u64,
        /// How many such voxels the window has.
        voxels: u64,
    },
}

/// The ends of a verdict.
#[derive(Clone, Copy, Debug, PartialEq, Eq)]
pub enum Ends {
    /// No voxel of the window is black in both.
    Clear,
    /// Some voxel is.
    Hit {
        /// The first frame of the window with such a voxel.
        first: u64,
        /// The last one.
        last: u64,
    },
}

/// A verdict, and the length of the raw expression that was written.
#[derive(Clone, Copy, Debug, PartialEq, Eq)]
pub struct Clearance {
    /// The verdict.
    pub verdict: Verdict,
    /// How many symbols stand at the front of the room.
    pub length: usize,
}

/// How many voxels of a window two trees surely share, over a voxel's whole block, share at its centre, and possibly
/// share.
#[derive(Clone, Copy, Debug, PartialEq, Eq)]
pub struct Contacts {
    /// Voxels over whose whole block the intersection is black.
    pub sure: u64,
    /// Voxels that are black in both at their centre, as a verdict counts them.
    pub centre: u64,
    /// Voxels over whose block the intersection is not white. Where this is 0, no point lies strictly inside both.
    pub possible: u64,
}

/// The black voxels of a whole expression, and its verdict over a window.
#[derive(Clone, Copy, Debug, PartialEq, Eq)]
pub struct Numbers {
    /// The black voxels of the whole universe.
    pub volume: u64,
    /// The verdict over the window.
    pub verdict: Verdict,
}

fn verdict_of(hit: u64, first: u64, last: u64, voxels: u64) -> Verdict {
    match hit {
        0 => Verdict::Clear,
        _ => Verdict::Hit { first, last, voxels },
    }
}

/// What a verdict's call answered.
pub(crate) fn clearance_of(number: u64, answer: [u64; 5]) -> Result<Clearance, Refusal> {
    let [hit, first, last, voxels, length] = answer;
    accepted(number, length)?;
    Ok(Clearance { verdict: verdict_of(hit, first, last, voxels), length: length as usize })
}

/// Whether two trees share space in a window; their raw expression is written to the front of `out`.
///
/// Refused, in this order: [`Refusal::BadUniverse`], [`Refusal::BadRows`] for the rows and then for the balls,
/// [`Refusal::BadTree`] or [`Refusal::OverfullTree`] for the first tree and then for the second, [`Refusal::Outside`],
/// [`Refusal::NoRoom`].
///
/// ```
/// use durbizhan::{halfspace, verdict, Clearance, Universe, Verdict, Window, BLACK};
///
/// let frames = Universe { axes: 1, bits: 0, frame_bits: 2 };
/// let window = Window { first: 0, last: 3 };
/// let mut out = [0; 8];
/// let found = verdict(frames, &[-2, 1, 0, 0, 0], &[], &[halfspace(0)], &[BLACK], window, &mut out)?;
/// assert_eq!(found, Clearance { verdict: Verdict::Hit { first: 2, last: 3, voxels: 2 }, length: 3 });
/// # Ok::<(), durbizhan::Refusal>(())
/// ```
pub fn verdict(
    universe: Universe,
    rows: &[i64],
    balls: &[i64],
    first: &[u16],
    second: &[u16],
    window: Window,
    out: &mut [u8],
) -> Result<Clearance, Refusal> {
    let mut answer = [0; 5];
    let number = unsafe {
        face::durbizhan_verdict(
            universe.axes,
            universe.bits,
            universe.frame_bits,
            rows.as_ptr(),
            rows.len(),
            balls.as_ptr(),
            balls.len(),
            first.as_ptr(),
            first.len(),
            second.as_ptr(),
            second.len(),
            window.first,
            window.last,
            out.as_mut_ptr(),
            out.len(),
            &mut answer,
        )
    };
    clearance_of(number, answer)
}

/// The verdict of [`verdict`] at once: no room is lent, and no expression is written. Refused as that is, but never
/// [`Refusal::NoRoom`].
///
/// ```
/// use durbizhan::{halfspace, verdict_at_once, Universe, Verdict, Window, BLACK};
///
/// let frames = Universe { axes: 1, bits: 0, frame_bits: 12 };
/// let window = Window { first: 0, last: 4095 };
/// let found = verdict_at_once(frames, &[-2, 1, 0, 0, 0], &[], &[halfspace(0)], &[BLACK], window)?;
/// assert_eq!(found, Verdict::Hit { first: 2, last: 4095, voxels: 4094 });
/// # Ok::<(), durbizhan::Refusal>(())
/// ```
pub fn verdict_at_once(
    universe: Universe,
    rows: &[i64],
    balls: &[i64],
    first: &[u16],
    second: &[u16],
    window: Window,
) -> Result<Verdict, Refusal> {
    let mut answer = [0; 4];
    let number = unsafe {
        face::durbizhan_verdict_at_once(
            universe.axes,
            universe.bits,
            universe.frame_bits,
            rows.as_ptr(),
            rows.len(),
            balls.as_ptr(),
            balls.len(),
            first.as_ptr(),
            first.len(),
            second.as_ptr(),
            second.len(),
            window.first,
            window.last,
            &mut answer,
        )
    };
    let [hit, first, last, voxels] = answer;
    accepted(number, 0)?;
    Ok(verdict_of(hit, first, last, voxels))
}

/// The ends of that verdict alone, at once: nothing is counted, and a block is entered only where it could better them.
/// Refused as [`verdict_at_once`] is.
///
/// ```
/// use durbizhan::{ends_at_once, halfspace, Ends, Universe, Window, BLACK};
///
/// let frames = Universe { axes: 1, bits: 0, frame_bits: 12 };
/// let window = Window { first: 0, last: 4094 };
/// let found = ends_at_once(frames, &[-2, 1, 0, 0, 0], &[], &[halfspace(0)], &[BLACK], window)?;
/// assert_eq!(found, Ends::Hit { first: 2, last: 4094 });
/// # Ok::<(), durbizhan::Refusal>(())
/// ```
pub fn ends_at_once(
    universe: Universe,
    rows: &[i64],
    balls: &[i64],
    first: &[u16],
    second: &[u16],
    window: Window,
) -> Result<Ends, Refusal> {
    let mut answer = [0; 3];
    let number = unsafe {
        face::durbizhan_ends_at_once(
            universe.axes,
            universe.bits,
            universe.frame_bits,
            rows.as_ptr(),
            rows.len(),
            balls.as_ptr(),
            balls.len(),
            first.as_ptr(),
            first.len(),
            second.as_ptr(),
            second.len(),
            window.first,
            window.last,
            &mut answer,
        )
    };
    let [hit, first, last] = answer;
    accepted(number, 0)?;
    Ok(match hit {
        0 => Ends::Clear,
        _ => Ends::Hit { first, last },
    })
}

/// Sure and possible contact of two trees over a window. Refused as [`verdict`] is, but never [`Refusal::NoRoom`].
///
/// ```
/// use durbizhan::{contacts, halfspace, Contacts, Universe, Window, BLACK};
///
/// let frames = Universe { axes: 1, bits: 0, frame_bits: 2 };
/// let window = Window { first: 0, last: 3 };
/// // from time 5/2 on: frame 2 is in doubt, and its middle is on the plane
/// let found = contacts(frames, &[-5, 2, 0, 0, 0], &[], &[halfspace(0)], &[BLACK], window)?;
/// assert_eq!(found, Contacts { sure: 1, centre: 2, possible: 2 });
/// # Ok::<(), durbizhan::Refusal>(())
/// ```
pub fn contacts(
    universe: Universe,
    rows: &[i64],
    balls: &[i64],
    first: &[u16],
    second: &[u16],
    window: Window,
) -> Result<Contacts, Refusal> {
    let mut answer = [0; 3];
    let number = unsafe {
        face::durbizhan_contacts(
            universe.axes,
            universe.bits,
            universe.frame_bits,
            rows.as_ptr(),
            rows.len(),
            balls.as_ptr(),
            balls.len(),
            first.as_ptr(),
            first.len(),
            second.as_ptr(),
            second.len(),
            window.first,
            window.last,
            &mut answer,
        )
    };
    let [sure, centre, possible] = answer;
    accepted(number, 0)?;
    Ok(Contacts { sure, centre, possible })
}

/// The volume of an expression, and its verdict over a window.
///
/// Refused, in this order: [`Refusal::BadUniverse`], [`Refusal::BadExpression`], [`Refusal::Outside`].
///
/// ```
/// use durbizhan::{numbers, Numbers, Universe, Verdict, Window};
///
/// let frames = Universe { axes: 1, bits: 0, frame_bits: 2 };
/// let found = numbers(frames, b"(WB", Window { first: 0, last: 1 })?;
/// assert_eq!(found, Numbers { volume: 2, verdict: Verdict::Clear });
/// # Ok::<(), durbizhan::Refusal>(())
/// ```
pub fn numbers(universe: Universe, expression: &[u8], window: Window) -> Result<Numbers, Refusal> {
    let mut answer = [0; 5];
    let number = unsafe {
        face::durbizhan_numbers(
            universe.axes,
            universe.bits,
            universe.frame_bits,
            expression.as_ptr(),
            expression.len(),
            window.first,
            window.last,
            &mut answer,
        )
    };
    let [volume, hit, first, last, voxels] = answer;
    accepted(number, 0)?;
    Ok(Numbers { volume, verdict: verdict_of(hit, first, last, voxels) })
}
