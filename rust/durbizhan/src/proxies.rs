//! Stand-in proxies become rows.

use crate::face;
use crate::refusal::accepted;
use crate::{Refusal, BOX_ROWS, ROW_LENGTH};

/// The six rows of a stand-in Box for four axes, near and far of x, of y, of z; the displacement is per frame.
///
/// Refused: [`Refusal::BadProxy`].
///
/// ```
/// use durbizhan::box_rows;
///
/// // half a unit a frame along x
/// let rows = box_rows([0.0; 3], [1.0, 2.0, 3.0], [0.5, 0.0, 0.0])?;
/// assert_eq!(rows[..10], [0, 16, 0, 0, -8, 16, -16, 0, 0, 8]);
/// # Ok::<(), durbizhan::Refusal>(())
/// ```
pub fn box_rows(
    near: [f64; 3],
    far: [f64; 3],
    displacement: [f64; 3],
) -> Result<[i64; BOX_ROWS * ROW_LENGTH], Refusal> {
    let mut rows = [0; BOX_ROWS * ROW_LENGTH];
    let number = unsafe {
        face::durbizhan_box(
            near[0],
            near[1],
            near[2],
            far[0],
            far[1],
            far[2],
            displacement[0],
            displacement[1],
            displacement[2],
            &mut rows,
        )
    };
    accepted(number, 0)?;
    Ok(rows)
}

/// The row of a stand-in Cut for four axes, which holds where n·x + offset is not negative; the displacement is per
/// frame.
///
/// Refused: [`Refusal::BadProxy`].
///
/// ```
/// use durbizhan::cut_row;
///
/// assert_eq!(cut_row([1.0, 0.0, 0.0], -2.0, [0.0; 3]), Ok([-512, 256, 0, 0, 0]));
/// ```
pub fn cut_row(normal: [f64; 3], offset: f64, displacement: [f64; 3]) -> Result<[i64; ROW_LENGTH], Refusal> {
    let mut row = [0; ROW_LENGTH];
    let number = unsafe {
        face::durbizhan_cut(
            normal[0],
            normal[1],
            normal[2],
            offset,
            displacement[0],
            displacement[1],
            displacement[2],
            &mut row,
        )
    };
    accepted(number, 0)?;
    Ok(row)
}
