//! Durbizhan, a clearance checker for animated shots: the face for Rust of its proved library.
//!
//! Layout cuts stand-ins for characters and sets out of halfspaces and balls and moves them through a shot. The frame
//! is one more axis, the last one, and the question is whether two stand-ins ever share space:
//!
//! ```
//! use durbizhan::{halfspace, Universe, Verdict, Window, INTERSECTION};
//!
//! // two axes, x and the frame, of four units each
//! let universe = Universe { axes: 2, bits: 2, frame_bits: 2 };
//! // one stand-in that moves a voxel a frame, from t to t + 1, and one that stands from 2 to 3
//! let rows = [
//!     [0, 1, -1, 0, 0],
//!     [1, -1, 1, 0, 0],
//!     [-2, 1, 0, 0, 0],
//!     [3, -1, 0, 0, 0],
//! ];
//! let mover = [halfspace(0), halfspace(1), INTERSECTION];
//! let wall = [halfspace(2), halfspace(3), INTERSECTION];
//!
//! let leaves = durbizhan::leaves(&mover) + durbizhan::leaves(&wall);
//! let mut out = vec![0; durbizhan::room(universe, leaves, 0)? as usize];
//! let window = Window { first: 0, last: 3 };
//! let found = durbizhan::verdict(universe, rows.as_flattened(), &[], &mover, &wall, window, &mut out)?;
//! assert_eq!(found.verdict, Verdict::Hit { first: 1, last: 2, voxels: 2 });
//! assert_eq!(&out[..found.length], b"(W(((WBW((BWW");
//! # Ok::<(), durbizhan::Refusal>(())
//! ```
//!
//! - A **universe** has one to four axes. The last counts frames, of which there are 2 to the power of its frame bits;
//!   along each other it is 2 to the power of its bits long.
//! - **rows** are halfspaces, five numbers each: one holds where a0 + a1·x1 + … + a4·x4 is not negative. **balls** are
//!   four numbers each, a centre and a radius, the same in all frames.
//! - **words** are a tree in postfix order: [`halfspace`]`(i)` and [`ball`]`(i)` name what is lent, [`WHITE`] and
//!   [`BLACK`] are all or nothing, and [`UNION`], [`INTERSECTION`] and [`MINUS`] join the last two shapes.
//! - An **expression** is bytes: `(` followed by a block's low and its high half, `B` or `W`.
//!
//! Every function takes all bytes and numbers, and what is bad is refused: an `Err` with its [`Refusal`], so that no
//! answer is read before its number; of [`lines`] a refusal is a line. A refused call writes to no lent room but the
//! work room of a pruned conversion, an accepted one to its front. The library keeps no state and allocates nothing, so
//! any number of threads may call it at once. Rules, by their numbers, are those of the repository's docs/RULES.md.

mod conversions;
mod documents;
mod expressions;
mod face;
mod limits;
mod movers;
mod octrees;
mod proxies;
mod prunings;
mod refusal;
mod reports;
mod sweeps;
mod universe;
mod verdicts;

pub use conversions::{balls, leaves, merged_one, merged_two, raw_one, raw_two, room};
pub use documents::{lines, scene, shape_read, shape_write, Scene};
pub use expressions::{colour, merge, part, well_formed, Colour, Merged};
pub use limits::*;
pub use movers::{mover, Key};
pub use octrees::{octree_export, octree_import};
pub use proxies::{box_rows, cut_row};
pub use prunings::{pruned_merged_one, pruned_merged_two, pruned_raw_one, pruned_raw_two, Pruned};
pub use refusal::Refusal;
pub use reports::{report, Report};
pub use sweeps::sweep;
pub use universe::{Shape, Universe, Window};
pub use verdicts::{
    contacts, ends_at_once, numbers, verdict, verdict_at_once, Clearance, Contacts, Ends, Numbers, Verdict,
};
