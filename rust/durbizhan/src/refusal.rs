use std::error::Error;
use std::fmt::{self, Display, Formatter};

// The numbers, as include/durbizhan.h names them.
const ACCEPTED: u64 = 0;
const BAD_FILE: u64 = 1;
const BAD_UNIVERSE: u64 = 2;
const BAD_ROWS: u64 = 3;
const BAD_TREE: u64 = 4;
const OVERFULL_TREE: u64 = 5;
const NO_ROOM: u64 = 6;
const BAD_EXPRESSION: u64 = 7;
const NOT_MERGED: u64 = 8;
const OUTSIDE: u64 = 9;
const BAD_PROXY: u64 = 10;
const BAD_KEYS: u64 = 11;
const BAD_STEP: u64 = 12;

/// Why a call was refused: a variant for each number of rule 8.1. What stands beside the numbers there says where each
/// is given.
///
/// ```
/// use durbizhan::{room, Refusal, Universe};
///
/// let refused = room(Universe { axes: 5, bits: 2, frame_bits: 2 }, 4, 0).unwrap_err();
/// assert_eq!(refused, Refusal::BadUniverse);
/// assert_eq!(refused.number(), 2);
/// assert_eq!(refused.to_string(), "bad universe");
/// ```
#[derive(Clone, Copy, Debug, PartialEq, Eq)]
pub enum Refusal {
    /// 1: no scene or no shape.
    BadFile,
    /// 2: no such universe, or none that the question is for.
    BadUniverse,
    /// 3: rows or balls that are past a limit, or not whole.
    BadRows,
    /// 4: words that do not make one shape.
    BadTree,
    /// 5: more words, or more shapes pending, than a tree may have.
    OverfullTree,
    /// 6: less room is lent than is needed.
    NoRoom {
        /// How many symbols it takes; of a file bytes, of a report counts.
        needed: u64,
    },
    /// 6 too: a pruned conversion is lent less work room than it needs.
    NoWorkRoom {
        /// How many nodes it takes, of three numbers each.
        needed: u64,
    },
    /// 7: no expression, no list of expressions or no octree.
    BadExpression,
    /// 8: an expression that is not merged, where a shape file is written or read.
    NotMerged,
    /// 9: a voxel, a path or a window that the universe does not hold.
    Outside,
    /// 10: a proxy's number that is no sixteenth or past its limit, or near over far.
    BadProxy,
    /// 11: a mover's keys.
    BadKeys,
    /// 12: a mover's step.
    BadStep,
    /// A number that is not in the table: the archive is of another version than this crate.
    Unknown {
        /// That number.
        number: u64,
    },
}

impl Refusal {
    /// The number of rule 8.1, as the face for C returns it.
    pub fn number(self) -> u64 {
        match self {
            Refusal::BadFile => BAD_FILE,
            Refusal::BadUniverse => BAD_UNIVERSE,
            Refusal::BadRows => BAD_ROWS,
            Refusal::BadTree => BAD_TREE,
            Refusal::OverfullTree => OVERFULL_TREE,
            Refusal::NoRoom { .. } | Refusal::NoWorkRoom { .. } => NO_ROOM,
            Refusal::BadExpression => BAD_EXPRESSION,
            Refusal::NotMerged => NOT_MERGED,
            Refusal::Outside => OUTSIDE,
            Refusal::BadProxy => BAD_PROXY,
            Refusal::BadKeys => BAD_KEYS,
            Refusal::BadStep => BAD_STEP,
            Refusal::Unknown { number } => number,
        }
    }

    fn of(number: u64, needed: u64) -> Refusal {
        match number {
            BAD_FILE => Refusal::BadFile,
            BAD_UNIVERSE => Refusal::BadUniverse,
            BAD_ROWS => Refusal::BadRows,
            BAD_TREE => Refusal::BadTree,
            OVERFULL_TREE => Refusal::OverfullTree,
            NO_ROOM => Refusal::NoRoom { needed },
            BAD_EXPRESSION => Refusal::BadExpression,
            NOT_MERGED => Refusal::NotMerged,
            OUTSIDE => Refusal::Outside,
            BAD_PROXY => Refusal::BadProxy,
            BAD_KEYS => Refusal::BadKeys,
            BAD_STEP => Refusal::BadStep,
            _ => Refusal::Unknown { number },
        }
    }
}

impl Display for Refusal {
    fn fmt(&self, to: &mut Formatter) -> fmt::Result {
        match self {
            Refusal::BadFile => write!(to, "bad file"),
            Refusal::BadUniverse => write!(to, "bad universe"),
            Refusal::BadRows => write!(to, "bad rows"),
            Refusal::BadTree => write!(to, "bad tree"),
            Refusal::OverfullTree => write!(to, "overfull tree"),
            Refusal::NoRoom { needed } => write!(to, "no room: {needed} needed"),
            Refusal::NoWorkRoom { needed } => write!(to, "no work room: {needed} nodes needed"),
            Refusal::BadExpression => write!(to, "bad expression"),
            Refusal::NotMerged => write!(to, "not merged"),
            Refusal::Outside => write!(to, "outside"),
            Refusal::BadProxy => write!(to, "bad proxy"),
            Refusal::BadKeys => write!(to, "bad keys"),
            Refusal::BadStep => write!(to, "bad step"),
            Refusal::Unknown { number } => write!(to, "refused {number}"),
        }
    }
}

impl Error for Refusal {}

/// Whether a call was accepted, by the number that it returned. What is needed counts for number 6 alone.
pub(crate) fn accepted(number: u64, needed: u64) -> Result<(), Refusal> {
    match number {
        ACCEPTED => Ok(()),
        _ => Err(Refusal::of(number, needed)),
    }
}
