/// Axes, the last of which counts frames; the bits of each of the others, 0 where there is one axis; and those of the
/// frames. Any numbers may stand here: each call checks them.
#[derive(Clone, Copy, Debug, PartialEq, Eq)]
pub struct Universe {
    /// 1 to 4.
    pub axes: u64,
    /// 0 to 10.
    pub bits: u64,
    /// 0 to 12.
    pub frame_bits: u64,
}

/// Frames first to last, both ends in.
#[derive(Clone, Copy, Debug, PartialEq, Eq)]
pub struct Window {
    /// The first frame.
    pub first: u64,
    /// The last frame.
    pub last: u64,
}

/// An expression that was written to the front of lent room: the universe that it is of, and its length.
#[derive(Clone, Copy, Debug, PartialEq, Eq)]
pub struct Shape {
    /// Its universe.
    pub universe: Universe,
    /// How many symbols were written.
    pub length: usize,
}
