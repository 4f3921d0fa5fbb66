//! What calls are answered.

/// What a request is answered, in the order of the library. What it doesn't name is 0.
#[repr(C)]
#[derive(Clone, Copy, Debug, Default, PartialEq, Eq)]
#[allow(missing_docs)]
pub struct Answer {
    pub first: u64,
    pub second: u64,
    pub third: u64,
    pub fourth: u64,
}

/// What a write would take now, or a read would get.
#[derive(Clone, Copy, Debug, PartialEq, Eq)]
pub struct Space {
    /// Whole fragments.
    pub fragments: u64,
    /// Fragments in all.
    pub fragments_in_all: u64,
    /// Bytes of one.
    pub fragment_bytes: u64,
    /// Bytes.
    pub bytes: u64,
}

/// How far a channel is.
#[derive(Clone, Copy, Debug, PartialEq, Eq)]
pub struct Position {
    /// Bytes that it has played or recorded.
    pub bytes: u64,
    /// Fragments passed since the last answer.
    pub blocks: u64,
    /// The place in its ring.
    pub place: u64,
}

/// Shortages since the last answer.
#[derive(Clone, Copy, Debug, PartialEq, Eq)]
#[allow(missing_docs)]
pub struct Errors {
    pub underruns: u64,
    pub overruns: u64,
}

/// How a ring is cut.
#[derive(Clone, Copy, Debug, PartialEq, Eq)]
pub struct Fragments {
    /// How many; 0 asks for as many as fit.
    pub count: u16,
    /// Each has 2 to the power of this bytes.
    pub power: u16,
}

/// A volume, 0 to 100 on each side.
#[derive(Clone, Copy, Debug, PartialEq, Eq)]
#[allow(missing_docs)]
pub struct Volume {
    pub left: u8,
    pub right: u8,
}

impl From<Answer> for Space {
    fn from(answer: Answer) -> Space {
        Space { fragments: answer.first, fragments_in_all: answer.second, fragment_bytes: answer.third, bytes: answer.fourth }
    }
}

impl From<Answer> for Position {
    fn from(answer: Answer) -> Position {
        Position { bytes: answer.first, blocks: answer.second, place: answer.third }
    }
}

impl From<Answer> for Errors {
    fn from(answer: Answer) -> Errors {
        Errors { underruns: answer.first, overruns: answer.second }
    }
}

impl From<Answer> for Fragments {
    fn from(answer: Answer) -> Fragments {
        Fragments { count: (answer.first >> 16) as u16, power: answer.first as u16 }
    }
}

impl From<Answer> for Volume {
    fn from(answer: Answer) -> Volume {
        Volume { left: answer.first as u8, right: (answer.first >> 8) as u8 }
    }
}

impl Fragments {
    /// The number that asks for these.
    pub(crate) fn number(self) -> u32 {
        u32::from(self.count) << 16 | u32::from(self.power)
    }
}

impl Volume {
    /// The number that asks for it.
    pub(crate) fn number(self) -> u32 {
        u32::from(self.left) | u32::from(self.right) << 8
    }
}
