//! How much room the output of a call has.

use oracle::random::Random;

/// How much room a call's output has.
#[derive(Clone, Copy)]
pub enum Room {
    /// As much as the answer takes.
    Exact,
    /// One byte less; none where the answer takes none.
    Short,
    /// Some bytes more.
    Over(usize),
    /// So many bytes.
    Of(usize),
}

impl Room {
    /// The room in bytes, where the answer takes `needed`; never more than `most`.
    pub fn bytes(self, needed: usize, most: usize) -> usize {
        let bytes = match self {
            Self::Exact => needed,
            Self::Short => needed.saturating_sub(1),
            Self::Over(more) => needed + more,
            Self::Of(bytes) => bytes,
        };
        bytes.min(most)
    }

    /// Exactly full in half of the calls.
    pub fn random(random: &mut Random) -> Self {
        match random.below(8) {
            0 => Self::Short,
            1 => Self::Of(random.within(0..=3)),
            2 | 3 => Self::Over(random.within(1..=9)),
            _ => Self::Exact,
        }
    }
}
