//! Refusals.

use core::fmt;

/// Why a call is refused.
///
/// A refused call alters nothing that it was lent. Where several apply, the order is that of
/// `docs/SCOPE.md`, "Refusals". The bytes of a stream never cause one.
#[derive(Debug, Clone, Copy, PartialEq, Eq)]
pub enum Error {
    /// 1: a slice of coefficients, signs or scratch has fewer than 4,096 elements, or one of pixels fewer
    /// than 16,384 bytes.
    SliceTooShort,
    /// 2: a position or quantizer is above 15, given or in the tile.
    OutOfDomain,
    /// 3: pixels are wanted of a tile in the standard layout.
    StandardLayout,
    /// 4: the width of an SRL value, which is here, is outside 1 to 15.
    InvalidBitCount(u8),
    /// 5: a value's magnitude is above the maximum of its width.
    MagnitudeOutOfRange {
        /// The first such magnitude.
        magnitude: u16,
        /// The maximum of its width.
        max: u16,
    },
    /// 6: more than 4,096 zeros are pending in an [`SrlEncoder`](crate::srl::SrlEncoder).
    ZeroRunTooLong,
    /// 7: the answer exceeds an output slice. No call of this crate gives it: their outputs grow.
    OutputTooShort,
    /// 8: a tile's numbers of zero signs are not those of its signs: `sign` or `use_reduce_extrapolate` were set, and
    /// [`count_zero_signs`](crate::progressive::TileState::count_zero_signs) was not called. The C functions give it for
    /// an impossible state of a coder too; here no such state can be made.
    ImpossibleState,
}

impl Error {
    /// The number of the refusal, which the C functions return.
    ///
    /// ```
    /// use tarjimp::Error;
    ///
    /// assert_eq!(Error::SliceTooShort.number(), 1);
    /// assert_eq!(Error::InvalidBitCount(16).number(), 4);
    /// assert_eq!(Error::ImpossibleState.number(), 8);
    /// ```
    pub const fn number(&self) -> u8 {
        match self {
            Self::SliceTooShort => 1,
            Self::OutOfDomain => 2,
            Self::StandardLayout => 3,
            Self::InvalidBitCount(_) => 4,
            Self::MagnitudeOutOfRange { .. } => 5,
            Self::ZeroRunTooLong => 6,
            Self::OutputTooShort => 7,
            Self::ImpossibleState => 8,
        }
    }
}

impl fmt::Display for Error {
    fn fmt(&self, f: &mut fmt::Formatter<'_>) -> fmt::Result {
        match self {
            Self::SliceTooShort => f.write_str(
                "a slice is too short: coefficients, signs and scratch have 4096 elements, pixels 16384 bytes",
            ),
            Self::OutOfDomain => f.write_str("a position or quantizer is above 15"),
            Self::StandardLayout => {
                f.write_str("pixels are made in the reduce-extrapolate layout only")
            }
            Self::InvalidBitCount(bits) => write!(f, "an SRL width is outside 1 to 15: {bits}"),
            Self::MagnitudeOutOfRange { magnitude, max } => write!(
                f,
                "a magnitude is above the maximum of its width: {magnitude} above {max}"
            ),
            Self::ZeroRunTooLong => f.write_str("more than 4096 zeros are pending"),
            Self::OutputTooShort => f.write_str("the answer does not fit the output slice"),
            Self::ImpossibleState => f.write_str(
                "the coder state is impossible, or the tile's numbers of zero signs are wrong",
            ),
        }
    }
}

impl core::error::Error for Error {}

/// Ends the program because a function of the library answered with a number that it does not have.
#[cold]
#[track_caller]
pub(crate) fn defect(function: &str, number: u8) -> ! {
    panic!(
        "{function} answered {number}, a refusal that it cannot give here: libtarjimp.a is of another version than this crate, or one of them has a defect"
    )
}

#[cfg(test)]
mod tests {
    use super::{Error, defect};

    const ALL: [Error; 8] = [
        Error::SliceTooShort,
        Error::OutOfDomain,
        Error::StandardLayout,
        Error::InvalidBitCount(0),
        Error::MagnitudeOutOfRange {
            magnitude: 9,
            max: 7,
        },
        Error::ZeroRunTooLong,
        Error::OutputTooShort,
        Error::ImpossibleState,
    ];

    #[test]
    fn each_has_its_number_and_its_message() {
        let numbers = ALL.map(|error| error.number());
        assert_eq!(numbers, [1, 2, 3, 4, 5, 6, 7, 8]);
        let mut messages = ALL.map(|error| error.to_string()).to_vec();
        messages.sort();
        messages.dedup();
        assert_eq!(messages.len(), ALL.len());
        assert!(messages.iter().all(|message| !message.is_empty()));
    }

    #[test]
    #[should_panic(expected = "tarjimp_srl_decode answered 9")]
    fn a_number_that_cannot_be_is_told() {
        defect("tarjimp_srl_decode", 9);
    }
}
