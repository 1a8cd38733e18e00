//! Kind 34: every stream of one byte and of two.

use std::io;

use oracle::srl::reach::{self, DecoderState};

use super::decode::START;
use crate::digest::{mixed, with_values};
use crate::kinds::missing;
use crate::record::{Kind, Recording};

pub const SRL_EXHAUSTIVE: Kind = Kind {
    number: 34,
    inputs: 4,
    size: 12,
};

const WIDTHS: [u8; 5] = [1, 2, 3, 7, 15];
const COUNTS: [u8; 4] = [1, 3, 8, 40];

/// A case is the 256 streams of one byte, or those of two with the same first byte.
pub fn record_all(recording: &mut Recording<'_>) -> io::Result<()> {
    let mut cases = recording.cases(SRL_EXHAUSTIVE);
    for width in WIDTHS {
        for count in COUNTS {
            let digest = digest(&[], width, count);
            cases.add(&[&[width, count, 1, 0], &digest.to_le_bytes()])?;
            for first in 0..=255 {
                let digest = self::digest(&[first], width, count);
                cases.add(&[&[width, count, 2, first], &digest.to_le_bytes()])?;
            }
        }
    }
    cases.finish()
}

/// What the text decodes from the streams that begin so and have one byte more, as one number.
fn digest(begin: &[u8], width: u8, count: u8) -> u64 {
    let mut digest = 0;
    for last in 0..=255 {
        let stream = [begin, &[last]].concat();
        let (values, state, missing) = decoded(&stream, width, count.into());
        digest = with_answer(digest, &values, state, missing);
    }
    digest
}

/// What the text decodes from a stream, the state then, and how many bits were missing.
pub fn decoded(stream: &[u8], width: u8, count: usize) -> (Vec<i16>, DecoderState, u64) {
    let mut decoder = reach::decoder(stream, START);
    let values = decoder
        .decode(count, width)
        .expect("the width is one the decoder takes");
    let missing = missing::of_values(stream, START, count, width);
    (values, reach::decoder_state(&decoder), missing)
}

/// A digest with the values of a stream more, the state, and the count of missing bits.
pub fn with_answer(digest: u64, values: &[i16], state: DecoderState, missing: u64) -> u64 {
    let mut digest = with_values(digest, values.iter().copied());
    digest = mixed(digest, state.byte_idx as u64);
    digest = mixed(digest, u64::from(state.bit_idx));
    digest = mixed(digest, u64::from(state.kp));
    digest = mixed(digest, state.zero_run_remaining as u64);
    digest = mixed(digest, u64::from(state.nonzero_pending));
    mixed(digest, missing)
}
