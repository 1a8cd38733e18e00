//! Kinds 32 to 34: the SRL coders.

pub mod decode;
pub mod encode;
pub mod exhaustive;

use std::io;

use super::{IMPOSSIBLE_STATE, NO_ROOM, record_kind, short};
use crate::record::{Case, Recording};
use oracle::random::Random;

/// The most values or bytes that a call of a case has room for.
pub const MOST_ROOM: usize = 8192;

/// The greatest kp.
const MAX_KP: u8 = 80;

/// Widths that no value can have.
const BAD_WIDTHS: [u8; 5] = [0, 16, 17, 128, 255];

/// Records the cases of these kinds; the answer is cases that stand for all sorts of answers, each
/// with its kind.
pub fn record_all(recording: &mut Recording<'_>) -> io::Result<Vec<(u8, Case)>> {
    let mut models = recording.kind(decode::SRL_DECODE, decode::record_all)?;
    models.extend(recording.kind(encode::SRL_ENCODE, encode::record_all)?);
    recording.kind(exhaustive::SRL_EXHAUSTIVE.number, exhaustive::record_all)?;
    Ok(models)
}

/// A number of the machine's size, as a field of 8 bytes.
fn long(number: usize) -> [u8; 8] {
    (number as u64).to_le_bytes()
}

/// A width of 1 to 15, small ones more often.
fn random_width(random: &mut Random) -> u8 {
    let most = random.pick(&[4, 4, 15]);
    1 + random.below(most)
}
