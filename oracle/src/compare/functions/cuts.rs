//! Streams that are cut at each byte, by `tarjimp_srl_decode`, `tarjimp_decode_upgrade_pass` and
//! `tarjimp_tile_decode_upgrade`.

use oracle::kinds::progressive::cuts::{
    Call, Given, LENGTH, Streams, VALUES, WIDTH, with_answer, zeros,
};
use oracle::kinds::progressive::{decode, tile};
use oracle::kinds::srl::exhaustive;
use oracle::record::Fields;

use super::{Agrees, passes, same_answer, srl, tiles};

/// All cuts of a case.
pub fn cut_everywhere(fields: &mut Fields<'_>) -> Agrees {
    let given = Given::read(fields);
    let streams = given.streams();
    let mut digest = 0;
    for length in 0..=LENGTH {
        digest = with_cut(&given, digest, &streams, length)
            .map_err(|what| format!("cut after {length} bytes, {what}"))?;
    }
    same_answer(fields, &digest.to_le_bytes())
}

/// Has both make the call at a length, and gives the digest with what the port leaves.
fn with_cut(given: &Given, digest: u64, streams: &Streams, length: usize) -> Result<u64, String> {
    let [srl, raw] = streams.first(length);
    match given.call {
        Call::Decode => {
            let (values, state, missing) = srl::same_values(srl, WIDTH, VALUES)?;
            Ok(exhaustive::with_answer(digest, &values, state, missing))
        }
        Call::Pass => {
            let (number, missing, made) = passes::same_read(&given.pass(), srl, raw, zeros)?;
            let left = decode::digest(&made);
            Ok(with_answer(digest, number, left, missing))
        }
        Call::Tile => {
            let [mut tile, mut text] = [given.tile(), given.tile()];
            let upgrade = streams.upgrade(length);
            let (number, missing) = tiles::same_upgrade(&mut tile, &mut text, &upgrade)?;
            let left = tile::digest(&tile);
            Ok(with_answer(digest, number, left, missing))
        }
    }
}
