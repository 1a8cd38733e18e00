//! How many of the bits that a call reads come from past the end of a stream. The text does not count
//! them. It is run once more on the stream with zero bytes behind it, which are what it reads past the
//! end: the place where it ends says how many bits it read.

use oracle::progressive::reach as progressive;
use oracle::srl::SrlDecoder;
use oracle::srl::reach::{self, DecoderState};

use super::progressive::component::Row;

/// The bits that a pass misses of its SRL stream and of its raw stream.
pub type Missing = [u32; 2];

/// Zero bytes behind a stream, more than a call of a case reads: a value of the greatest width takes
/// 32,767 bits, each other value past the end a bit at most, and no call has more than 8192 values.
const ZEROS: usize = 8192;

/// A stream with the zeros behind it.
fn lengthened(stream: &[u8]) -> Vec<u8> {
    [stream, &[0; ZEROS]].concat()
}

/// The bits of a stream up to where a decoder is.
fn place(state: DecoderState) -> usize {
    8 * state.byte_idx + usize::from(state.bit_idx)
}

/// The state that reads the same bits from a place in the stream or at its end: past the end all bits
/// are zeros.
fn held(stream: &[u8], state: DecoderState) -> DecoderState {
    if state.byte_idx < stream.len() {
        return state;
    }
    DecoderState {
        byte_idx: stream.len(),
        bit_idx: 0,
        ..state
    }
}

/// The bits that lie between two places and not in the stream.
fn missing_between(stream: &[u8], from: usize, to: usize) -> usize {
    let end = 8 * stream.len();
    let there = to.min(end) - from.min(end);
    to - from - there
}

/// Of a call of `SrlDecoder::decode` that is accepted.
pub fn of_values(stream: &[u8], state: DecoderState, num_values: usize, num_bits: u8) -> u64 {
    let long = lengthened(stream);
    let start = held(stream, state);
    let mut decoder = reach::decoder(&long, start);
    decoder
        .decode(num_values, num_bits)
        .expect("the call is accepted");
    let end = reach::decoder_state(&decoder);
    assert!(end.byte_idx < long.len(), "the zeros are enough");
    missing_between(stream, place(start), place(end)) as u64
}

/// Of a pass over a component with these signs.
pub fn of_pass(
    srl: &[u8],
    raw: &[u8],
    prev: &Row,
    curr: &Row,
    use_reduce_extrapolate: bool,
    sign: &[i8],
) -> Missing {
    let long = lengthened(srl);
    let mut decoder = SrlDecoder::new(&long).expect("every stream is one");
    let mut raw_bits = 0;
    let bands = progressive::get_band_layout(use_reduce_extrapolate);
    for (index, band) in bands.iter().enumerate() {
        let width = prev[index].saturating_sub(curr[index]);
        if width == 0 {
            continue;
        }
        let mut zeros = 0;
        for &sign in &sign[band.offset..band.offset + band.count()] {
            // The bottom band, which is the last one, is raw throughout.
            if index < 9 && sign == 0 {
                zeros += 1;
            } else {
                raw_bits += usize::from(width);
            }
        }
        decoder.decode(zeros, width).expect("the width is one");
    }
    let end = reach::decoder_state(&decoder);
    assert!(end.byte_idx < long.len(), "the zeros are enough");
    let missing = [
        missing_between(srl, 0, place(end)),
        missing_between(raw, 0, raw_bits),
    ];
    missing.map(|bits| bits.try_into().expect("the bits of a component are few"))
}

/// As fields of a case.
pub fn fields(missing: Missing) -> Vec<u8> {
    missing.map(u32::to_le_bytes).concat()
}
