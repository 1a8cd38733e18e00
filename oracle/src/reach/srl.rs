// Opens private functions and fields of srl.rs.

use super::*;

pub fn max_magnitude(num_bits: u8) -> Result<u16, SrlError> {
    super::max_magnitude(num_bits)
}

/// What a decoder holds beside its stream.
#[derive(Debug, Clone, Copy, PartialEq, Eq)]
pub struct DecoderState {
    pub byte_idx: usize,
    pub bit_idx: u8,
    pub kp: u8,
    pub zero_run_remaining: usize,
    pub nonzero_pending: bool,
}

pub fn decoder(data: &[u8], state: DecoderState) -> SrlDecoder<'_> {
    SrlDecoder {
        reader: BitReader {
            data,
            byte_idx: state.byte_idx,
            bit_idx: state.bit_idx,
        },
        kp: state.kp,
        zero_run_remaining: state.zero_run_remaining,
        nonzero_pending: state.nonzero_pending,
    }
}

pub fn decoder_state(decoder: &SrlDecoder<'_>) -> DecoderState {
    DecoderState {
        byte_idx: decoder.reader.byte_idx,
        bit_idx: decoder.reader.bit_idx,
        kp: decoder.kp,
        zero_run_remaining: decoder.zero_run_remaining,
        nonzero_pending: decoder.nonzero_pending,
    }
}

/// What an encoder holds beside its whole bytes.
#[derive(Debug, Clone, Copy, PartialEq, Eq)]
pub struct EncoderState {
    pub kp: u8,
    pub pending_zeros: usize,
    pub current: u8,
    pub bit_count: u8,
}

/// An encoder without whole bytes.
pub fn encoder(state: EncoderState) -> SrlEncoder {
    SrlEncoder {
        writer: BitWriter {
            bytes: Vec::new(),
            current: state.current,
            bit_count: state.bit_count,
        },
        kp: state.kp,
        pending_zeros: state.pending_zeros,
    }
}

/// The whole bytes of an encoder, and what else it holds.
pub fn encoder_parts(encoder: SrlEncoder) -> (Vec<u8>, EncoderState) {
    let state = EncoderState {
        kp: encoder.kp,
        pending_zeros: encoder.pending_zeros,
        current: encoder.writer.current,
        bit_count: encoder.writer.bit_count,
    };
    (encoder.writer.bytes, state)
}
