//! `tarjimp_srl_decode`, `tarjimp_srl_encode` and `tarjimp_srl_finish`.

use oracle::kinds::room::Room;
use oracle::kinds::srl::{MOST_ROOM, decode, encode, exhaustive};
use oracle::port;
use oracle::record::Fields;
use oracle::srl::reach::{DecoderState, EncoderState};

use super::{Agrees, bytes_before, overwritten, same, same_answer, same_places};

/// How many elements an output has, of which no more than `MOST_ROOM` are lent.
const PLACES: usize = MOST_ROOM + 32;

fn reader_numbers(state: DecoderState) -> [u64; 5] {
    [
        state.byte_idx as u64,
        state.bit_idx.into(),
        state.kp.into(),
        state.zero_run_remaining as u64,
        state.nonzero_pending.into(),
    ]
}

/// The state of a reader, if each number is one of its field.
fn reader(numbers: [u64; 5]) -> Option<DecoderState> {
    let [byte_idx, bit_idx, kp, zero_run_remaining, nonzero_pending] = numbers;
    Some(DecoderState {
        byte_idx: byte_idx.try_into().ok()?,
        bit_idx: bit_idx.try_into().ok()?,
        kp: kp.try_into().ok()?,
        zero_run_remaining: zero_run_remaining.try_into().ok()?,
        nonzero_pending: [false, true].get(nonzero_pending as usize).copied()?,
    })
}

fn writer_numbers(state: EncoderState) -> [u64; 4] {
    [
        state.kp.into(),
        state.pending_zeros as u64,
        state.current.into(),
        state.bit_count.into(),
    ]
}

/// The values of an output before a call.
fn values_before() -> Vec<i16> {
    (0..PLACES)
        .map(|place| (place % 251) as i16 - 20_000)
        .collect()
}

/// Calls on one stream, each from the state that the one before left.
pub fn decode(fields: &mut Fields<'_>) -> Agrees {
    let calls = fields.u8();
    let mut state = decode::read_state(fields);
    let length = fields.short();
    let stream = fields.bytes(length);
    for _ in 0..calls {
        let call = decode::Call::read(fields);
        let text = decode::answer(stream, state, call);
        let mut numbers = reader_numbers(state);
        let mut out = values_before();
        let mut missing = u64::MAX;
        let number = port::srl_decode(
            stream,
            &mut numbers,
            &mut out[..call.room],
            call.num_values as usize,
            call.num_bits,
            &mut missing,
        );
        same("refusal", number, text.number)?;
        same("state", numbers, reader_numbers(text.state))?;
        same("missing bits", missing, text.missing)?;
        same_places("values", &out, &overwritten(values_before(), &text.values))?;
        let answer = decode::Answer {
            number,
            values: out[..text.values.len()].to_vec(),
            state: reader(numbers).ok_or("the state is none")?,
            missing,
        };
        same_answer(fields, &answer.fields())?;
        state = text.state;
    }
    Ok(())
}

/// Calls one after another, and the end of the stream.
pub fn encode(fields: &mut Fields<'_>) -> Agrees {
    let calls = fields.u8();
    let mut state = encode::read_state(fields);
    for _ in 0..calls {
        let num_bits = fields.u8();
        let room = fields.short();
        let count = fields.short();
        let values: Vec<i16> = (0..count).map(|_| fields.i16()).collect();
        let text = encode::encoded(state, &values, num_bits, Room::Of(room));
        let mut numbers = writer_numbers(state);
        let mut out = bytes_before(PLACES);
        let mut written = usize::MAX;
        let number = port::srl_encode(
            &values,
            &mut numbers,
            &mut out[..room],
            num_bits,
            &mut written,
        );
        same("state", numbers, writer_numbers(text.state))?;
        same_output(&text, number, &out, written)?;
        same_answer(fields, &text.fields(true))?;
        state = text.state;
    }
    let room = fields.short();
    let text = encode::finished(state, Room::Of(room));
    let mut out = bytes_before(PLACES);
    let mut written = usize::MAX;
    let number = port::srl_finish(&writer_numbers(state), &mut out[..room], &mut written);
    same_output(&text, number, &out, written)?;
    same_answer(fields, &text.fields(false))
}

/// Whether the port wrote what the text wrote, and nothing behind it. Then the answer of the text is
/// that of the port.
fn same_output(text: &encode::Answer, number: u8, out: &[u8], written: usize) -> Agrees {
    same("refusal", number, text.number)?;
    same("count of bytes", written, text.bytes.len())?;
    let held = overwritten(bytes_before(PLACES), &text.bytes);
    same_places("bytes", out, &held)
}

/// Has both decode values of a stream, from its start, and gives what the port decodes, its state then and the bits
/// that were missing.
pub fn same_values(
    stream: &[u8],
    width: u8,
    count: usize,
) -> Result<(Vec<i16>, DecoderState, u64), String> {
    let (values, state, text_missing) = exhaustive::decoded(stream, width, count);
    let mut numbers = reader_numbers(decode::START);
    let before = vec![i16::MAX; count + 8];
    let mut out = before.clone();
    let mut missing = u64::MAX;
    let number = port::srl_decode(
        stream,
        &mut numbers,
        &mut out[..count],
        count,
        width,
        &mut missing,
    );
    same("refusal", number, 0)?;
    same("state", numbers, reader_numbers(state))?;
    same("missing bits", missing, text_missing)?;
    same_places("values", &out, &overwritten(before, &values))?;
    out.truncate(count);
    let state = reader(numbers).ok_or("the state is none")?;
    Ok((out, state, missing))
}

/// The 256 streams of a case.
pub fn exhaustive(fields: &mut Fields<'_>) -> Agrees {
    let [width, count, bytes, first] = [(); 4].map(|()| fields.u8());
    let mut digest = 0;
    for last in 0..=255 {
        let stream = &[first, last][2 - usize::from(bytes)..];
        let (values, state, missing) = same_values(stream, width, count.into())?;
        digest = exhaustive::with_answer(digest, &values, state, missing);
    }
    same_answer(fields, &digest.to_le_bytes())
}
