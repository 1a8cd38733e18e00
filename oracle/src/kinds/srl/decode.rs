//! Kind 32: calls of `SrlDecoder::decode`, one after another.

use std::io;

use oracle::srl::reach::{self, DecoderState};
use oracle::srl::{SrlEncoder, SrlError};

use super::{
    BAD_WIDTHS, IMPOSSIBLE_STATE, MAX_KP, MOST_ROOM, NO_ROOM, long, random_width, record_kind,
    short,
};
use crate::kinds::missing;
use crate::record::{Case, Fields, Recording};
use oracle::random::Random;

pub const SRL_DECODE: u8 = 32;

/// The longest run that a decoder can be in.
const LONGEST_RUN: usize = 1024;

/// The decoder at the start of a stream.
pub const START: DecoderState = DecoderState {
    byte_idx: 0,
    bit_idx: 0,
    kp: 8,
    zero_run_remaining: 0,
    nonzero_pending: false,
};

/// Counts of values that no output of a case has room for.
const HUGE: [u64; 6] = [u64::MAX, u64::MAX - 1, 1 << 63, 1 << 32, 65536, 8193];

/// What is asked in one call.
#[derive(Clone, Copy)]
pub struct Call {
    pub num_values: u64,
    pub num_bits: u8,
    /// How many values the output has room for.
    pub room: usize,
}

/// What comes of it.
pub struct Answer {
    /// The number of the refusal, 0 if there is none.
    pub number: u8,
    pub values: Vec<i16>,
    pub state: DecoderState,
    /// How many of the bits that the call read came from past the stream's end.
    pub missing: u64,
}

impl Call {
    /// Reads the fields of a case.
    pub fn read(fields: &mut Fields<'_>) -> Self {
        Self {
            num_values: fields.u64(),
            num_bits: fields.u8(),
            room: fields.short(),
        }
    }
}

impl Answer {
    /// As fields of a case.
    pub fn fields(&self) -> Vec<u8> {
        let mut fields = vec![self.number];
        fields.extend(short(self.values.len()));
        fields.extend(state_fields(self.state));
        fields.extend(self.missing.to_le_bytes());
        for value in &self.values {
            fields.extend(value.to_le_bytes());
        }
        fields
    }
}

/// A call with just the room for its values.
fn exact(num_values: usize, num_bits: u8) -> Call {
    call(num_values as u64, num_bits, num_values)
}

fn call(num_values: u64, num_bits: u8, room: usize) -> Call {
    Call {
        num_values,
        num_bits,
        room,
    }
}

/// Records all cases; the answer is the cases whose answers kind 35 makes wrong.
pub fn record_all(recording: &mut Recording<'_>) -> io::Result<Vec<(u8, Case)>> {
    let directed = [
        every_kp(),
        every_width(),
        runs(),
        states(),
        refusals(),
        places(),
        known_missing(),
        past_the_end(),
        cuts(),
    ];
    record_kind(
        recording,
        SRL_DECODE,
        models(),
        &directed.concat(),
        1200,
        random_case,
    )
}

/// The case of some calls on one stream, each from the state that the one before handed back.
fn case(stream: &[u8], start: DecoderState, calls: &[Call]) -> Case {
    let mut case = Case::default();
    case.given(&[u8::try_from(calls.len()).expect("few calls")]);
    case.given(&state_fields(start));
    case.given(&short(stream.len()));
    case.given(stream);
    let mut state = start;
    for &call in calls {
        case.given(&call.num_values.to_le_bytes());
        case.given(&[call.num_bits]);
        case.given(&short(call.room));
        let answer = answer(stream, state, call);
        case.answer(&answer.fields());
        state = answer.state;
    }
    case
}

fn state_fields(state: DecoderState) -> Vec<u8> {
    [
        &long(state.byte_idx)[..],
        &[state.bit_idx, state.kp],
        &long(state.zero_run_remaining),
        &[u8::from(state.nonzero_pending)],
    ]
    .concat()
}

/// Reads the fields of a state.
pub fn read_state(fields: &mut Fields<'_>) -> DecoderState {
    DecoderState {
        byte_idx: fields.long(),
        bit_idx: fields.u8(),
        kp: fields.u8(),
        zero_run_remaining: fields.long(),
        nonzero_pending: fields.flag(),
    }
}

/// What the text answers to a call, with the port's two refusals more. A refusal leaves the state
/// as it was; the text moves on.
pub fn answer(stream: &[u8], state: DecoderState, call: Call) -> Answer {
    assert!(call.room <= MOST_ROOM, "the output of a case is short");
    let refused = |number| Answer {
        number,
        values: Vec::new(),
        state,
        missing: 0,
    };
    if !possible(state) {
        return refused(IMPOSSIBLE_STATE);
    }
    match decoded(stream, state, call) {
        Err(SrlError::InvalidBitCount(_)) => refused(4),
        Err(error) => panic!("the decoder does not answer {error}"),
        Ok(Some(answer)) if answer.values.len() <= call.room => answer,
        Ok(_) => refused(NO_ROOM),
    }
}

fn possible(state: DecoderState) -> bool {
    state.kp <= MAX_KP && state.bit_idx <= 7 && state.zero_run_remaining <= LONGEST_RUN
}

/// What the text decodes. Of more values than any output has room for it decodes some at a time,
/// up to the stream's end, behind which all values are zeros, and the answer is `None`: the text
/// would ask for memory for all of them at once.
fn decoded(stream: &[u8], state: DecoderState, call: Call) -> Result<Option<Answer>, SrlError> {
    let mut decoder = reach::decoder(stream, state);
    let mut left = call.num_values;
    if left > MOST_ROOM as u64 {
        loop {
            let now = reach::decoder_state(&decoder);
            let ended = now.byte_idx >= stream.len() && !now.nonzero_pending;
            if left == 0 || ended {
                return Ok(None);
            }
            let some = left.min(MOST_ROOM as u64);
            decoder.decode(some as usize, call.num_bits)?;
            left -= some;
        }
    }
    let values = decoder.decode(left as usize, call.num_bits)?;
    Ok(Some(Answer {
        number: 0,
        values,
        state: reach::decoder_state(&decoder),
        missing: missing::of_values(stream, state, left as usize, call.num_bits),
    }))
}

/// Few cases that have each sort of answer.
fn models() -> Vec<Case> {
    let stream = [0xA5, 0x3C, 0x81, 0xF0, 0x12];
    let before_end = DecoderState {
        bit_idx: 5,
        kp: 21,
        zero_run_remaining: 2,
        nonzero_pending: true,
        ..START
    };
    let far = DecoderState {
        byte_idx: 0x0102_0304_0506_0708,
        bit_idx: 3,
        kp: 81,
        zero_run_remaining: 0x0807_0605_0403_0201,
        nonzero_pending: true,
    };
    vec![
        case(&stream, START, &[exact(4, 3), exact(3, 2), call(2, 5, 4)]),
        case(
            &stream,
            before_end,
            &[exact(2, 0), exact(1, 0), exact(1, 4)],
        ),
        case(&stream, START, &[call(3, 2, 2), exact(3, 2)]),
        case(&stream, far, &[exact(1, 1)]),
    ]
}

/// Each kp with a bit 0, with a 1 and no zeros, and with a 1 and the most zeros.
fn every_kp() -> Vec<Case> {
    let mut cases = Vec::new();
    for kp in 0..=MAX_KP {
        let state = DecoderState { kp, ..START };
        for stream in [[0x00, 0x00, 0x55], [0x80, 0x05, 0x55], [0xFF, 0xFD, 0x55]] {
            cases.push(case(&stream, state, &[exact(1, 3), exact(2, 3)]));
        }
    }
    cases
}

/// For each width, both signs of the magnitudes 1, 2, the maximum and its neighbour, each written
/// by the text; and each read again at the width below and above, where that is one.
fn every_width() -> Vec<Case> {
    let mut cases = Vec::new();
    for width in 1..=15u8 {
        let maximum = (1i32 << width) - 1;
        let mut magnitudes = vec![1, 2.min(maximum), maximum - 1, maximum];
        magnitudes.retain(|&magnitude| magnitude > 0);
        magnitudes.dedup();
        for magnitude in magnitudes {
            for value in [magnitude, -magnitude] {
                let stream = written(&[(vec![value as i16], width)]);
                cases.push(case(&stream, START, &[exact(1, width), exact(2, width)]));
            }
        }
        let stream = written(&[(vec![1, -1, 1], width)]);
        for other in [width - 1, width + 1] {
            cases.push(case(&stream, START, &[exact(2, other), exact(2, width)]));
        }
    }
    cases
}

/// The stream that the text makes of calls, each with its values and its width.
fn written(calls: &[(Vec<i16>, u8)]) -> Vec<u8> {
    let mut encoder = SrlEncoder::new();
    for (values, width) in calls {
        encoder.encode(values, *width).expect("the values fit");
    }
    encoder.finish().expect("the zeros are few")
}

/// Long runs, in one call and across calls; values that wait behind a run, with another width.
fn runs() -> Vec<Case> {
    let highest = DecoderState {
        kp: MAX_KP,
        ..START
    };
    let longest = DecoderState {
        zero_run_remaining: LONGEST_RUN,
        nonzero_pending: true,
        ..highest
    };
    let run_then_value = written(&[(vec![0, 0, 0, 0, 0], 1), (vec![5, 0, -3], 3)]);
    vec![
        case(&[0x00], highest, &[exact(1024, 1), exact(1, 1)]),
        case(&[0x00, 0x00], highest, &[exact(1025, 1)]),
        case(&[0xFF, 0xE0], highest, &[exact(1023, 1), exact(2, 1)]),
        case(&[0xFF, 0xE0], highest, &[exact(1024, 1)]),
        case(
            &[0x40],
            longest,
            &[exact(1000, 0), exact(24, 255), exact(1, 0), exact(1, 3)],
        ),
        case(
            &[0x40],
            longest,
            &[exact(1024, 16), exact(1, 16), exact(1, 15)],
        ),
        case(&[], START, &[exact(4096, 16), exact(4096, 1)]),
        case(&[0x00; 64], START, &[exact(8192, 1)]),
        case(&[0xFF; 64], START, &[exact(300, 1)]),
        case(
            &run_then_value,
            START,
            &[exact(5, 1), exact(1, 3), exact(2, 3)],
        ),
        case(&run_then_value, START, &[exact(6, 1), exact(2, 3)]),
        case(
            &run_then_value,
            START,
            &[exact(3, 16), exact(2, 0), exact(1, 3), exact(2, 7)],
        ),
    ]
}

/// The greatest state and states that are one above it, each with refusals that come after.
fn states() -> Vec<Case> {
    let longest = DecoderState {
        zero_run_remaining: LONGEST_RUN,
        ..START
    };
    let possible = [
        START,
        longest,
        DecoderState {
            kp: MAX_KP,
            ..START
        },
        DecoderState {
            bit_idx: 7,
            ..START
        },
        DecoderState { kp: 0, ..START },
    ];
    let impossible = [
        DecoderState { kp: 81, ..START },
        DecoderState { kp: 255, ..START },
        DecoderState {
            bit_idx: 8,
            ..START
        },
        DecoderState {
            bit_idx: 255,
            ..START
        },
        DecoderState {
            zero_run_remaining: 1025,
            ..START
        },
        DecoderState {
            zero_run_remaining: usize::MAX,
            ..START
        },
        DecoderState {
            kp: 81,
            byte_idx: usize::MAX,
            ..longest
        },
        DecoderState {
            bit_idx: 8,
            byte_idx: 3,
            nonzero_pending: true,
            ..START
        },
    ];
    let mut cases = Vec::new();
    for state in possible.into_iter().chain(impossible) {
        for width in [1, 16] {
            cases.push(case(
                &[0xC5, 0x3A],
                state,
                &[exact(0, width), exact(3, width)],
            ));
            cases.push(case(
                &[0xC5, 0x3A],
                state,
                &[call(3, width, 2), call(u64::MAX, width, 1)],
            ));
        }
    }
    cases
}

/// Bad widths where a nonzero value is due and where none is, and outputs that are exactly full,
/// one short or long enough for anything, in every combination.
fn refusals() -> Vec<Case> {
    // A value is due at once, after three zeros, never; the last has it after zeros of a run.
    let waiting = DecoderState {
        zero_run_remaining: 3,
        nonzero_pending: true,
        ..START
    };
    let settings: [(&[u8], DecoderState); 5] = [
        (&[0x80], START),
        (&[0x70], START),
        (&[], START),
        (&[0x00, 0x00, 0x01], START),
        (&[0xAA], waiting),
    ];
    let mut cases = Vec::new();
    for (stream, state) in settings {
        for width in [1, 15].into_iter().chain(BAD_WIDTHS) {
            for count in [0, 1, 2, 3, 4, 5] {
                cases.push(case(stream, state, &[exact(count, width)]));
                let longer = call(count as u64, width, count + 3);
                if count == 0 {
                    cases.push(case(stream, state, &[longer]));
                } else {
                    let short = call(count as u64, width, count - 1);
                    cases.push(case(stream, state, &[short, longer]));
                }
            }
        }
        for width in [1, 16] {
            for count in HUGE {
                cases.push(case(stream, state, &[call(count, width, 2), exact(2, 2)]));
            }
        }
    }
    cases
}

/// Each bit of a byte, and places at and past the end, which stay as they are.
fn places() -> Vec<Case> {
    let mut cases = Vec::new();
    for byte_idx in [0, 1, 2, 3, 1 << 32, usize::MAX] {
        for bit_idx in 0..8 {
            for nonzero_pending in [false, true] {
                let state = DecoderState {
                    byte_idx,
                    bit_idx,
                    nonzero_pending,
                    ..START
                };
                cases.push(case(&[0xD2, 0x9F], state, &[exact(3, 3), exact(2, 4)]));
            }
        }
    }
    cases
}

/// Counts of missing bits that are known: 4 at width 2 from the last bit of `01`, which is refused at
/// width 16, and 32,761 of `80` at width 15; and the same at every width.
fn known_missing() -> Vec<Case> {
    let last_bit = DecoderState {
        bit_idx: 7,
        ..START
    };
    assert_eq!(missing::of_values(&[0x01], last_bit, 1, 2), 4);
    assert_eq!(missing::of_values(&[0x80], START, 1, 15), 32_761);
    let mut cases = vec![case(&[0x01], last_bit, &[exact(1, 16), exact(1, 2)])];
    for width in 1..=15 {
        cases.push(case(&[0x80], START, &[exact(1, width), exact(1, width)]));
        cases.push(case(&[0x01], last_bit, &[exact(1, width), exact(9, width)]));
    }
    cases
}

/// A place past the end, byte 9, bit 3 of two bytes, with each kp, with and without a run and a value
/// that waits: every bit that is read is missing.
fn past_the_end() -> Vec<Case> {
    let mut cases = Vec::new();
    for kp in (0..=MAX_KP).step_by(8) {
        for zero_run_remaining in [0, 2] {
            for nonzero_pending in [false, true] {
                let state = DecoderState {
                    byte_idx: 9,
                    bit_idx: 3,
                    kp,
                    zero_run_remaining,
                    nonzero_pending,
                };
                let calls = [exact(2, 5), exact(1, 5), exact(40, 3), exact(0, 3)];
                cases.push(case(&[0xD2, 0x9F], state, &calls));
            }
        }
    }
    cases
}

/// Streams of the text cut at every length: of each width, in one call and in several, and one of several
/// widths.
fn cuts() -> Vec<Case> {
    let mut cases = Vec::new();
    for width in 1..=15 {
        let most = ((1i32 << width) - 1).min(9) as i16;
        let values = vec![0, most, 0, 0, 0, -1, 0, -most, 0];
        let stream = written(&[(values, width)]);
        for length in 0..=stream.len() {
            let cut = &stream[..length];
            cases.push(case(cut, START, &[exact(9, width)]));
            let calls = [exact(2, width), exact(3, width), exact(4, width)];
            cases.push(case(cut, START, &calls));
        }
    }
    let widths = [
        (vec![0, 3, -1, 0, 0], 2),
        (vec![0; 30], 1),
        (vec![-20, 0, 0, 7], 5),
        (vec![0, 0, 0, -1], 1),
    ];
    let stream = written(&widths);
    let calls = widths.map(|(values, width)| exact(values.len(), width));
    for length in 0..=stream.len() {
        cases.push(case(&stream[..length], START, &calls));
    }
    cases
}

fn random_case(random: &mut Random) -> Case {
    let stream = random_stream(random);
    let start = random_state(random, stream.len());
    let count = random.within(1..=6);
    let calls: Vec<Call> = (0..count).map(|_| random_call(random)).collect();
    case(&stream, start, &calls)
}

/// A stream of any bytes, of few ones, of few zeros, or one of the text's, cut and damaged.
fn random_stream(random: &mut Random) -> Vec<u8> {
    let length = random.within(0..=20);
    match random.below(8) {
        0 => Vec::new(),
        1 | 2 => random.bytes(length),
        3 => sparse(random, length),
        4 => sparse(random, length).iter().map(|byte| !byte).collect(),
        _ => real(random),
    }
}

/// Bytes with few ones.
fn sparse(random: &mut Random, length: usize) -> Vec<u8> {
    let mut bytes = vec![0; length];
    for byte in &mut bytes {
        if random.one_in(3) {
            *byte = 1 << random.below(8);
        }
    }
    bytes
}

/// A stream of the text; half of them are cut, half damaged.
fn real(random: &mut Random) -> Vec<u8> {
    let calls: Vec<(Vec<i16>, u8)> = (0..random.within(1..=4))
        .map(|_| {
            let width = random_width(random);
            let most = ((1i32 << width) - 1).min(20) as usize;
            let count = random.within(0..=8);
            let values = (0..count).map(|_| random_value(random, most)).collect();
            (values, width)
        })
        .collect();
    let mut stream = written(&calls);
    if random.one_in(2) {
        stream.truncate(random.within(0..=stream.len()));
    }
    if random.one_in(2) && !stream.is_empty() {
        let place = random.within(0..=stream.len() - 1);
        stream[place] ^= 1 << random.below(8);
    }
    stream
}

/// A value of a magnitude of at most `most`; half of them are zeros.
fn random_value(random: &mut Random, most: usize) -> i16 {
    let magnitude = random.within(1..=most) as i16;
    match random.below(4) {
        0 => magnitude,
        1 => -magnitude,
        _ => 0,
    }
}

/// The start, any state that there can be, or one that there cannot.
fn random_state(random: &mut Random, length: usize) -> DecoderState {
    if random.one_in(2) {
        return START;
    }
    let state = DecoderState {
        byte_idx: match random.below(16) {
            0 => random.word() as usize,
            _ => random.within(0..=length + 1),
        },
        bit_idx: random.below(8),
        kp: random.below(MAX_KP + 1),
        zero_run_remaining: match random.below(4) {
            0 => random.within(0..=LONGEST_RUN),
            1 => random.within(0..=9),
            _ => 0,
        },
        nonzero_pending: random.one_in(2),
    };
    match random.below(32) {
        0 => DecoderState {
            kp: random.within(81..=255) as u8,
            ..state
        },
        1 => DecoderState {
            bit_idx: random.within(8..=255) as u8,
            ..state
        },
        2 => DecoderState {
            zero_run_remaining: random.within(LONGEST_RUN + 1..=usize::MAX - 1),
            ..state
        },
        _ => state,
    }
}

/// A call of few values. The output is exactly full in half of them.
fn random_call(random: &mut Random) -> Call {
    let num_bits = match random.below(8) {
        0 => random.pick(&BAD_WIDTHS),
        _ => random_width(random),
    };
    if random.one_in(40) {
        return call(random.pick(&HUGE), num_bits, random.within(0..=5));
    }
    let most = random.pick(&[4, 10, 10, 30]);
    let count = random.within(0..=most);
    let room = match random.below(8) {
        0 => count.saturating_sub(1),
        1 => random.within(0..=count),
        2 | 3 => count + random.within(1..=9),
        _ => count,
    };
    call(count as u64, num_bits, room)
}
