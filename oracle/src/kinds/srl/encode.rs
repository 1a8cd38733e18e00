//! Kind 33: calls of `SrlEncoder::encode`, one after another, and then of `SrlEncoder::finish`.

use std::io;

use oracle::srl::SrlError;
use oracle::srl::reach::{self, EncoderState};

use super::{
    BAD_WIDTHS, IMPOSSIBLE_STATE, MAX_KP, MOST_ROOM, NO_ROOM, long, random_width, record_kind,
    short,
};
use crate::kinds::room::Room;
use crate::record::{Case, Fields, Recording};
use oracle::random::Random;

pub const SRL_ENCODE: u8 = 33;

/// The most zeros that can wait for a value.
const MOST_ZEROS: usize = 4096;

/// The encoder at the start of a stream.
const START: EncoderState = EncoderState {
    kp: 8,
    pending_zeros: 0,
    current: 0,
    bit_count: 0,
};

/// What is asked in one call of `encode`.
#[derive(Clone)]
struct Call {
    values: Vec<i16>,
    num_bits: u8,
    room: Room,
}

fn exact(values: &[i16], num_bits: u8) -> Call {
    call(values, num_bits, Room::Exact)
}

fn call(values: &[i16], num_bits: u8, room: Room) -> Call {
    Call {
        values: values.to_vec(),
        num_bits,
        room,
    }
}

/// Records all cases; the answer is the cases whose answers kind 35 makes wrong.
pub fn record_all(recording: &mut Recording<'_>) -> io::Result<Vec<(u8, Case)>> {
    let directed = [
        every_kp(),
        every_width(),
        zeros(),
        states(),
        faults(),
        rooms(),
    ];
    record_kind(
        recording,
        SRL_ENCODE,
        models(),
        &directed.concat(),
        1000,
        random_case,
    )
}

/// The case of some calls, each from the state that the one before handed back, and of the end.
fn case(start: EncoderState, calls: &[Call], end: Room) -> Case {
    let mut case = Case::default();
    case.given(&[u8::try_from(calls.len()).expect("few calls")]);
    case.given(&state_fields(start));
    let mut state = start;
    for call in calls {
        let answer = encoded(state, &call.values, call.num_bits, call.room);
        case.given(&[call.num_bits]);
        case.given(&short(answer.room));
        case.given(&short(call.values.len()));
        for value in &call.values {
            case.given(&value.to_le_bytes());
        }
        case.answer(&answer.fields(true));
        state = answer.state;
    }
    let answer = finished(state, end);
    case.given(&short(answer.room));
    case.answer(&answer.fields(false));
    case
}

/// What comes of a call of `encode` or of `finish`.
pub struct Answer {
    /// How many bytes the output has room for.
    pub room: usize,
    /// The number of the refusal, 0 if there is none.
    pub number: u8,
    pub bytes: Vec<u8>,
    pub state: EncoderState,
}

impl Answer {
    /// What the text answers if there is room for everything, with the refusal for too little room. A
    /// refusal leaves the state as it was.
    fn given_room(
        text: Result<(Vec<u8>, EncoderState), u8>,
        before: EncoderState,
        room: Room,
    ) -> Self {
        let needed = text.as_ref().map_or(0, |(bytes, _)| bytes.len());
        let room = room.bytes(needed, MOST_ROOM);
        let (number, (bytes, state)) = match text {
            Ok(_) if needed > room => (NO_ROOM, (Vec::new(), before)),
            Ok(answer) => (0, answer),
            Err(number) => (number, (Vec::new(), before)),
        };
        Self {
            room,
            number,
            bytes,
            state,
        }
    }

    /// As fields of a case: with the state unless the stream ends.
    pub fn fields(&self, goes_on: bool) -> Vec<u8> {
        let mut fields = vec![self.number];
        fields.extend(short(self.bytes.len()));
        if goes_on {
            fields.extend(state_fields(self.state));
        }
        fields.extend(&self.bytes);
        fields
    }
}

fn state_fields(state: EncoderState) -> Vec<u8> {
    [
        &[state.kp][..],
        &long(state.pending_zeros),
        &[state.current, state.bit_count],
    ]
    .concat()
}

/// Reads the fields of a state.
pub fn read_state(fields: &mut Fields<'_>) -> EncoderState {
    EncoderState {
        kp: fields.u8(),
        pending_zeros: fields.long(),
        current: fields.u8(),
        bit_count: fields.u8(),
    }
}

/// What the text answers to a call of `encode`. An impossible state is the port's refusal.
pub fn encoded(state: EncoderState, values: &[i16], num_bits: u8, room: Room) -> Answer {
    let text = || {
        if !possible(state) {
            return Err(IMPOSSIBLE_STATE);
        }
        let mut encoder = reach::encoder(state);
        match encoder.encode(values, num_bits) {
            Ok(()) => Ok(reach::encoder_parts(encoder)),
            Err(SrlError::InvalidBitCount(_)) => Err(4),
            Err(SrlError::MagnitudeOutOfRange { .. }) => Err(5),
            Err(SrlError::ZeroRunTooLong) => Err(6),
            Err(error) => panic!("the encoder does not answer {error}"),
        }
    };
    Answer::given_room(text(), state, room)
}

/// What the text answers to `finish`.
pub fn finished(state: EncoderState, room: Room) -> Answer {
    let text = || {
        if !possible(state) {
            return Err(IMPOSSIBLE_STATE);
        }
        let stream = reach::encoder(state).finish();
        Ok((stream.expect("the zeros are few"), state))
    };
    Answer::given_room(text(), state, room)
}

fn possible(state: EncoderState) -> bool {
    state.kp <= MAX_KP
        && state.bit_count <= 7
        && state.pending_zeros <= MOST_ZEROS
        && u32::from(state.current) < 1 << state.bit_count
}

/// Few cases that have each sort of answer.
fn models() -> Vec<Case> {
    let some = EncoderState {
        kp: 17,
        pending_zeros: 300,
        current: 21,
        bit_count: 5,
    };
    let full = EncoderState {
        pending_zeros: MOST_ZEROS,
        ..some
    };
    let wrong = EncoderState {
        pending_zeros: 0x0102_0304_0506_0708,
        ..some
    };
    vec![
        case(
            some,
            &[exact(&[0, 5, -7], 3), exact(&[0, 0], 2)],
            Room::Over(2),
        ),
        case(
            full,
            &[exact(&[0], 4), exact(&[9], 3), exact(&[], 0)],
            Room::Short,
        ),
        case(
            START,
            &[call(&[3, 3, -3, 1, 1], 2, Room::Short)],
            Room::Exact,
        ),
        case(wrong, &[exact(&[1], 1)], Room::Exact),
    ]
}

/// Each kp with pending zeros around the sizes of its runs.
fn every_kp() -> Vec<Case> {
    let mut cases = Vec::new();
    for kp in 0..=MAX_KP {
        let size = 1usize << (kp / 8);
        let mut counts = vec![0, 1, size - 1, size, size + 1, 3 * size, MOST_ZEROS];
        counts.sort_unstable();
        counts.dedup();
        for pending_zeros in counts {
            let state = EncoderState {
                kp,
                pending_zeros,
                ..START
            };
            cases.push(case(state, &[exact(&[-1, 0, 0], 2)], Room::Exact));
            cases.push(case(state, &[], Room::Exact));
        }
    }
    cases
}

/// For each width, both signs of the magnitudes 1, the maximum, its neighbours and -32768; and an
/// empty list, also for widths that are none.
fn every_width() -> Vec<Case> {
    let mut cases = Vec::new();
    for width in 1..=15u8 {
        let maximum = (1i32 << width) - 1;
        let mut magnitudes = vec![1, 2, maximum - 1, maximum, maximum + 1];
        magnitudes.retain(|&magnitude| (1..=32767).contains(&magnitude));
        magnitudes.dedup();
        for magnitude in magnitudes {
            for value in [magnitude as i16, -magnitude as i16] {
                cases.push(case(START, &[exact(&[value, 0, 1], width)], Room::Exact));
            }
        }
        cases.push(case(START, &[exact(&[1, i16::MIN], width)], Room::Exact));
        cases.push(case(
            START,
            &[exact(&[], width), exact(&[1], width)],
            Room::Exact,
        ));
    }
    for width in BAD_WIDTHS {
        let calls = [
            exact(&[], width),
            exact(&[0], width),
            exact(&[1, i16::MIN], width),
            call(&[1], width, Room::Of(0)),
            exact(&[-1], 1),
        ];
        cases.push(case(START, &calls, Room::Exact));
    }
    cases
}

/// As many zeros as can wait and one more, in one call and across calls.
fn zeros() -> Vec<Case> {
    let most = vec![0; MOST_ZEROS];
    let more = vec![0; MOST_ZEROS + 1];
    let then_one = [&most[..], &[1]].concat();
    let twice = [&then_one[..], &[0; 5]].concat();
    let one = exact(&[0], 3);
    vec![
        case(START, &[exact(&most, 3)], Room::Exact),
        case(START, &[exact(&most, 3)], Room::Short),
        case(START, &[exact(&more, 3)], Room::Exact),
        case(
            START,
            &[exact(&most, 3), one.clone(), exact(&[-7], 3), one.clone()],
            Room::Exact,
        ),
        case(
            START,
            &[exact(&most[1..], 3), one.clone(), one.clone()],
            Room::Exact,
        ),
        case(
            START,
            &[one.clone(), exact(&most, 3), exact(&most[1..], 3)],
            Room::Exact,
        ),
        case(START, &[exact(&then_one, 3), one], Room::Exact),
        case(START, &[exact(&twice, 15)], Room::Exact),
    ]
}

/// The greatest state and states that are one above it; every number of waiting bits.
fn states() -> Vec<Case> {
    let mut states = vec![
        EncoderState {
            kp: MAX_KP,
            ..START
        },
        EncoderState { kp: 81, ..START },
        EncoderState { kp: 255, ..START },
        EncoderState {
            pending_zeros: MOST_ZEROS,
            ..START
        },
        EncoderState {
            pending_zeros: MOST_ZEROS + 1,
            ..START
        },
        EncoderState {
            pending_zeros: usize::MAX,
            ..START
        },
        EncoderState {
            bit_count: 8,
            ..START
        },
        EncoderState {
            bit_count: 255,
            ..START
        },
        EncoderState {
            bit_count: 64,
            ..START
        },
        EncoderState {
            current: 255,
            bit_count: 7,
            ..START
        },
    ];
    for bit_count in 0..8 {
        let above = 1u8 << bit_count;
        for current in [0, above - 1, above] {
            states.push(EncoderState {
                current,
                bit_count,
                ..START
            });
        }
    }
    let mut cases = Vec::new();
    for state in states {
        for end in [Room::Exact, Room::Short, Room::Over(1), Room::Of(0)] {
            cases.push(case(state, &[], end));
        }
        for room in [Room::Exact, Room::Short, Room::Of(0)] {
            cases.push(case(state, &[call(&[0, 2, -1], 3, room)], Room::Exact));
            cases.push(case(
                state,
                &[call(&[8], 3, room), call(&[1], 16, room)],
                Room::Exact,
            ));
        }
    }
    cases
}

/// Magnitudes above the maximum and zeros above their limit in one call, in both orders, with and
/// without room.
fn faults() -> Vec<Case> {
    let nearly = EncoderState {
        pending_zeros: MOST_ZEROS - 1,
        ..START
    };
    let lists: [&[i16]; 8] = [
        &[0, 0, 8],
        &[8, 0, 0],
        &[0, 8, 0],
        &[0, -8, 0, 0],
        &[0, 7, 0, 8],
        &[0, 0, i16::MIN],
        &[i16::MIN, 0],
        &[0, 7, 0],
    ];
    let mut cases = Vec::new();
    for values in lists {
        for width in [3, 16] {
            for room in [Room::Exact, Room::Short, Room::Of(0)] {
                cases.push(case(nearly, &[call(values, width, room)], Room::Exact));
            }
        }
    }
    cases
}

/// Outputs that are exactly full, one short and longer.
fn rooms() -> Vec<Case> {
    let rooms = [
        Room::Exact,
        Room::Short,
        Room::Over(1),
        Room::Over(20),
        Room::Of(0),
    ];
    let lists: [&[i16]; 5] = [&[], &[1], &[1, -1, 2, 0, 0, 3, -3], &[40, -100], &[0; 9]];
    let mut cases = Vec::new();
    for values in lists {
        for room in rooms {
            for end in rooms {
                cases.push(case(START, &[call(values, 7, room), exact(&[1], 1)], end));
            }
        }
    }
    cases
}

fn random_case(random: &mut Random) -> Case {
    let start = random_state(random);
    let count = random.within(1..=6);
    let calls: Vec<Call> = (0..count).map(|_| random_call(random)).collect();
    let end = Room::random(random);
    case(start, &calls, end)
}

/// The start, any state that there can be, or one that there cannot.
fn random_state(random: &mut Random) -> EncoderState {
    if random.one_in(2) {
        return START;
    }
    let bit_count = random.below(8);
    let state = EncoderState {
        kp: random.below(MAX_KP + 1),
        pending_zeros: match random.below(4) {
            0 => random.within(0..=MOST_ZEROS),
            1 => random.within(0..=9),
            2 => random.within(MOST_ZEROS - 3..=MOST_ZEROS),
            _ => 0,
        },
        current: random.below(1 << bit_count),
        bit_count,
    };
    match random.below(32) {
        0 => EncoderState {
            kp: random.within(81..=255) as u8,
            ..state
        },
        1 => EncoderState {
            pending_zeros: random.within(MOST_ZEROS + 1..=usize::MAX - 1),
            ..state
        },
        2 => EncoderState {
            bit_count: random.within(8..=255) as u8,
            ..state
        },
        3 => EncoderState {
            current: random.within(1 << bit_count..=255) as u8,
            ..state
        },
        _ => state,
    }
}

/// A call of few values.
fn random_call(random: &mut Random) -> Call {
    let num_bits = match random.below(16) {
        0 => random.pick(&BAD_WIDTHS),
        _ => random_width(random),
    };
    let count = random.within(0..=7);
    let values = (0..count)
        .map(|_| random_value(random, num_bits.clamp(1, 15)))
        .collect();
    Call {
        values,
        num_bits,
        room: Room::random(random),
    }
}

/// A value for a width: half of them are zeros, few have a magnitude near the maximum or above it.
fn random_value(random: &mut Random, width: u8) -> i16 {
    let maximum = (1usize << width) - 1;
    let magnitude = match random.below(128) {
        0 => maximum + 1,
        1 => random.within(1..=maximum.min(2000)),
        2 => 32768,
        3 if random.one_in(8) => maximum,
        _ => random.within(1..=maximum.min(20)),
    };
    match random.below(4) {
        0 => magnitude.min(32767) as i16,
        1 => -(magnitude as i32) as i16,
        _ => 0,
    }
}
