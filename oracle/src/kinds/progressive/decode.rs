//! Kind 36: a pass over one component, read by `decode_upgrade_pass`.

use std::io;

use oracle::progressive;

use super::component::Made;
use super::{
    Before, COMPONENT, Given, LAYOUTS, PLACES, Shape, Signs, bad_rows, every_pair, lengths,
    random_given, record_kind, refusal, short, typical,
};
use crate::digest::with_values;
use crate::kinds::missing::{self, Missing};
use crate::record::{Case, Recording};
use oracle::random::Random;

pub const DECODE_UPGRADE: u8 = 36;

/// Records all cases; the answer is the cases whose answers kind 35 makes wrong.
pub fn record_all(recording: &mut Recording<'_>) -> io::Result<Vec<(u8, Case)>> {
    let directed = [pairs(), shapes(), refusals(), streams(), empty(), cuts()];
    record_kind(
        recording,
        DECODE_UPGRADE,
        models(),
        &directed.concat(),
        200,
        random_case,
    )
}

fn case(given: Given, srl: &[u8], raw: &[u8]) -> Case {
    let mut case = Case::default();
    case.given(&given.fields());
    case.given(&short(srl.len()));
    case.given(&short(raw.len()));
    let mut made = given.make();
    let (number, missing) = read(&given, srl, raw, &mut made);
    case.answer(&[number]);
    case.answer(&digest(&made).to_le_bytes());
    case.answer(&missing::fields(missing));
    case.given(srl);
    case.given(raw);
    case
}

/// What the text makes of the coefficients before the pass, and of the signs: the refusal, or 0, and the
/// bits that were missing.
pub fn read(given: &Given, srl: &[u8], raw: &[u8], made: &mut Made) -> (u8, Missing) {
    let [_, before, sign] = given.lengths;
    let number = refusal(&[before, sign], &[given.prev, given.curr]);
    if number != 0 {
        return (number, [0; 2]);
    }
    let missing = missing::of_pass(
        srl,
        raw,
        &given.prev,
        &given.curr,
        given.use_reduce_extrapolate,
        &made.sign,
    );
    progressive::decode_upgrade_pass(
        srl,
        raw,
        &given.prev_quant(),
        &given.curr_quant(),
        given.use_reduce_extrapolate,
        &mut made.before[..before],
        &mut made.sign[..sign],
    )
    .expect("a stream causes no refusal");
    (number, missing)
}

/// The coefficients and the signs, also those behind the slices, as one number.
pub fn digest(made: &Made) -> u64 {
    let coefficients = with_values(0, made.before.iter().copied());
    with_values(coefficients, made.sign.iter().map(|&sign| sign.into()))
}

/// Few cases that have each sort of answer.
fn models() -> Vec<Case> {
    let streams = Random::new(1, DECODE_UPGRADE).bytes(60);
    let short = Given {
        lengths: [COMPONENT, COMPONENT, COMPONENT - 1],
        ..typical(2)
    };
    let (prev, curr) = bad_rows([3; 10], [1; 10])[7];
    let bad = Given {
        prev,
        curr,
        ..typical(3)
    };
    vec![
        case(typical(1), &streams[..20], &streams[20..]),
        case(short, &[], &[]),
        case(bad, &[], &[]),
    ]
}

/// Each pair of positions, in both layouts.
fn pairs() -> Vec<Case> {
    let mut random = Random::new(2, DECODE_UPGRADE);
    let mut cases = Vec::new();
    for use_reduce_extrapolate in LAYOUTS {
        for (prev, curr) in every_pair() {
            let given = Given {
                shape: Shape {
                    density: 30,
                    drop: 0,
                    spread: 3,
                    signs: Signs::Later,
                    ..typical(random.word() | 1).shape
                },
                use_reduce_extrapolate,
                prev,
                curr,
                lengths: [COMPONENT; 3],
            };
            cases.push(case(given, &random.bytes(900), &random.bytes(500)));
        }
    }
    cases
}

/// Each sort of coefficients with each sort of signs, few and many of them, with streams of zeros,
/// ones and any bytes.
fn shapes() -> Vec<Case> {
    let mut random = Random::new(3, DECODE_UPGRADE);
    let befores = [Before::Cut, Before::Floor, Before::Any, Before::Extreme];
    let all_signs = [Signs::Before, Signs::Any, Signs::Zero, Signs::Later];
    let mut cases = Vec::new();
    for before in befores {
        for signs in all_signs {
            for density in [2, 50, 255] {
                let seed = random.word() | 1;
                let mut given = typical(seed);
                given.shape = Shape {
                    density,
                    drop: 0,
                    before,
                    signs,
                    ..given.shape
                };
                let some = random.bytes(150);
                cases.push(case(given, &some, &some[..100]));
                cases.push(case(given, &[0xFF; 40], &[0xFF; 40]));
                cases.push(case(given, &[0; 9], &some[..9]));
            }
        }
    }
    cases
}

/// Slices that are too short or longer, and numbers that are no positions; both at once.
fn refusals() -> Vec<Case> {
    let ones = [0xFF; 8];
    let given = typical(4);
    let mut cases = Vec::new();
    for lengths in lengths() {
        let given = Given { lengths, ..given };
        cases.push(case(given, &ones, &ones));
        cases.push(case(
            Given {
                prev: [16; 10],
                ..given
            },
            &ones,
            &ones,
        ));
    }
    for (prev, curr) in bad_rows(given.prev, given.curr) {
        cases.push(case(
            Given {
                prev,
                curr,
                ..given
            },
            &ones,
            &ones,
        ));
    }
    cases
}

/// Streams of every length up to a few bytes, and the writer's streams whole and cut.
fn streams() -> Vec<Case> {
    let mut random = Random::new(4, DECODE_UPGRADE);
    let mut cases = Vec::new();
    for length in 0..=9 {
        let mut given = typical(5);
        given.shape.density = 5;
        let stream = random.bytes(length);
        cases.push(case(given, &stream, &[]));
        cases.push(case(given, &[], &stream));
        given.shape.density = 255;
        cases.push(case(given, &[], &stream));
    }
    for seed in 6..10 {
        let mut given = typical(seed);
        given.shape.density = 20;
        given.lengths = [PLACES; 3];
        let (srl, raw) = written(&given);
        cases.push(case(given, &srl, &raw));
        for cut in [1, 2, 3, 10] {
            cases.push(case(given, &srl[..srl.len() - cut], &raw));
            cases.push(case(given, &srl, &raw[..raw.len() - cut]));
        }
    }
    cases
}

/// Streams of few bytes, at every width in both layouts: over zeros, where all places outside the bottom
/// have an SRL value, and over known places, where all bits are raw ones. At positions 15 to 0 the counts
/// of missing bits are known: of empty streams, and the most that there can be.
fn empty() -> Vec<Case> {
    let mut cases = Vec::new();
    for use_reduce_extrapolate in LAYOUTS {
        for width in 1..=15 {
            let mut zeros = Given {
                use_reduce_extrapolate,
                prev: [width; 10],
                curr: [0; 10],
                ..typical(12)
            };
            zeros.shape.drop = 16;
            let mut known = zeros;
            known.shape.before = Before::Extreme;
            for srl in [&[][..], &[0x01], &[0x10, 0x33]] {
                cases.push(case(zeros, srl, &[]));
            }
            cases.push(case(zeros, &[], &[0x01]));
            cases.push(case(known, &[], &[]));
        }
        let missing = |srl: &[u8], sign| {
            let sign = [sign; COMPONENT];
            missing::of_pass(srl, &[], &[15; 10], &[0; 10], use_reduce_extrapolate, &sign)
        };
        let raw = if use_reduce_extrapolate { 1215 } else { 960 };
        assert_eq!(missing(&[], 0), [20, raw]);
        assert_eq!(missing(&[0x10, 0x33], 0), [32_790, raw]);
        assert_eq!(missing(&[], 1), [0, 61_440]);
    }
    cases
}

/// The writer's streams of a few passes, each cut at every length.
fn cuts() -> Vec<Case> {
    let mut cases = Vec::new();
    for (seed, width) in (13..).zip([1, 2, 4, 3]) {
        let mut given = typical(seed);
        given.shape.density = 40;
        given.curr = given.prev;
        for band in 6..10 {
            given.curr[band] -= width;
        }
        let (srl, raw) = written(&given);
        for length in 0..=srl.len() {
            cases.push(case(given, &srl[..length], &raw));
        }
        for length in 0..raw.len() {
            cases.push(case(given, &srl, &raw[..length]));
        }
    }
    cases
}

/// The streams that the text writes from the coefficients before the pass to the target; none if it
/// refuses.
fn written(given: &Given) -> (Vec<u8>, Vec<u8>) {
    let made = given.make();
    super::encode::write(given, &made).unwrap_or_default()
}

fn random_case(random: &mut Random) -> Case {
    let given = random_given(random);
    let (mut srl, mut raw) = random_streams(random, &given);
    srl.truncate(1500);
    raw.truncate(1500);
    case(given, &srl, &raw)
}

/// Any bytes, or the writer's streams: whole, or cut and damaged.
fn random_streams(random: &mut Random, given: &Given) -> (Vec<u8>, Vec<u8>) {
    let domain = refusal(&[], &[given.prev, given.curr]) == 0;
    if !domain || random.one_in(3) {
        let most = random.pick(&[0, 10, 300, 1500]);
        let (srl, raw) = (random.within(0..=most), random.within(0..=most));
        return (random.bytes(srl), random.bytes(raw));
    }
    let (mut srl, mut raw) = written(given);
    if random.one_in(2) {
        for stream in [&mut srl, &mut raw] {
            let kept = random.within(0..=stream.len());
            stream.truncate(kept);
            if kept > 0 {
                stream[random.within(0..=kept - 1)] ^= random.word() as u8;
            }
        }
    }
    (srl, raw)
}
