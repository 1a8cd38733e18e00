//! Kind 38: one component, dequantized by `dequantize_component_ccq`.

use std::io;

use oracle::progressive::reach;

use super::{
    GREATEST, Given, LAYOUTS, Shape, bad_rows, lengths, random_given, record_kind, refusal, typical,
};
use crate::digest::with_values;
use crate::record::{Case, Recording};
use oracle::random::Random;

pub const DEQUANTIZE: u8 = 38;

/// Records all cases; the answer is the cases whose answers kind 35 makes wrong.
pub fn record_all(recording: &mut Recording<'_>) -> io::Result<Vec<(u8, Case)>> {
    let directed = [every_quantizer(), refusals()];
    record_kind(
        recording,
        DEQUANTIZE,
        vec![case(typical(1))],
        &directed.concat(),
        200,
        random_case,
    )
}

/// The component is the target of a pass, its quantizers the current positions.
fn case(given: Given) -> Case {
    let mut case = Case::default();
    case.given(&given.fields());
    let mut target = given.make().target;
    let number = dequantize(&given, &mut target);
    case.answer(&[number]);
    case.answer(&with_values(0, target).to_le_bytes());
    case
}

/// What the text makes of a target: the refusal, or 0.
pub fn dequantize(given: &Given, target: &mut [i16]) -> u8 {
    let length = given.lengths[0];
    let number = refusal(&[length], &[given.curr]);
    if number == 0 {
        reach::dequantize_component_ccq(
            &mut target[..length],
            &given.curr_quant(),
            given.use_reduce_extrapolate,
        );
    }
    number
}

/// Each quantizer in all bands, and each in each band; values of any size, small ones, and the least
/// and the greatest.
fn every_quantizer() -> Vec<Case> {
    let mut random = Random::new(1, DEQUANTIZE);
    let mut cases = Vec::new();
    for use_reduce_extrapolate in LAYOUTS {
        for quantizer in 0..=GREATEST {
            let mixed = core::array::from_fn(|band| (quantizer + band as u8) % 16);
            for curr in [[quantizer; 10], mixed] {
                for (drop, spread) in [(0, 0), (0, 15), (8, 7)] {
                    let typical = typical(random.word() | 1);
                    cases.push(case(Given {
                        shape: Shape {
                            density: 255,
                            drop,
                            spread,
                            cut: false,
                            ..typical.shape
                        },
                        use_reduce_extrapolate,
                        curr,
                        ..typical
                    }));
                }
            }
        }
    }
    cases
}

/// A slice that is too short or longer, and numbers that are no quantizers; both at once. The other
/// row is not looked at.
fn refusals() -> Vec<Case> {
    let mut cases = Vec::new();
    for lengths in lengths() {
        let given = Given {
            lengths,
            ..typical(2)
        };
        let bad = Given {
            curr: [16; 10],
            ..given
        };
        cases.extend([case(given), case(bad)]);
    }
    for (prev, curr) in bad_rows([3; 10], [9; 10]) {
        cases.push(case(Given {
            prev,
            curr,
            ..typical(3)
        }));
    }
    cases
}

fn random_case(random: &mut Random) -> Case {
    let mut given = random_given(random);
    if random.one_in(2) {
        given.shape.drop = random.below(4);
    }
    if random.one_in(2) {
        given.shape.cut = false;
    }
    given.curr = core::array::from_fn(|_| random.below(GREATEST + 1));
    if random.one_in(16) {
        given.curr[random.within(0..=9)] = random.within(16..=255) as u8;
    }
    case(given)
}
