//! Kinds 31 and 35: cases with a wrong answer, which a comparison must not let pass.

use std::io;

use crate::record::{Case, Kind, Recording};

pub const WRONG_ANSWER: Kind = Kind {
    number: 31,
    inputs: 24,
    size: 24,
};

pub const WRONG_CASE: u8 = 35;

/// The first case of each kind whose cases have the same size, once for each byte of its answer,
/// with the lowest bit of that byte turned over. The kind stands before the case, zeros after it.
pub fn record_all(recording: &mut Recording<'_>) -> io::Result<()> {
    let first_cases = recording.first_cases().to_vec();
    let Some((first, _)) = first_cases.first() else {
        return Ok(());
    };
    let mut cases = recording.cases(Kind {
        inputs: 1 + first.inputs,
        ..WRONG_ANSWER
    });
    for (kind, case) in &first_cases {
        for place in kind.inputs..kind.size {
            let mut wrong = [0; WRONG_ANSWER.size];
            wrong[0] = kind.number;
            wrong[1..=kind.size].copy_from_slice(case);
            wrong[1 + place] ^= 1;
            cases.add(&[&wrong])?;
        }
    }
    cases.finish()
}

/// Cases that are records of their own, each once for each byte of its answers, with the lowest bit
/// of that byte turned over. The kind stands before the case.
pub fn record_models(recording: &mut Recording<'_>, models: &[(u8, Case)]) -> io::Result<()> {
    for (kind, case) in models {
        for &place in &case.answers {
            let mut wrong = Case::default();
            wrong.given(&[*kind]);
            wrong.given(&case.bytes);
            wrong.bytes[1 + place] ^= 1;
            wrong.answers = vec![1 + place];
            recording.record_case(WRONG_CASE, &wrong)?;
        }
    }
    Ok(())
}
