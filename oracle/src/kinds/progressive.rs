//! Kinds 36 to 40: a pass over one component, read and written; dequantizing; a tile, loaded and upgraded.
//! Kind 45: a tile's pixels. Kind 46: streams that are cut at each byte. Kind 47: a pass written by the symmetric
//! rule.

pub mod component;
pub mod cuts;
pub mod decode;
pub mod dequantize;
pub mod encode;
pub mod ladder;
mod load;
pub mod pixels;
mod symmetric;
pub mod tile;
pub mod zero_signs;

use std::io;

use super::{IMPOSSIBLE_STATE, NO_ROOM, record_kind, short};
use crate::record::{Case, Recording};
use component::{Before, Given, Row, Shape, Signs};
pub use component::{PLACES, next, with_sign};
use oracle::random::Random;

/// The port's refusals of a slice that is too short and of a number above 15. The text panics at the
/// first, and takes no such number from the wire: README.md has the rule.
const TOO_SHORT: u8 = 1;
const OUT_OF_DOMAIN: u8 = 2;

/// The coefficients of a component.
pub const COMPONENT: usize = oracle::progressive::COEFFICIENTS_PER_COMPONENT;

/// The greatest position, and quantizer.
const GREATEST: u8 = 15;

/// The two layouts, as the field `use_reduce_extrapolate`.
const LAYOUTS: [bool; 2] = [false, true];

/// Records the cases of these kinds; the answer is cases that stand for all sorts of answers, each
/// with its kind.
pub fn record_all(recording: &mut Recording<'_>) -> io::Result<Vec<(u8, Case)>> {
    let mut models = recording.kind(decode::DECODE_UPGRADE, decode::record_all)?;
    models.extend(recording.kind(encode::ENCODE_UPGRADE, encode::record_all)?);
    models.extend(recording.kind(dequantize::DEQUANTIZE, dequantize::record_all)?);
    models.extend(recording.kind(load::TILE_LOAD, load::record_all)?);
    models.extend(recording.kind(ladder::UPGRADE_LADDER, ladder::record_all)?);
    models.extend(recording.kind(pixels::TILE_PIXELS, pixels::record_all)?);
    recording.kind(cuts::CUT_EVERYWHERE.number, cuts::record_all)?;
    models.extend(recording.kind(encode::ENCODE_SYMMETRIC, encode::record_symmetric)?);
    Ok(models)
}

/// The refusal for lengths and rows, 0 if there is none: 1 comes before 2.
pub fn refusal(lengths: &[usize], rows: &[Row]) -> u8 {
    if lengths.iter().any(|&length| length < COMPONENT) {
        return TOO_SHORT;
    }
    if rows.iter().flatten().any(|&number| number > GREATEST) {
        return OUT_OF_DOMAIN;
    }
    0
}

/// Components with about a fifth of the coefficients known, each in a slice of its size: a pass that
/// the writer accepts.
fn typical(seed: u64) -> Given {
    Given {
        shape: Shape {
            seed,
            density: 90,
            drop: 8,
            spread: 7,
            before: Before::Cut,
            signs: Signs::Before,
            cut: true,
        },
        use_reduce_extrapolate: seed.is_multiple_of(2),
        prev: [4; 10],
        curr: [2; 10],
        lengths: [COMPONENT; 3],
    }
}

/// Rows in which each pair of positions stands once, beside others; the last rows are filled up with
/// pairs from the start.
fn every_pair() -> Vec<(Row, Row)> {
    let pairs: Vec<(u8, u8)> = (0..=GREATEST)
        .flat_map(|prev| (0..=GREATEST).map(move |curr| (prev, curr)))
        .collect();
    // A step that has no factor in common with 256, so that each row has wide and narrow bands.
    let order: Vec<(u8, u8)> = (0..260).map(|i| pairs[i * 77 % 256]).collect();
    order
        .chunks_exact(10)
        .map(|ten| {
            let prev = core::array::from_fn(|band| ten[band].0);
            let curr = core::array::from_fn(|band| ten[band].1);
            (prev, curr)
        })
        .collect()
}

/// Rows with one number above 15, at each place of each row, and with numbers above 15 that make no
/// band wider.
fn bad_rows(prev: Row, curr: Row) -> Vec<(Row, Row)> {
    let mut rows = Vec::new();
    for band in 0..10 {
        for bad in [16, 255] {
            let mut changed = prev;
            changed[band] = bad;
            rows.push((changed, curr));
            let mut changed = curr;
            changed[band] = bad;
            rows.push((prev, changed));
        }
    }
    rows.push(([200; 10], [200; 10]));
    rows.push(([16; 10], [16; 10]));
    rows
}

/// Lengths of the three slices, one of which is too short or longer, and all of them.
fn lengths() -> Vec<[usize; 3]> {
    let mut lengths = Vec::new();
    for length in [0, COMPONENT - 1, COMPONENT + 1, PLACES] {
        for slice in 0..3 {
            let mut changed = [COMPONENT; 3];
            changed[slice] = length;
            lengths.push(changed);
        }
        lengths.push([length; 3]);
    }
    lengths
}

/// Components of all sorts, most of which the writer accepts.
fn random_given(random: &mut Random) -> Given {
    let (prev, curr) = random_rows(random);
    let mut given = Given {
        shape: random_shape(random, prev, curr),
        use_reduce_extrapolate: random.one_in(2),
        prev,
        curr,
        lengths: [COMPONENT; 3],
    };
    if random.one_in(8) {
        let slice = random.within(0..=2);
        given.lengths[slice] =
            random.pick(&[COMPONENT - 1, COMPONENT + 1, COMPONENT + 100, PLACES]);
    }
    if random.one_in(64) {
        let band = random.within(0..=9);
        let row = random.pick(&[0, 1]);
        let bad = random.within(16..=255) as u8;
        [&mut given.prev, &mut given.curr][row][band] = bad;
    }
    given
}

/// Positions of a pass: mostly some bits for each band, at times none.
fn random_rows(random: &mut Random) -> (Row, Row) {
    let widest = random.pick(&[1, 2, 3, 3, 6, 15]);
    let lowest = random.below(GREATEST + 1);
    let prev = core::array::from_fn(|_| (lowest + random.below(4)).min(GREATEST));
    let curr = prev.map(|prev: u8| {
        if random.one_in(12) {
            return random.below(GREATEST + 1);
        }
        prev.saturating_sub(random.below(widest + 1))
    });
    if random.one_in(6) {
        return (prev, [curr[0].min(lowest); 10]);
    }
    (prev, curr)
}

fn random_shape(random: &mut Random, prev: Row, curr: Row) -> Shape {
    let plain = random.below(4) != 0;
    let most = prev
        .iter()
        .max()
        .expect("ten")
        .saturating_add(random.below(4));
    let wide = prev
        .iter()
        .zip(curr)
        .any(|(prev, curr)| prev.saturating_sub(curr) > 6);
    Shape {
        seed: random.word() | 1,
        density: match random.below(6) {
            _ if wide => 10,
            0 => random.below(255),
            1 => 255,
            2 => 5,
            3 => 180,
            _ => random.pick(&[40, 60, 90]),
        },
        drop: match random.below(8) {
            0 => random.below(17),
            1 => 0,
            _ => 16 - most.min(16),
        },
        spread: random.pick(&[0, 3, 7, 7, 15, 15]),
        before: match random.below(8) {
            _ if plain => Before::Cut,
            0 | 1 => Before::Any,
            2 => Before::Extreme,
            3 => Before::Cut,
            _ => Before::Floor,
        },
        signs: match random.below(8) {
            _ if plain => Signs::Before,
            0 | 1 => Signs::Any,
            2 => Signs::Zero,
            3 => Signs::Later,
            _ => Signs::Before,
        },
        cut: plain || random.one_in(2),
    }
}
