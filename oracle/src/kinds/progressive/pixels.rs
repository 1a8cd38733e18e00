//! Kind 45: the pixels of a tile, by `TileState::reconstruct_to_rgba`.

use std::io;

use oracle::random::Random;

use super::tile::{
    Fields, Start, Tile, bad_fields, numbers_of_layouts, random_start, typical, wrong_numbers,
};
use super::zero_signs::Wrong;
use super::{
    Before, COMPONENT, GREATEST, IMPOSSIBLE_STATE, LAYOUTS, Shape, TOO_SHORT, record_kind, refusal,
    short,
};
use crate::digest::with_bytes;
use crate::record::{Case, Recording};

pub const TILE_PIXELS: u8 = 45;

/// The port's refusal of pixels in the standard layout, whose wavelet the text names and does not
/// define: README.md has the rule.
const STANDARD_LAYOUT: u8 = 3;

/// The bytes of a tile's pixels, and with some behind them.
const PIXELS: usize = 16384;
const BYTES: usize = 16640;

/// Records all cases; the answer is the cases whose answers kind 35 makes wrong.
pub fn record_all(recording: &mut Recording<'_>) -> io::Result<Vec<(u8, Case)>> {
    let directed = [
        grey(),
        every_quantizer(),
        alone(),
        lengths(),
        bad_numbers(),
        several_refusals(),
        right_and_wrong_numbers(),
    ];
    record_kind(
        recording,
        TILE_PIXELS,
        models(),
        &directed.concat(),
        60,
        random_case,
    )
}

fn case(start: Start, length: usize) -> Case {
    let (number, pixels) = pixels(&start, length);
    let mut case = Case::default();
    case.given(&start.bytes());
    case.given(&short(length));
    case.given(&start.wrong.bytes());
    case.answer(&[number]);
    case.answer(&with_bytes(0, &pixels).to_le_bytes());
    case
}

/// The refusal, or 0, and the pixels, of which `length` bytes are lent. The text is asked only where
/// there is no refusal.
pub fn pixels(start: &Start, length: usize) -> (u8, Vec<u8>) {
    let mut pixels = before();
    let tile = start.built();
    let number = refusal_of(&tile, length);
    if number == 0 {
        tile.state.reconstruct_to_rgba(&mut pixels[..length]);
    }
    (number, pixels)
}

/// What is there before a call.
pub fn before() -> Vec<u8> {
    (0..BYTES).map(|i| (i % 200) as u8 + 55).collect()
}

/// 8 comes before 1, 1 before 2, and 2 before 3.
fn refusal_of(tile: &Tile, length: usize) -> u8 {
    if !tile.is_right() {
        return IMPOSSIBLE_STATE;
    }
    let fields = Fields::of(&tile.state);
    if length < PIXELS {
        return TOO_SHORT;
    }
    match refusal(&[], &[fields.prog_quant, fields.base_quant].concat()) {
        0 if !fields.use_reduce_extrapolate => STANDARD_LAYOUT,
        number => number,
    }
}

/// A tile with sensible coefficients in the layout that has pixels: most colours are not clamped.
fn plain(seed: u64) -> Start {
    let mut start = typical(seed);
    start.shape.drop = 11;
    start.fields.prog_quant = [[0; 10]; 3];
    start.fields.base_quant = [[6; 10], [7; 10], [7; 10]];
    start.fields.use_reduce_extrapolate = true;
    start
}

/// A case for each answer.
fn models() -> Vec<Case> {
    let mut bad = plain(2);
    bad.fields.base_quant[1][4] = 16;
    let mut standard = plain(3);
    standard.fields.use_reduce_extrapolate = false;
    vec![
        case(plain(1), PIXELS),
        case(plain(1), PIXELS - 1),
        case(bad, PIXELS),
        case(standard, PIXELS),
        case(
            Start {
                wrong: Wrong::At(0, 1),
                ..plain(5)
            },
            PIXELS,
        ),
    ]
}

/// Zeros in all components, with any quantizers.
fn grey() -> Vec<Case> {
    [0, 6, GREATEST]
        .map(|quantizer| {
            let mut start = plain(4);
            start.shape.drop = 16;
            start.fields.base_quant = [[quantizer; 10]; 3];
            case(start, PIXELS)
        })
        .to_vec()
}

/// Each quantizer in all bands and in each band, with coefficients that are sensible for it, few and at
/// each place; with any; and with the least and the greatest.
fn every_quantizer() -> Vec<Case> {
    let mut random = Random::new(1, TILE_PIXELS);
    let mut cases = Vec::new();
    for quantizer in 0..=GREATEST {
        let rows = core::array::from_fn(|k| {
            core::array::from_fn(|band| (quantizer + (k * 5 + band) as u8) % 16)
        });
        for base_quant in [[[quantizer; 10]; 3], rows] {
            for (before, drop) in [
                (Before::Cut, (5 + quantizer).min(15)),
                (Before::Any, (6 + quantizer).min(15)),
                (Before::Any, 0),
                (Before::Extreme, 0),
            ] {
                let mut start = plain(random.word() | 1);
                start.shape = Shape {
                    drop,
                    before,
                    ..start.shape
                };
                start.fields.base_quant = base_quant;
                cases.push(case(start, PIXELS));
            }
        }
    }
    cases
}

/// One component at a time: the others are cut at the greatest position, which leaves zeros.
fn alone() -> Vec<Case> {
    let mut cases = Vec::new();
    for k in 0..3 {
        for drop in [8, 12] {
            let mut start = plain(10 + k as u64);
            start.shape.drop = drop;
            start.fields.prog_quant = [[GREATEST; 10]; 3];
            start.fields.prog_quant[k] = [0; 10];
            cases.push(case(start, PIXELS));
        }
    }
    cases
}

/// Slices that are too short, and longer.
fn lengths() -> Vec<Case> {
    [
        0,
        1,
        COMPONENT,
        PIXELS - 4,
        PIXELS - 1,
        PIXELS + 1,
        PIXELS + 4,
        BYTES,
    ]
    .map(|length| case(plain(20 + length as u64), length))
    .to_vec()
}

/// A number above 15 at each place of the positions and of the base quantizers.
fn bad_numbers() -> Vec<Case> {
    let start = plain(30);
    bad_fields(start.fields)
        .into_iter()
        .map(|fields| case(Start { fields, ..start }, PIXELS))
        .collect()
}

/// Each two of the three refusals, and all of them.
fn several_refusals() -> Vec<Case> {
    let mut cases = Vec::new();
    for (length, quantizer, use_reduce_extrapolate) in [
        (PIXELS - 1, 16, true),
        (PIXELS - 1, 6, false),
        (BYTES, 16, false),
        (PIXELS - 1, 16, false),
    ] {
        for positions in [false, true] {
            let mut start = plain(40);
            let fields = &mut start.fields;
            let rows = [&mut fields.base_quant, &mut fields.prog_quant];
            rows[usize::from(positions)][2][9] = quantizer;
            fields.use_reduce_extrapolate = use_reduce_extrapolate;
            cases.push(case(start, length));
        }
    }
    cases
}

/// A wrong number of zero signs at each of the thirty places: with pixels, and beside each of the three refusals, which
/// come after; numbers of the other layout, which are right where no sign is 0; and right ones with signs of all sorts.
fn right_and_wrong_numbers() -> Vec<Case> {
    let mut cases = Vec::new();
    for use_reduce_extrapolate in LAYOUTS {
        let mut start = plain(50);
        start.fields.use_reduce_extrapolate = use_reduce_extrapolate;
        for (length, quantizer) in [(PIXELS, 6), (PIXELS - 1, 6), (PIXELS, 16)] {
            start.fields.base_quant[2][9] = quantizer;
            let wrong = wrong_numbers(start).into_iter();
            cases.extend(wrong.map(|wrong| case(wrong, length)));
        }
        start.fields.base_quant[2][9] = 6;
        for tiles in numbers_of_layouts(start) {
            cases.extend(tiles.map(|start| case(start, PIXELS)));
        }
    }
    cases
}

/// Tiles of all sorts, half of them with sensible coefficients, most of them with pixels.
fn random_case(random: &mut Random) -> Case {
    let mut start = random_start(random);
    start.fields.use_reduce_extrapolate = !random.one_in(16);
    if random.one_in(2) {
        start.shape.drop = 8 + random.below(6);
        start.fields.prog_quant = [[random.below(3); 10]; 3];
        for quantizer in start.fields.base_quant.as_flattened_mut() {
            *quantizer = 4 + random.below(5);
        }
    }
    if random.one_in(16) {
        start.fields = random.pick(&bad_fields(start.fields));
    }
    if random.one_in(8) {
        start.wrong = Wrong::random(random);
    }
    let length = match random.below(8) {
        0 => random.within(PIXELS..=BYTES),
        1 => random.pick(&[PIXELS - 1, PIXELS + 1, BYTES]),
        _ => PIXELS,
    };
    case(start, length)
}
