//! The symmetric writer of a pass, which the text does not have, in a plain form of its own: place by place,
//! in whole numbers, with the text's SRL encoder for the values.

use oracle::srl::SrlEncoder;

use super::component::{Made, cut_down, cut_towards_zero};
use super::{Before, COMPONENT, Given, Shape, Signs, decode, refusal, typical};
use crate::kinds::places::band_of_place;

/// The number of the bottom band.
const BOTTOM: u8 = 9;

/// The refusal of a value that is too large for its width.
const TOO_LARGE: u8 = 5;

/// The streams, or the refusal.
pub fn write(given: &Given, made: &Made) -> Result<(Vec<u8>, Vec<u8>), u8> {
    match refusal(&given.lengths, &[given.prev, given.curr]) {
        0 => streams(given, made),
        number => Err(number),
    }
}

fn streams(given: &Given, made: &Made) -> Result<(Vec<u8>, Vec<u8>), u8> {
    let mut values = Vec::new();
    let mut bits = Vec::new();
    for place in 0..COMPONENT {
        let band = band_of_place(given.use_reduce_extrapolate, place as u64);
        let [prev, curr] = [given.prev, given.curr].map(|row| row[usize::from(band)]);
        if prev <= curr {
            continue;
        }
        let width = prev - curr;
        let unit = 1 << curr;
        let [target, before] = [made.target[place], made.before[place]].map(i32::from);
        if band == BOTTOM {
            let number = target.div_euclid(unit) - before.div_euclid(unit);
            push(&mut bits, number, width);
        } else if made.sign[place] == 0 {
            // A quotient has the sign of the difference, and its magnitude shifted.
            values.push(((target - before) / unit, width));
        } else {
            let number = target.abs() / unit - before.abs() / unit;
            push(&mut bits, number, width);
        }
    }
    if values
        .iter()
        .any(|(value, width)| value.abs() >= 1 << width)
    {
        return Err(TOO_LARGE);
    }
    Ok((srl(&values), packed(&bits)))
}

/// The low bits of a number, or of 0 if it is negative.
fn push(bits: &mut Vec<bool>, number: i32, width: u8) {
    let number = number.max(0);
    bits.extend((0..width).rev().map(|place| number >> place & 1 == 1));
}

/// Bits in bytes, the first of them highest, and zeros behind the last.
fn packed(bits: &[bool]) -> Vec<u8> {
    let byte = |byte: &[bool]| {
        let ones = (0..8).filter(|&place| byte.get(place) == Some(&true));
        ones.map(|place| 128 >> place).sum()
    };
    bits.chunks(8).map(byte).collect()
}

/// The SRL stream of values, each with its width; no bytes if there is none.
fn srl(values: &[(i32, u8)]) -> Vec<u8> {
    if values.is_empty() {
        return Vec::new();
    }
    let mut encoder = SrlEncoder::new();
    for &(value, width) in values {
        let value = i16::try_from(value).expect("it fits its width");
        encoder
            .encode(&[value], width)
            .expect("it fits its width, and few zeros are pending");
    }
    encoder.finish().expect("few zeros are pending")
}

/// What is known of the writer: of single places, and of what a reader makes of its streams.
pub fn check() {
    for (pair, sign, positions, answer) in [
        ([7, 0], 0, [3, 1], Ok(6)),
        ([-7, 0], 0, [3, 1], Ok(-6)),
        ([2, 1], 0, [3, 1], Ok(1)),
        ([-1, 0], 0, [2, 1], Ok(0)),
        ([i16::MIN, 0], 0, [15, 0], Err(TOO_LARGE)),
        ([i16::MAX, i16::MIN], 0, [15, 0], Err(TOO_LARGE)),
        ([i16::MAX, 0], 0, [15, 0], Ok(i16::MAX)),
        ([7, 0], 1, [3, 1], Ok(6)),
        ([-7, -4], -1, [2, 0], Ok(-7)),
        ([8, 0], 1, [3, 1], Ok(0)),
    ] {
        assert_eq!(one_place(0, pair, sign, positions), answer, "{pair:?}");
    }
    for (pair, positions, answer) in [
        ([-2, 0], [3, 1], 0),
        ([100, 0], [3, 1], 4),
        ([-5, -8], [3, 1], -6),
        ([-1, -2], [1, 0], -1),
        ([i16::MIN, i16::MIN], [15, 0], i16::MIN),
        ([-1, i16::MIN], [15, 0], -1),
        ([i16::MAX, 0], [15, 0], i16::MAX),
    ] {
        let read = one_place(COMPONENT - 1, pair, 0, positions);
        assert_eq!(read, Ok(answer), "{pair:?}");
    }
    for (prev, curr) in [(15, 0), (15, 9), (9, 3), (3, 0)] {
        for seed in 1..=4 {
            cut_arrives(seed, prev, curr);
        }
    }
}

/// What a reader has at a place when a pass over it was written and read, from one position to another in
/// every band; or the refusal. All other coefficients are 0, and known to be.
fn one_place(place: usize, pair: [i16; 2], sign: i8, positions: [u8; 2]) -> Result<i16, u8> {
    let given = Given {
        prev: [positions[0]; 10],
        curr: [positions[1]; 10],
        ..typical(1)
    };
    let mut made = Made {
        target: vec![0; COMPONENT],
        before: vec![0; COMPONENT],
        sign: vec![1; COMPONENT],
    };
    (made.target[place], made.before[place]) = pair.into();
    made.sign[place] = sign;
    let (srl, raw) = write(&given, &made)?;
    decode::read(&given, &srl, &raw, &mut made);
    Ok(made.before[place])
}

/// A component whose coefficients are cut at a position arrives as its cut at another one, however it is
/// filled, and no bit of its streams is missing.
fn cut_arrives(seed: u64, prev: u8, curr: u8) {
    let given = Given {
        shape: Shape {
            density: 255,
            drop: 0,
            spread: 7,
            before: Before::OfBand,
            signs: Signs::Before,
            cut: false,
            ..typical(seed).shape
        },
        prev: [prev; 10],
        curr: [curr; 10],
        ..typical(seed)
    };
    let mut made = given.make();
    let (srl, raw) = write(&given, &made).expect("no value is too large over the cut");
    let (_, missing) = decode::read(&given, &srl, &raw, &mut made);
    assert_eq!(missing, [0; 2]);
    for place in 0..COMPONENT {
        let cut = if given.is_bottom(place) {
            cut_down
        } else {
            cut_towards_zero
        };
        assert_eq!(made.before[place], cut(made.target[place], curr));
    }
}
