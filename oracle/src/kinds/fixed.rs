//! Kinds 1 to 15: the arithmetic on single values.

use std::io;
use std::ops::RangeInclusive;

use oracle::codecs::rfx::progressive::ComponentCodecQuant;
use oracle::progressive::{
    self, COEFFICIENTS_PER_COMPONENT, SIGN_NEGATIVE, SIGN_POSITIVE, SIGN_ZERO, reach,
};
use oracle::{dwt_extrapolate, srl};

use crate::record::{Cases, Kind, Recording};
use oracle::random::{Number, Random, limits};

const CLAMP_I16: Kind = kind(1, 4, 6);
const CLAMP_U8: Kind = kind(2, 8, 9);
const T: Kind = kind(3, 4, 6);
const ROUND_SHIFT_RIGHT: Kind = kind(4, 3, 5);
const SHIFT_LEFT_CLAMP: Kind = kind(5, 3, 5);
const SHIFT_RIGHT_FLOOR: Kind = kind(6, 3, 5);
const ADD_SCALED: Kind = kind(7, 5, 7);
const SUB_SCALED: Kind = kind(8, 5, 7);
const SUB_CLAMP: Kind = kind(9, 4, 6);
const MAGNITUDE: Kind = kind(10, 2, 4);
const WITH_SIGN: Kind = kind(11, 3, 5);
const SIGN_OF: Kind = kind(12, 2, 3);
const HALVES: Kind = kind(13, 4, 12);
const WIDEN: Kind = kind(14, 2, 14);
const SIGN_USE: Kind = kind(15, 1, 2);

/// All of these.
pub const KINDS: [Kind; 15] = [
    CLAMP_I16,
    CLAMP_U8,
    T,
    ROUND_SHIFT_RIGHT,
    SHIFT_LEFT_CLAMP,
    SHIFT_RIGHT_FLOOR,
    ADD_SCALED,
    SUB_SCALED,
    SUB_CLAMP,
    MAGNITUDE,
    WITH_SIGN,
    SIGN_OF,
    HALVES,
    WIDEN,
    SIGN_USE,
];

const fn kind(number: u8, inputs: usize, size: usize) -> Kind {
    Kind {
        number,
        inputs,
        size,
    }
}

/// The most magnitude bits that a band can have in an upgrade pass.
const WIDTH: u8 = 15;

/// The greatest shift of a coefficient.
const GREATEST_SHIFT: u8 = 15;

/// Coefficients that stand with each other, and with each of `MAGNITUDES`.
const COEFFICIENTS: [i16; 13] = [
    -32768, -32767, -16385, -16384, -2, -1, 0, 1, 2, 16383, 16384, 32766, 32767,
];

/// Magnitudes that stand with each of `COEFFICIENTS`.
const MAGNITUDES: [u16; 7] = [0, 1, 2, 16383, 16384, 32766, 32767];

pub fn record_all(recording: &mut Recording<'_>) -> io::Result<()> {
    recording.kind(CLAMP_I16.number, clamp_i16)?;
    recording.kind(CLAMP_U8.number, clamp_u8)?;
    recording.kind(T.number, t)?;
    recording.kind(ROUND_SHIFT_RIGHT.number, |recording| {
        shifted(recording, ROUND_SHIFT_RIGHT, 1, reach::round_shift_right)
    })?;
    recording.kind(SHIFT_LEFT_CLAMP.number, |recording| {
        shifted(recording, SHIFT_LEFT_CLAMP, 0, shift_left_clamp)
    })?;
    recording.kind(SHIFT_RIGHT_FLOOR.number, |recording| {
        shifted(recording, SHIFT_RIGHT_FLOOR, 0, shift_right_floor)
    })?;
    recording.kind(ADD_SCALED.number, |recording| {
        scaled(recording, ADD_SCALED, SIGN_POSITIVE)
    })?;
    recording.kind(SUB_SCALED.number, |recording| {
        scaled(recording, SUB_SCALED, SIGN_NEGATIVE)
    })?;
    recording.kind(SUB_CLAMP.number, sub_clamp)?;
    recording.kind(MAGNITUDE.number, magnitude)?;
    recording.kind(WITH_SIGN.number, with_sign)?;
    recording.kind(SIGN_OF.number, sign_of)?;
    recording.kind(HALVES.number, halves)?;
    recording.kind(WIDEN.number, widen)?;
    recording.kind(SIGN_USE.number, sign_use)
}

/// Records a case for every limit and for `count` random values, times the scale.
fn each_value<V: Number>(
    recording: &mut Recording<'_>,
    kind: Kind,
    count: u32,
    case: impl Fn(&mut Cases<'_, '_>, V) -> io::Result<()>,
) -> io::Result<()> {
    let count = recording.scaled(count);
    let mut random = recording.random(kind.number);
    let mut cases = recording.cases(kind);
    for value in limits() {
        case(&mut cases, value)?;
    }
    for _ in 0..count {
        case(&mut cases, random.value())?;
    }
    cases.finish()
}

fn clamp_i16(recording: &mut Recording<'_>) -> io::Result<()> {
    each_value(recording, CLAMP_I16, 1500, |cases, value: i32| {
        let answer = reach::clamp_i16(value);
        cases.add(&[&value.to_le_bytes(), &answer.to_le_bytes()])
    })
}

/// Beside the limits and the random values, every value of the range of a byte and around it.
fn clamp_u8(recording: &mut Recording<'_>) -> io::Result<()> {
    let case = |cases: &mut Cases<'_, '_>, value: i64| {
        cases.add(&[&value.to_le_bytes(), &[reach::clamp_u8(value)]])
    };
    each_value(recording, CLAMP_U8, 1000, case)?;
    let mut cases = recording.cases(CLAMP_U8);
    for value in -16..=271 {
        case(&mut cases, value)?;
    }
    cases.finish()
}

fn t(recording: &mut Recording<'_>) -> io::Result<()> {
    each_value(recording, T, 1500, |cases, value: i32| {
        let answer = dwt_extrapolate::reach::t(value);
        cases.add(&[&value.to_le_bytes(), &answer.to_le_bytes()])
    })
}

fn magnitude(recording: &mut Recording<'_>) -> io::Result<()> {
    each_value(recording, MAGNITUDE, 1000, |cases, value: i16| {
        let answer = value.unsigned_abs();
        cases.add(&[&value.to_le_bytes(), &answer.to_le_bytes()])
    })
}

fn sign_of(recording: &mut Recording<'_>) -> io::Result<()> {
    each_value(recording, SIGN_OF, 1000, |cases, value: i16| {
        let mut answer = [SIGN_ZERO];
        reach::capture_sign(&[value], &mut answer);
        cases.add(&[&value.to_le_bytes(), &answer[0].to_le_bytes()])
    })
}

fn halves(recording: &mut Recording<'_>) -> io::Result<()> {
    each_value(recording, HALVES, 1000, |cases, value: i32| {
        let toward_zero = value / 2;
        let floor = value >> 1;
        cases.add(&[
            &value.to_le_bytes(),
            &toward_zero.to_le_bytes(),
            &floor.to_le_bytes(),
        ])
    })
}

fn widen(recording: &mut Recording<'_>) -> io::Result<()> {
    each_value(recording, WIDEN, 600, |cases, value: i16| {
        cases.add(&[
            &value.to_le_bytes(),
            &i32::from(value).to_le_bytes(),
            &i64::from(value).to_le_bytes(),
        ])
    })
}

/// What a pass does at a place with each of the 256 signs.
fn sign_use(recording: &mut Recording<'_>) -> io::Result<()> {
    let mut cases = recording.cases(SIGN_USE);
    for sign in i8::MIN..=i8::MAX {
        cases.add(&[&sign.to_le_bytes(), &[used(sign)]])?;
    }
    cases.finish()
}

/// 0 where the place takes its value from the SRL stream, 1 where raw bits are added and 2 where
/// they are subtracted. The place is the first, its coefficient 0; the SRL stream is empty and
/// brings 0, the raw stream has a 1 for every place.
fn used(sign: i8) -> u8 {
    let mut coefficients = [0; COEFFICIENTS_PER_COMPONENT];
    let mut signs = [sign; COEFFICIENTS_PER_COMPONENT];
    progressive::decode_upgrade_pass(
        &[],
        &[0xFF; COEFFICIENTS_PER_COMPONENT / 8],
        &ComponentCodecQuant::all(1),
        &ComponentCodecQuant::all(0),
        false,
        &mut coefficients,
        &mut signs,
    )
    .expect("the width is one the decoder takes");
    match coefficients[0] {
        0 => 0,
        1 => 1,
        -1 => 2,
        other => panic!("sign {sign} gives {other}"),
    }
}

/// Records the cases of a function of a value and a shift: every shift from `least` on with every
/// limit, then random ones.
fn shifted(
    recording: &mut Recording<'_>,
    kind: Kind,
    least: u8,
    function: fn(i16, u8) -> i16,
) -> io::Result<()> {
    let shifts: RangeInclusive<u8> = least..=GREATEST_SHIFT;
    let count = recording.scaled(1000);
    let mut random = recording.random(kind.number);
    let mut cases = recording.cases(kind);
    let mut add = |value: i16, shift: u8| {
        let answer = function(value, shift);
        cases.add(&[&value.to_le_bytes(), &[shift], &answer.to_le_bytes()])
    };
    for shift in shifts.clone() {
        for value in limits() {
            add(value, shift)?;
        }
    }
    for _ in 0..count {
        let shift = least + random.below(shifts.len() as u8);
        add(random.value(), shift)?;
    }
    cases.finish()
}

/// `progressive_dequantize` in the bottom band. `dequantize_component_ccq` must agree wherever a
/// quantizer of 4 bits can ask for the shift.
fn shift_left_clamp(value: i16, shift: u8) -> i16 {
    let quant = bottom_alone(shift, 0);
    let answer = in_bottom(value, |component| {
        reach::progressive_dequantize(component, &quant, false);
    });
    if (1..=9).contains(&shift) {
        let quant = bottom_alone(6 + shift, 6);
        let base = in_bottom(value, |component| {
            reach::dequantize_component_ccq(component, &quant, false);
        });
        assert_eq!(base, answer, "{value} shifted left by {shift}");
    }
    answer
}

/// `progressive_quantize` in the bottom band.
fn shift_right_floor(value: i16, shift: u8) -> i16 {
    let quant = bottom_alone(shift, 0);
    in_bottom(value, |component| {
        progressive::progressive_quantize(component, &quant, false);
    })
}

/// One number for the bottom band, another for all other bands.
fn bottom_alone(ll3: u8, others: u8) -> ComponentCodecQuant {
    ComponentCodecQuant {
        ll3,
        ..ComponentCodecQuant::all(others)
    }
}

/// What becomes of a value in the bottom band of a component that is zero elsewhere.
fn in_bottom(value: i16, change: impl Fn(&mut [i16])) -> i16 {
    let place = reach::ll3_offset(false);
    let mut component = [0; COEFFICIENTS_PER_COMPONENT];
    component[place] = value;
    change(&mut component);
    component[place]
}

/// Records the cases of one upgrade: every shift with every limit coefficient and every limit
/// magnitude, and random ones for every shift.
fn scaled(recording: &mut Recording<'_>, kind: Kind, sign: i8) -> io::Result<()> {
    let count = recording.scaled(64);
    let mut random = recording.random(kind.number);
    let mut cases = recording.cases(kind);
    for shift in 0..=GREATEST_SHIFT {
        let mut pairs = limit_pairs();
        pairs.extend((0..count).map(|_| random_pair(&mut random, shift)));
        for some in pairs.chunks(pairs_in_one_pass()) {
            for (&(coefficient, magnitude), answer) in some.iter().zip(upgrade(some, shift, sign)) {
                cases.add(&[
                    &coefficient.to_le_bytes(),
                    &magnitude.to_le_bytes(),
                    &[shift],
                    &answer.to_le_bytes(),
                ])?;
            }
        }
    }
    cases.finish()
}

/// A coefficient and the magnitude that an upgrade pass brings for it.
type Pair = (i16, u16);

fn limit_pairs() -> Vec<Pair> {
    let with_each = |coefficient| MAGNITUDES.map(|magnitude| (coefficient, magnitude));
    COEFFICIENTS.into_iter().flat_map(with_each).collect()
}

/// A random pair. Half of them are near the point where the sum or the difference leaves the range.
fn random_pair(random: &mut Random, shift: u8) -> Pair {
    let coefficient: i16 = random.value();
    if random.below(2) == 0 {
        return (coefficient, random_magnitude(random));
    }
    let room = if random.below(2) == 0 {
        i32::from(i16::MAX) - i32::from(coefficient)
    } else {
        i32::from(coefficient) - i32::from(i16::MIN)
    };
    let magnitude = (room >> shift) + i32::from(random.below(5)) - 2;
    (coefficient, magnitude.clamp(0, 32767) as u16)
}

fn random_magnitude(random: &mut Random) -> u16 {
    random.value::<i16>().unsigned_abs().min(32767)
}

/// As many pairs as the bottom band has places: so each stands in it at least once.
fn pairs_in_one_pass() -> usize {
    COEFFICIENTS_PER_COMPONENT - reach::ll3_offset(false)
}

/// What `decode_upgrade_pass` makes of each pair if every place of the nine upper bands has this
/// sign. The pairs fill the whole component over and over; all copies of a pair must agree, with a
/// positive sign also those in the bottom band, which always adds.
fn upgrade(pairs: &[Pair], shift: u8, sign: i8) -> Vec<i16> {
    let bottom = reach::ll3_offset(false);
    let filled = || pairs.iter().cycle().take(COEFFICIENTS_PER_COMPONENT);
    let mut coefficients: Vec<i16> = filled().map(|&(coefficient, _)| coefficient).collect();
    let mut signs = [sign; COEFFICIENTS_PER_COMPONENT];
    signs[bottom..].fill(SIGN_ZERO);
    let magnitudes = filled().map(|&(_, magnitude)| u32::from(magnitude));
    let raw = reach::write_raw(magnitudes, u32::from(WIDTH));

    progressive::decode_upgrade_pass(
        &[],
        &raw,
        &ComponentCodecQuant::all(shift + WIDTH),
        &ComponentCodecQuant::all(shift),
        false,
        &mut coefficients,
        &mut signs,
    )
    .expect("no place takes a value from the SRL stream");

    let (answers, copies) = coefficients.split_at(pairs.len());
    let compared = if sign == SIGN_POSITIVE {
        copies.len()
    } else {
        bottom - pairs.len()
    };
    let again = answers.iter().cycle();
    assert!(
        copies[..compared].iter().eq(again.take(compared)),
        "a pair has the same answer at every place"
    );
    answers.to_vec()
}

/// The difference of the SRL path of `encode_upgrade_pass`.
fn sub_clamp(recording: &mut Recording<'_>) -> io::Result<()> {
    let count = recording.scaled(1500);
    let mut random = recording.random(SUB_CLAMP.number);
    let mut cases = recording.cases(SUB_CLAMP);
    let mut add = |a: i16, b: i16| {
        let answer = reach::clamp_i16(i32::from(a) - i32::from(b));
        cases.add(&[&a.to_le_bytes(), &b.to_le_bytes(), &answer.to_le_bytes()])
    };
    for a in COEFFICIENTS {
        for b in COEFFICIENTS {
            add(a, b)?;
        }
    }
    for _ in 0..count {
        let a = random.value();
        let b = random_subtrahend(&mut random, a);
        add(a, b)?;
    }
    cases.finish()
}

/// Half of the subtrahends are near the point where the difference leaves the range.
fn random_subtrahend(random: &mut Random, a: i16) -> i16 {
    if random.below(2) == 0 {
        return random.value();
    }
    let edge = i32::from(if a < 0 { i16::MIN } else { i16::MAX });
    let b = i32::from(a) - edge + i32::from(random.below(5)) - 2;
    reach::clamp_i16(b)
}

/// Magnitudes with a sign, as `SrlDecoder` puts them together.
fn with_sign(recording: &mut Recording<'_>) -> io::Result<()> {
    let count = recording.scaled(600);
    let mut random = recording.random(WITH_SIGN.number);
    let mut cases = recording.cases(WITH_SIGN);
    let mut add = |magnitude: u16, negative: u8| {
        let answer = decoded(magnitude, negative);
        cases.add(&[&magnitude.to_le_bytes(), &[negative], &answer.to_le_bytes()])
    };
    for magnitude in limits::<i16>().into_iter().filter(|&limit| limit > 0) {
        add(magnitude.unsigned_abs(), 0)?;
        add(magnitude.unsigned_abs(), 1)?;
    }
    for _ in 0..count {
        let magnitude = random_magnitude(&mut random).max(1);
        add(magnitude, random.below(2))?;
    }
    cases.finish()
}

/// The value that `SrlDecoder` reads from the code word of a sign and a magnitude.
fn decoded(magnitude: u16, negative: u8) -> i16 {
    let values = srl::decode_srl(&code_word(magnitude, negative), 1, WIDTH);
    values.expect("the width is one the decoder takes")[0]
}

/// The stream of one value at the start of a component: a 1 and a 0 for no zeros before it, the
/// sign, a zero for each step from 1 up to the magnitude, and a 1 unless it is the greatest.
fn code_word(magnitude: u16, negative: u8) -> Vec<u8> {
    let greatest = srl::reach::max_magnitude(WIDTH).expect("the width is one the decoder takes");
    let end = 2 + usize::from(magnitude);
    let mut stream = vec![0; end / 8 + 1];
    stream[0] = 0b1000_0000 | negative << 5;
    if magnitude < greatest {
        stream[end / 8] |= 0b1000_0000 >> (end % 8);
    }
    stream
}
