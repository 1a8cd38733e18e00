//! What is timed: components of three sorts, a pass over them, tiles, SRL streams and rows of pixels. README.md has
//! the rule.

use oracle::codecs::rfx::progressive::ComponentCodecQuant;
use oracle::kinds::missing;
use oracle::kinds::progressive::zero_signs::{self, ZeroSigns};
use oracle::kinds::srl::decode::START;
use oracle::port::Row;
use oracle::progressive::{self, COEFFICIENTS_PER_COMPONENT, TileState, reach};
use oracle::random::Random;
use oracle::srl;

/// The layout that viewers use.
pub const USE_REDUCE_EXTRAPOLATE: bool = true;

/// The positions before the pass and after it.
pub const PREV: Row = [3; 10];
pub const CURR: Row = [2; 10];

/// Quantizers on both sides of 6.
pub const QUANT: Row = [8, 8, 9, 7, 7, 8, 6, 6, 7, 5];

/// Quantizers so small that few colours leave 0 to 255.
pub const FAINT: Row = [1, 1, 1, 2, 2, 2, 3, 3, 3, 4];

/// Of 1000 coefficients, how many are known before the pass and how many it brings.
#[derive(Clone, Copy)]
pub struct Sort {
    pub name: &'static str,
    pub known: u64,
    pub new: u64,
}

pub const SORTS: [Sort; 3] = [
    Sort {
        name: "sparse",
        known: 20,
        new: 10,
    },
    Sort {
        name: "typical",
        known: 200,
        new: 50,
    },
    Sort {
        name: "dense",
        known: 700,
        new: 150,
    },
];

/// A component before the pass, what it is to become, and the pass as the text writes it.
pub struct Input {
    pub target: Vec<i16>,
    pub before: Vec<i16>,
    pub sign: Vec<i8>,
    pub srl: Vec<u8>,
    pub raw: Vec<u8>,
}

/// A tile in the form of the text, whose coefficients and signs lie one after another, as the port takes them; its
/// numbers of zero signs, which the text does not have; and its base quantizers in band order.
pub struct Tile {
    pub state: TileState,
    pub zero_signs: ZeroSigns,
    pub base_quant: [Row; 3],
}

/// A tile before a pass, with its numbers of zero signs, and the streams of each component.
pub struct Upgrade {
    pub before: TileState,
    pub zero_signs: ZeroSigns,
    /// The positions of all components before the pass and after it.
    pub prev: Row,
    pub curr: Row,
    pub srl: [Vec<u8>; 3],
    pub raw: [Vec<u8>; 3],
    /// The bits that the SRL streams and the raw streams lack.
    pub missing: [u32; 2],
}

impl Upgrade {
    /// A tile of zeros, and streams of no bytes.
    fn of_nothing(prev: Row, curr: Row, missing: [u32; 2]) -> Self {
        let before = TileState {
            prog_quant: [ComponentCodecQuant::of_bands(prev); 3],
            use_reduce_extrapolate: USE_REDUCE_EXTRAPOLATE,
            ..TileState::new()
        };
        Self {
            zero_signs: zero_signs::of(&before),
            before,
            prev,
            curr,
            srl: Default::default(),
            raw: Default::default(),
            missing,
        }
    }
}

/// Several tiles of zeros, all alike, whose pass of all bits has no bytes: it lacks 20 bits of each SRL stream, and in
/// each bottom band 15 bits of 81 places.
pub fn empty_upgrades() -> Vec<Upgrade> {
    let missing = [3 * 20, 3 * 81 * 15];
    (0..16)
        .map(|_| Upgrade::of_nothing([15; 10], [0; 10], missing))
        .collect()
}

/// Several tiles, each of three components of a sort, with the pass as the text writes it.
pub fn upgrades(sort: Sort) -> Vec<Upgrade> {
    let mut random = Random::new(3, sort.known as u8);
    let mut upgrades = Vec::new();
    for _ in 0..16 {
        let mut upgrade = Upgrade::of_nothing(PREV, CURR, [0; 2]);
        for k in 0..3 {
            let input = input(&mut random, sort);
            upgrade.before.coefficients[k].copy_from_slice(&input.before);
            upgrade.before.sign[k].copy_from_slice(&input.sign);
            (upgrade.srl[k], upgrade.raw[k]) = (input.srl, input.raw);
        }
        upgrade.zero_signs = zero_signs::of(&upgrade.before);
        upgrades.push(upgrade);
    }
    upgrades
}

/// Values of a width, and the SRL stream that brings them.
pub struct Stream {
    pub values: Vec<i16>,
    pub width: u8,
    pub bytes: Vec<u8>,
    /// The bits that the stream lacks.
    pub missing: u64,
}

/// Several streams of as many values as the bands above the bottom have places, of 3 bits, as the text writes them. One
/// of 20 values is not zero, and smaller magnitudes are more frequent.
pub fn streams() -> Vec<Stream> {
    let mut random = Random::new(4, 0);
    let stream = |_| {
        let values: Vec<i16> = (0..4015).map(|_| value(&mut random)).collect();
        let bytes = srl::encode_srl(&values, 3).expect("the values fit");
        Stream {
            values,
            width: 3,
            bytes,
            missing: 0,
        }
    };
    (0..16).map(stream).collect()
}

/// Several streams that are cut after their first byte, within a value of 15 bits: the first bytes from 80 on after
/// which the zeros of such a value go on past the end, so that its magnitude is the greatest.
pub fn cut_streams() -> Vec<Stream> {
    let in_a_value = |stream: &Stream| stream.values.iter().any(|value| value.abs() == i16::MAX);
    (0x80..=0xFF)
        .map(cut_stream)
        .filter(in_a_value)
        .take(16)
        .collect()
}

/// The first four values of 15 bits that the text reads of a stream of one byte.
fn cut_stream(byte: u8) -> Stream {
    let (count, width) = (4, 15);
    Stream {
        values: srl::decode_srl(&[byte], count, width).expect("the width is one"),
        width,
        bytes: vec![byte],
        missing: missing::of_values(&[byte], START, count, width),
    }
}

fn value(random: &mut Random) -> i16 {
    if !random.one_in(20) {
        return 0;
    }
    let magnitude = 1 + random.below(7).min(random.below(7));
    if random.one_in(2) {
        i16::from(magnitude)
    } else {
        -i16::from(magnitude)
    }
}

/// The samples of a row of pixels, such that most colours are not clamped.
pub type Pixels = Vec<[i16; 3]>;

/// Several rows.
pub fn rows() -> Vec<Pixels> {
    let mut random = Random::new(5, 0);
    let sample =
        |random: &mut Random, most: usize| random.within(0..=2 * most) as i16 - most as i16;
    let pixel = |random: &mut Random| [100, 60, 60].map(|most| sample(random, most));
    (0..16)
        .map(|_| (0..64).map(|_| pixel(&mut random)).collect())
        .collect()
}

/// Several tiles of a sort.
pub fn tiles(sort: Sort, quant: Row) -> Vec<Tile> {
    let mut random = Random::new(2, sort.known as u8);
    (0..16).map(|_| tile(&mut random, sort, quant)).collect()
}

fn tile(random: &mut Random, sort: Sort, quant: Row) -> Tile {
    let coefficients = [[(); COEFFICIENTS_PER_COMPONENT]; 3]
        .map(|component| component.map(|()| coefficient(random, sort)));
    let state = TileState {
        coefficients,
        sign: coefficients.map(|component| component.map(|value| value.signum() as i8)),
        prog_quant: [ComponentCodecQuant::of_bands(CURR); 3],
        base_quant: [ComponentCodecQuant::of_bands(quant); 3],
        use_reduce_extrapolate: USE_REDUCE_EXTRAPOLATE,
        ..TileState::new()
    };
    Tile {
        zero_signs: zero_signs::of(&state),
        state,
        base_quant: [quant; 3],
    }
}

/// Several components of a sort, so that no side learns one by heart.
pub fn inputs(sort: Sort) -> Vec<Input> {
    let mut random = Random::new(1, sort.known as u8);
    (0..16).map(|_| input(&mut random, sort)).collect()
}

/// The same, with no negative coefficient in the bottom band: both rules of the writer make the same streams of them.
pub fn alike(sort: Sort) -> Vec<Input> {
    let bottom = reach::ll3_offset(USE_REDUCE_EXTRAPOLATE);
    let mut targets: Vec<Vec<i16>> = inputs(sort).into_iter().map(|input| input.target).collect();
    for coefficient in targets.iter_mut().flat_map(|target| &mut target[bottom..]) {
        *coefficient = coefficient.abs();
    }
    targets.into_iter().map(input_of).collect()
}

fn input(random: &mut Random, sort: Sort) -> Input {
    input_of(
        (0..COEFFICIENTS_PER_COMPONENT)
            .map(|_| coefficient(random, sort))
            .collect(),
    )
}

/// A target, with what is known of it before the pass and the pass as the text writes it.
fn input_of(target: Vec<i16>) -> Input {
    let shift = PREV[0];
    let before: Vec<i16> = target
        .iter()
        .map(|&target| target.signum() * (target.abs() >> shift << shift))
        .collect();
    let sign: Vec<i8> = before.iter().map(|before| before.signum() as i8).collect();
    let (srl, raw) = progressive::encode_upgrade_pass(
        &target,
        &before,
        &ComponentCodecQuant::of_bands(PREV),
        &ComponentCodecQuant::of_bands(CURR),
        &sign,
        USE_REDUCE_EXTRAPOLATE,
    )
    .expect("every value has its width");
    Input {
        target,
        before,
        sign,
        srl,
        raw,
    }
}

/// A multiple of 4: at least 8 if it is known before the pass, 4 if the pass brings it.
fn coefficient(random: &mut Random, sort: Sort) -> i16 {
    let choice = random.word() % 1000;
    let magnitude = if choice < sort.known {
        let bits = 3 + random.below(6);
        (1i16 << bits) + (random.below(1 << (bits - 2).min(7)) as i16) * 4
    } else if choice < sort.known + sort.new {
        4
    } else {
        0
    };
    if random.one_in(2) {
        magnitude
    } else {
        -magnitude
    }
}
