//! Tiles of a case: what a seed, a shape and the fields beside the components give. Whoever replays
//! makes the same ones; README.md has the rule.

use oracle::codecs::rfx::progressive::ComponentCodecQuant;
use oracle::progressive::TileState;
use oracle::random::Random;

use super::component::{Made, Row};
use super::zero_signs::{self, Wrong, ZeroSigns};
use super::{Before, COMPONENT, GREATEST, Given, Shape, Signs, random_shape};
use crate::digest::{mixed, with_bytes, with_values, with_words};
use crate::record;

/// A tile of the text, and the numbers of zero signs beside it, which the text does not have.
pub struct Tile {
    pub state: TileState,
    pub zero_signs: ZeroSigns,
}

impl Tile {
    /// A tile with the right numbers.
    pub fn of(state: TileState) -> Self {
        Self {
            zero_signs: zero_signs::of(&state),
            state,
        }
    }

    /// Whether each number is that of the signs.
    pub fn is_right(&self) -> bool {
        self.zero_signs == zero_signs::of(&self.state)
    }
}

/// What a tile has beside its coefficients, signs and numbers of zero signs.
#[derive(Clone, Copy)]
pub struct Fields {
    pub prog_quant: [Row; 3],
    pub quant_idx: [u8; 3],
    pub base_quant: [Row; 3],
    pub pass: u16,
    pub is_difference: bool,
    pub quality: u8,
    pub use_reduce_extrapolate: bool,
}

/// What a case of these kinds begins with, and which numbers of zero signs its tile has if it is handed in
/// with all its fields. Cases of kinds 40 and 45 have that later.
#[derive(Clone, Copy)]
pub struct Start {
    pub shape: Shape,
    pub fields: Fields,
    pub wrong: Wrong,
}

impl Start {
    /// Reads the fields of a case.
    pub fn read(fields: &mut record::Fields<'_>) -> Self {
        Self {
            shape: Shape::read(fields),
            fields: Fields {
                prog_quant: [(); 3].map(|()| fields.row()),
                quant_idx: [(); 3].map(|()| fields.u8()),
                base_quant: [(); 3].map(|()| fields.row()),
                pass: fields.u16(),
                is_difference: fields.flag(),
                quality: fields.u8(),
                use_reduce_extrapolate: fields.flag(),
            },
            wrong: Wrong::No,
        }
    }

    /// As fields of a case.
    pub fn bytes(&self) -> Vec<u8> {
        let mut bytes = self.shape.fields().to_vec();
        bytes.extend(self.fields.bytes());
        bytes
    }

    /// The component with number `k`, from its positions to others.
    pub fn component(&self, k: usize, prev: Row, curr: Row) -> Given {
        Given {
            shape: Shape {
                seed: self.seed(k as u64),
                ..self.shape
            },
            use_reduce_extrapolate: self.fields.use_reduce_extrapolate,
            prev,
            curr,
            lengths: [COMPONENT; 3],
        }
    }

    /// The three components that a tile starts from.
    pub fn components(&self) -> [Made; 3] {
        core::array::from_fn(|k| self.component(k, self.fields.prog_quant[k], [0; 10]).make())
    }

    /// A seed that the case's seed gives, by its number.
    pub fn seed(&self, number: u64) -> u64 {
        numbered(self.shape.seed, number)
    }

    /// The tile with all of these fields.
    pub fn built(&self) -> Tile {
        let state = self.state();
        Tile {
            zero_signs: self.wrong.numbers(&state),
            state,
        }
    }

    /// The same in the form of the text.
    pub fn state(&self) -> TileState {
        let Fields {
            prog_quant,
            quant_idx,
            base_quant,
            pass,
            is_difference,
            quality,
            use_reduce_extrapolate,
        } = self.fields;
        let made = self.components();
        TileState {
            coefficients: core::array::from_fn(|k| first(&made[k].before)),
            sign: core::array::from_fn(|k| first(&made[k].sign)),
            prog_quant: prog_quant.map(ComponentCodecQuant::of_bands),
            quant_idx,
            base_quant: base_quant.map(ComponentCodecQuant::of_bands),
            pass,
            is_difference,
            quality,
            use_reduce_extrapolate,
        }
    }

    /// The tile that a loading call makes, by docs/SCOPE.md. The text has no such call.
    pub fn loaded(&self) -> Tile {
        Tile::of(TileState {
            quant_idx: [0; 3],
            pass: 1,
            is_difference: false,
            quality: 0,
            ..self.state()
        })
    }
}

impl Fields {
    /// Those of a tile.
    pub fn of(tile: &TileState) -> Self {
        Self {
            prog_quant: tile.prog_quant.map(row),
            quant_idx: tile.quant_idx,
            base_quant: tile.base_quant.map(row),
            pass: tile.pass,
            is_difference: tile.is_difference,
            quality: tile.quality,
            use_reduce_extrapolate: tile.use_reduce_extrapolate,
        }
    }

    pub fn bytes(&self) -> Vec<u8> {
        let mut bytes = self.prog_quant.concat();
        bytes.extend(self.quant_idx);
        bytes.extend(self.base_quant.concat());
        bytes.extend(self.pass.to_le_bytes());
        bytes.push(u8::from(self.is_difference));
        bytes.push(self.quality);
        bytes.push(u8::from(self.use_reduce_extrapolate));
        bytes
    }
}

/// A seed that another gives, by its number.
pub fn numbered(seed: u64, number: u64) -> u64 {
    (0..3).fold(seed, |seed, _| mixed(seed, number))
}

fn row(quant: ComponentCodecQuant) -> Row {
    core::array::from_fn(|band| quant.for_band(band))
}

fn first<T: Copy>(places: &[T]) -> [T; COMPONENT] {
    places[..COMPONENT].try_into().expect("a whole component")
}

/// A whole tile as one number.
pub fn digest(tile: &Tile) -> u64 {
    let state = &tile.state;
    let coefficients = with_values(0, state.coefficients.iter().flatten().copied());
    let signs = state.sign.iter().flatten().map(|&sign| sign.into());
    let numbers = tile
        .zero_signs
        .iter()
        .flatten()
        .map(|&number| number.into());
    let digest = with_words(with_values(coefficients, signs), numbers);
    with_bytes(digest, &Fields::of(state).bytes())
}

/// A tile with about a fifth of the coefficients known, which fits its positions.
pub fn typical(seed: u64) -> Start {
    Start {
        shape: Shape {
            seed,
            density: 90,
            drop: 4,
            spread: 7,
            before: Before::Cut,
            signs: Signs::Before,
            cut: true,
        },
        fields: Fields {
            prog_quant: [[9; 10], [10; 10], [8; 10]],
            quant_idx: [1, 2, 3],
            base_quant: [[6; 10], [7; 10], [9; 10]],
            pass: 1,
            is_difference: true,
            quality: 25,
            use_reduce_extrapolate: seed.is_multiple_of(2),
        },
        wrong: Wrong::No,
    }
}

/// Tiles of all sorts, most of which fit their positions.
pub fn random_start(random: &mut Random) -> Start {
    let prog_quant = core::array::from_fn(|_| {
        let lowest = random.below(GREATEST + 1).max(random.below(GREATEST + 1));
        core::array::from_fn(|_| (lowest + random.below(4)).min(GREATEST))
    });
    Start {
        shape: random_shape(random, prog_quant[0], prog_quant[0]),
        fields: Fields {
            prog_quant,
            quant_idx: core::array::from_fn(|_| random.word() as u8),
            base_quant: [[(); 10]; 3].map(|row| row.map(|()| random.below(GREATEST + 1))),
            pass: match random.below(4) {
                0 => u16::MAX - u16::from(random.below(4)),
                1 => random.word() as u16,
                _ => u16::from(random.below(4)),
            },
            is_difference: random.one_in(2),
            quality: random.word() as u8,
            use_reduce_extrapolate: random.one_in(2),
        },
        wrong: Wrong::No,
    }
}

/// Fields with one number above 15, at each place of the positions and of the base quantizers.
pub fn bad_fields(fields: Fields) -> Vec<Fields> {
    let mut bad = Vec::new();
    for k in 0..3 {
        for band in 0..10 {
            let mut changed = fields;
            changed.prog_quant[k][band] = [16, 255, 128][k];
            bad.push(changed);
            let mut changed = fields;
            changed.base_quant[k][band] = [255, 16, 31][k];
            bad.push(changed);
        }
    }
    bad
}

/// Tiles with a wrong number at each of the thirty places, and signs of all sorts. It is 1, 256 or 32768 more, 1 less,
/// 0, the greatest, or that of the other layout; 1 more where that is the right one.
pub fn wrong_numbers(start: Start) -> Vec<Start> {
    let sorts = [Signs::Before, Signs::Any, Signs::Zero, Signs::Later];
    (0..30)
        .map(|place: u8| {
            let index = usize::from(place);
            let mut wrong = start;
            wrong.shape.signs = sorts[index % sorts.len()];
            let state = wrong.state();
            let right = zero_signs::of(&state).as_flattened()[index];
            let other = zero_signs::of_other_layout(&state).as_flattened()[index];
            let differences = [
                1,
                u16::MAX,
                256,
                32768,
                right.wrapping_neg(),
                u16::MAX - right,
                other.wrapping_sub(right),
            ];
            wrong.wrong = Wrong::At(place, differences[index % differences.len()].max(1));
            wrong
        })
        .collect()
}

/// Tiles with right numbers and signs of all sorts, each with the one that has the numbers of the other layout. These are
/// right where no sign is 0.
pub fn numbers_of_layouts(start: Start) -> Vec<[Start; 2]> {
    [
        (Before::Cut, Signs::Before),
        (Before::Cut, Signs::Any),
        (Before::Cut, Signs::Zero),
        (Before::Cut, Signs::Later),
        (Before::Extreme, Signs::Before),
    ]
    .into_iter()
    .map(|(before, signs)| {
        let mut right = start;
        right.shape.before = before;
        right.shape.signs = signs;
        let mut other = right;
        other.wrong = Wrong::OtherLayout;
        [right, other]
    })
    .collect()
}
