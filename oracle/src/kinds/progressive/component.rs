//! Components of a case: what a seed and a shape give. Whoever replays makes the same ones; README.md
//! has the rule.

use oracle::codecs::rfx::progressive::ComponentCodecQuant;
use oracle::progressive::reach;

use super::COMPONENT;
use crate::kinds::short;
use crate::record::Fields;

/// A number for each band, in band order.
pub type Row = [u8; 10];

/// How many places are made: those of a component, and some behind them.
pub const PLACES: usize = 4352;

/// The coefficients before the pass.
#[derive(Clone, Copy)]
pub enum Before {
    /// The target cut at the previous position, towards zero.
    Cut,
    /// The same with floor.
    Floor,
    /// Any of the same size, whatever the target is.
    Any,
    /// The least and the greatest.
    Extreme,
    /// The target as the symmetric rule cuts it: towards zero, in the bottom band with floor.
    OfBand,
}

/// The signs.
#[derive(Clone, Copy)]
pub enum Signs {
    /// Those of the coefficients before the pass.
    Before,
    /// Any of the 256.
    Any,
    /// Zeros.
    Zero,
    /// Those of the target.
    Later,
}

/// What the places of a component are like.
#[derive(Clone, Copy)]
pub struct Shape {
    pub seed: u64,
    /// Of 256 places, so many and one have a value.
    pub density: u8,
    /// Each magnitude of sixteen bits is shifted right so far,
    pub drop: u8,
    /// and that of a target then by a number of the bits that are set here.
    pub spread: u8,
    pub before: Before,
    pub signs: Signs,
    /// Whether the target is cut at the current position, towards zero.
    pub cut: bool,
}

/// What a case of each of the three kinds begins with.
#[derive(Clone, Copy)]
pub struct Given {
    pub shape: Shape,
    pub use_reduce_extrapolate: bool,
    pub prev: Row,
    /// The current positions; of kind 38 the quantizers.
    pub curr: Row,
    /// How many elements of the target, the coefficients before the pass and the signs are lent.
    pub lengths: [usize; 3],
}

/// The component that a writer writes, and that which a reader starts from.
pub struct Made {
    pub target: Vec<i16>,
    pub before: Vec<i16>,
    pub sign: Vec<i8>,
}

impl Given {
    /// Reads the fields of a case.
    pub fn read(fields: &mut Fields<'_>) -> Self {
        Self {
            shape: Shape::read(fields),
            use_reduce_extrapolate: fields.flag(),
            prev: fields.row(),
            curr: fields.row(),
            lengths: fields.shorts(),
        }
    }

    /// As fields of a case.
    pub fn fields(&self) -> Vec<u8> {
        let mut fields = self.shape.fields().to_vec();
        fields.push(u8::from(self.use_reduce_extrapolate));
        fields.extend(self.prev);
        fields.extend(self.curr);
        fields.extend(self.lengths.map(short).concat());
        fields
    }

    /// The components, in their slices and behind them.
    pub fn make(&self) -> Made {
        let mut made = Made {
            target: Vec::new(),
            before: Vec::new(),
            sign: Vec::new(),
        };
        let mut word = self.shape.seed;
        for (place, (prev, curr)) in self.positions().into_iter().enumerate() {
            word = next(word);
            let target = self.shape.target(word, curr);
            let before = self.shape.before(word, target, prev, self.is_bottom(place));
            made.target.push(target);
            made.before.push(before);
            made.sign.push(self.shape.sign(word, target, before));
        }
        made
    }

    /// Whether a place lies in the bottom band, the last of the ten.
    pub fn is_bottom(&self, place: usize) -> bool {
        (reach::ll3_offset(self.use_reduce_extrapolate)..COMPONENT).contains(&place)
    }

    /// The positions of each place, those of its band; behind the last band, 0.
    fn positions(&self) -> Vec<(u8, u8)> {
        let mut positions = Vec::new();
        let bands = reach::get_band_layout(self.use_reduce_extrapolate);
        for (index, band) in bands.iter().enumerate() {
            let pair = (self.prev[index], self.curr[index]);
            positions.extend(vec![pair; band.count()]);
        }
        positions.resize(PLACES, (0, 0));
        positions
    }

    pub fn prev_quant(&self) -> ComponentCodecQuant {
        ComponentCodecQuant::of_bands(self.prev)
    }

    pub fn curr_quant(&self) -> ComponentCodecQuant {
        ComponentCodecQuant::of_bands(self.curr)
    }
}

impl Shape {
    /// Reads the fields of a case.
    pub fn read(fields: &mut Fields<'_>) -> Self {
        let seed = fields.u64();
        let [density, drop, spread, mode] = [(); 4].map(|()| fields.u8());
        let befores = match mode / 32 % 2 {
            0 => [Before::Cut, Before::Floor, Before::Any, Before::Extreme],
            _ => [Before::OfBand; 4],
        };
        let signs = [Signs::Before, Signs::Any, Signs::Zero, Signs::Later];
        Self {
            seed,
            density,
            drop,
            spread,
            before: befores[usize::from(mode % 4)],
            signs: signs[usize::from(mode / 4 % 4)],
            cut: mode / 16 % 2 == 1,
        }
    }

    /// As fields of a case.
    pub fn fields(&self) -> [u8; 12] {
        let Self {
            seed,
            density,
            drop,
            spread,
            before,
            signs,
            cut,
        } = *self;
        let before = match before {
            Before::OfBand => 32,
            before => before as u8,
        };
        let mode = before + 4 * signs as u8 + 16 * u8::from(cut);
        let mut fields = [0; 12];
        fields[..8].copy_from_slice(&seed.to_le_bytes());
        fields[8..].copy_from_slice(&[density, drop, spread, mode]);
        fields
    }

    fn target(&self, word: u64, curr: u8) -> i16 {
        if word as u8 > self.density {
            return 0;
        }
        let shift = ((word >> 24) as u8 % 16) & self.spread;
        let magnitude = shifted(shifted((word >> 8) as u16, self.drop), shift);
        let magnitude = if self.cut {
            cut(magnitude, curr)
        } else {
            magnitude
        };
        with_sign(magnitude, bit(word, 28))
    }

    fn before(&self, word: u64, target: i16, prev: u8, bottom: bool) -> i16 {
        match self.before {
            Before::OfBand if bottom => cut_down(target, prev),
            Before::Cut | Before::OfBand => cut_towards_zero(target, prev),
            Before::Floor => cut_down(target, prev),
            Before::Any => with_sign(shifted((word >> 32) as u16, self.drop), bit(word, 29)),
            Before::Extreme => with_sign(u16::MAX, bit(word, 29)),
        }
    }

    fn sign(&self, word: u64, target: i16, before: i16) -> i8 {
        match self.signs {
            Signs::Before => before.signum() as i8,
            Signs::Any => (word >> 48) as i8,
            Signs::Zero => 0,
            Signs::Later => target.signum() as i8,
        }
    }
}

/// The next word: a step of xorshift64.
pub fn next(mut word: u64) -> u64 {
    word ^= word << 13;
    word ^= word >> 7;
    word ^ word << 17
}

fn bit(word: u64, place: u32) -> bool {
    word >> place & 1 == 1
}

pub fn shifted(magnitude: u16, shift: u8) -> u16 {
    magnitude.checked_shr(shift.into()).unwrap_or(0)
}

/// A magnitude without its lowest bits.
fn cut(magnitude: u16, bits: u8) -> u16 {
    if bits > 15 {
        return 0;
    }
    magnitude >> bits << bits
}

/// A coefficient without the lowest bits of its magnitude.
pub fn cut_towards_zero(coefficient: i16, bits: u8) -> i16 {
    with_sign(cut(coefficient.unsigned_abs(), bits), coefficient < 0)
}

/// The multiple of a power of two that is not above a coefficient.
pub fn cut_down(coefficient: i16, bits: u8) -> i16 {
    let shift = bits.min(15);
    coefficient >> shift << shift
}

/// A magnitude with a sign, clamped.
pub fn with_sign(magnitude: u16, negative: bool) -> i16 {
    let value = i32::from(magnitude);
    reach::clamp_i16(if negative { -value } else { value })
}
