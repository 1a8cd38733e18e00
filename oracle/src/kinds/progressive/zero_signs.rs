//! How many signs of each band of a tile are 0. The text has no such numbers: they are counted here, place by place.

use std::iter;

use oracle::progressive::{TileState, reach};
use oracle::random::Random;

use crate::record::Fields;

/// Three rows of ten, one for each component.
pub type ZeroSigns = [[u16; 10]; 3];

/// Those of a tile, by its signs and its layout.
pub fn of(tile: &TileState) -> ZeroSigns {
    counted(tile, tile.use_reduce_extrapolate)
}

/// Those that a tile with the same signs has in the other layout.
pub fn of_other_layout(tile: &TileState) -> ZeroSigns {
    counted(tile, !tile.use_reduce_extrapolate)
}

fn counted(tile: &TileState, use_reduce_extrapolate: bool) -> ZeroSigns {
    let bands = band_of_each_place(use_reduce_extrapolate);
    let mut numbers = [[0; 10]; 3];
    for (k, signs) in tile.sign.iter().enumerate() {
        for (&band, &sign) in bands.iter().zip(signs) {
            if sign == 0 {
                numbers[k][band] += 1;
            }
        }
    }
    numbers
}

/// The band of each place of a component: the bands lie one after another.
fn band_of_each_place(use_reduce_extrapolate: bool) -> Vec<usize> {
    let bands = reach::get_band_layout(use_reduce_extrapolate);
    let places = bands.iter().enumerate();
    places
        .flat_map(|(index, band)| iter::repeat_n(index, band.count()))
        .collect()
}

/// What a tile that is handed in has in place of the right numbers.
#[derive(Clone, Copy)]
pub enum Wrong {
    /// The right numbers.
    No,
    /// At a place of the thirty so much more, modulo 65536.
    At(u8, u16),
    /// Those of the other layout.
    OtherLayout,
}

impl Wrong {
    /// Mostly one wrong number.
    pub fn random(random: &mut Random) -> Self {
        if random.one_in(8) {
            return Self::OtherLayout;
        }
        let any = random.word() as u16;
        Self::At(random.below(30), random.pick(&[1, u16::MAX, any]))
    }

    /// Reads the fields of a case.
    pub fn read(fields: &mut Fields<'_>) -> Self {
        let (wrong, by) = (fields.u8(), fields.u16());
        match wrong {
            0 => Self::No,
            31 => Self::OtherLayout,
            _ => Self::At(wrong - 1, by),
        }
    }

    /// As fields of a case.
    pub fn bytes(self) -> [u8; 3] {
        let (wrong, by) = match self {
            Self::No => (0, 0),
            Self::At(place, by) => (place + 1, by),
            Self::OtherLayout => (31, 0),
        };
        let [low, high] = by.to_le_bytes();
        [wrong, low, high]
    }

    /// The numbers that a tile has.
    pub fn numbers(self, tile: &TileState) -> ZeroSigns {
        let mut numbers = of(tile);
        match self {
            Self::No => {}
            Self::At(place, by) => {
                let number = &mut numbers.as_flattened_mut()[usize::from(place)];
                *number = number.wrapping_add(by);
            }
            Self::OtherLayout => numbers = of_other_layout(tile),
        }
        numbers
    }
}
