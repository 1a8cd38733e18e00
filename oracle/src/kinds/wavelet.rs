//! Kinds 41 and 42: the inverse wavelet, `decode` of dwt_extrapolate.rs.

use std::io;

use oracle::dwt_extrapolate;
use oracle::random::{Random, limits};

use super::progressive::{COMPONENT, PLACES, next, refusal, with_sign};
use super::short;
use crate::digest::{mixed, with_values};
use crate::record::{Cases, Fields, Kind, Recording};

pub const DWT_DECODE: Kind = Kind {
    number: 41,
    inputs: 13,
    size: 22,
};
pub const DWT_IMPULSE: Kind = Kind {
    number: 42,
    inputs: 4,
    size: 12,
};

/// Values with which sums leave sixteen bits, and halves that round.
const EXTREMES: [i16; 6] = [-32768, -32767, -1, 0, 1, 32767];

/// The amplitudes of impulses. Both roundings of a half, and sums that leave sixteen bits.
const AMPLITUDES: [i16; 16] = [
    1, -1, 2, -2, 3, -3, 7, -129, 1000, -4097, 16383, -16385, 21845, -30001, 32767, -32768,
];

pub fn record_all(recording: &mut Recording<'_>) -> io::Result<()> {
    recording.kind(DWT_DECODE.number, decode)?;
    recording.kind(DWT_IMPULSE.number, impulse)
}

/// What the samples of a list are like.
#[derive(Clone, Copy)]
pub enum Sort {
    /// Any magnitude of sixteen bits, shifted right so far, with any sign.
    Any(u8),
    /// The same at one place of sixteen, 0 at the others.
    Few(u8),
    /// Extremes.
    Extreme,
    /// The lowest sixteen bits of the seed at every place.
    Equal,
}

/// What a case of kind 41 begins with.
#[derive(Clone, Copy)]
pub struct Given {
    seed: u64,
    sort: Sort,
    /// How many elements of the buffer and of the scratch are lent.
    lengths: [usize; 2],
}

/// The buffer and the scratch of a call, and how many elements of them are lent.
#[derive(Clone)]
pub struct Lists {
    pub buffer: Vec<i16>,
    pub temp: Vec<i16>,
    pub lengths: [usize; 2],
}

impl Lists {
    /// What the text makes of them, unless a slice is too short for it: the refusal, or 0.
    pub fn decode(&mut self) -> u8 {
        let [buffer, temp] = self.lengths;
        let number = refusal(&self.lengths, &[]);
        if number == 0 {
            dwt_extrapolate::decode(&mut self.buffer[..buffer], &mut self.temp[..temp]);
        }
        number
    }

    /// Both as one number.
    pub fn digest(&self) -> u64 {
        let buffer = with_values(0, self.buffer.iter().copied());
        with_values(buffer, self.temp.iter().copied())
    }
}

impl Given {
    /// Reads the fields of a case.
    pub fn read(fields: &mut Fields<'_>) -> Self {
        let seed = fields.u64();
        let sort = match fields.u8() {
            drop @ 0..32 => Sort::Any(drop),
            drop @ 32..64 => Sort::Few(drop - 32),
            64 => Sort::Extreme,
            _ => Sort::Equal,
        };
        Self {
            seed,
            sort,
            lengths: fields.shorts(),
        }
    }

    pub fn lists(&self) -> Lists {
        Lists {
            buffer: self.sort.list(self.seed),
            temp: scratch(self.seed),
            lengths: self.lengths,
        }
    }
}

impl Sort {
    fn field(self) -> u8 {
        match self {
            Self::Any(drop) => drop,
            Self::Few(drop) => 32 + drop,
            Self::Extreme => 64,
            Self::Equal => 96,
        }
    }

    fn sample(self, seed: u64, word: u64) -> i16 {
        match self {
            Self::Few(_) if !word.is_multiple_of(16) => 0,
            Self::Any(drop) | Self::Few(drop) => {
                let magnitude = (word >> 8) as u16;
                let negative = word >> 28 & 1 == 1;
                with_sign(magnitude.checked_shr(drop.into()).unwrap_or(0), negative)
            }
            Self::Extreme => EXTREMES[(word >> 32) as usize % EXTREMES.len()],
            Self::Equal => seed as i16,
        }
    }

    /// The places of a list, and some behind them.
    fn list(self, seed: u64) -> Vec<i16> {
        let mut word = seed;
        (0..PLACES)
            .map(|_| {
                word = next(word);
                self.sample(seed, word)
            })
            .collect()
    }
}

/// What lies in the scratch before a call.
fn scratch(seed: u64) -> Vec<i16> {
    Sort::Any(1).list(mixed(seed, 1))
}

/// The lists of kind 42: a value at one place, and zeros at the others.
pub fn impulse_lists(place: usize, amplitude: i16) -> Lists {
    let mut buffer = vec![0; PLACES];
    buffer[place] = amplitude;
    Lists {
        buffer,
        temp: scratch(0),
        lengths: [COMPONENT; 2],
    }
}

fn decode(recording: &mut Recording<'_>) -> io::Result<()> {
    let mut random = recording.random(DWT_DECODE.number);
    let count = recording.scaled(250);
    let mut cases = recording.cases(DWT_DECODE);
    for given in directed() {
        add_decode(&mut cases, given)?;
    }
    for _ in 0..count {
        add_decode(&mut cases, random_given(&mut random))?;
    }
    cases.finish()
}

fn add_decode(cases: &mut Cases<'_, '_>, given: Given) -> io::Result<()> {
    let Given {
        seed,
        sort,
        lengths,
    } = given;
    let mut lists = given.lists();
    let number = lists.decode();
    cases.add(&[
        &seed.to_le_bytes(),
        &[sort.field()],
        &lengths.map(short).concat(),
        &[number],
        &lists.digest().to_le_bytes(),
    ])
}

/// Samples of every size, many and few; extremes; every limit at all places; and slices that are too
/// short, or longer.
fn directed() -> Vec<Given> {
    let mut given = Vec::new();
    let lengths = [COMPONENT; 2];
    for drop in 0..=16 {
        for sort in [Sort::Any(drop), Sort::Few(drop)] {
            let seed = 1 + u64::from(drop);
            given.push(Given {
                seed,
                sort,
                lengths,
            });
        }
    }
    for seed in 1..=32 {
        let sort = Sort::Extreme;
        given.push(Given {
            seed,
            sort,
            lengths,
        });
    }
    for value in limits::<i16>() {
        given.push(Given {
            seed: u64::from(value.cast_unsigned()),
            sort: Sort::Equal,
            lengths,
        });
    }
    let lengths = [0, 1, COMPONENT - 1, COMPONENT, COMPONENT + 1, PLACES];
    for buffer in lengths {
        for temp in lengths {
            given.push(Given {
                seed: (buffer + 2 * temp + 1) as u64,
                sort: Sort::Any(6),
                lengths: [buffer, temp],
            });
        }
    }
    given
}

fn random_given(random: &mut Random) -> Given {
    Given {
        seed: random.word() | 1,
        sort: match random.below(8) {
            0 | 1 => Sort::Extreme,
            2 => Sort::Few(random.below(17)),
            3 => Sort::Any(0),
            _ => Sort::Any(random.below(17)),
        },
        lengths: [(); 2].map(|()| match random.below(16) {
            0 => random.within(COMPONENT + 1..=PLACES),
            1 => random.pick(&[COMPONENT - 1, COMPONENT + 1, PLACES]),
            _ => COMPONENT,
        }),
    }
}

/// Each place once; at a larger scale each with all amplitudes, one after another.
fn impulse(recording: &mut Recording<'_>) -> io::Result<()> {
    let mut random = recording.random(DWT_IMPULSE.number);
    let rounds = recording.scaled(1).clamp(1, AMPLITUDES.len() as u64) as usize;
    let count = recording.scaled(100);
    let mut cases = recording.cases(DWT_IMPULSE);
    for round in 0..rounds {
        for place in 0..COMPONENT {
            // A step that differs from the width of every band, so that the amplitudes mix.
            let amplitude = AMPLITUDES[(7 * place + place / 13 + round) % AMPLITUDES.len()];
            add_impulse(&mut cases, place, amplitude)?;
        }
    }
    for _ in 0..count {
        let place = random.within(0..=COMPONENT - 1);
        add_impulse(&mut cases, place, random.value())?;
    }
    cases.finish()
}

fn add_impulse(cases: &mut Cases<'_, '_>, place: usize, amplitude: i16) -> io::Result<()> {
    let mut lists = impulse_lists(place, amplitude);
    lists.decode();
    let digest = lists.digest().to_le_bytes();
    cases.add(&[&short(place), &amplitude.to_le_bytes(), &digest])
}
