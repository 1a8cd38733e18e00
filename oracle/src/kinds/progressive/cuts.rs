//! Kind 46: streams of a kilobyte that are cut at each byte. One of three calls is made on each cut, from the start,
//! with values of 15 bits.

use std::{io, iter};

use oracle::codecs::rfx::progressive::ComponentCodecQuant;
use oracle::progressive::TileState;
use oracle::random::Random;
use oracle::srl::SrlEncoder;
use oracle::srl::reach;

use super::component::{self, Made, Row};
use super::ladder::Upgrade;
use super::tile::Tile;
use super::{COMPONENT, GREATEST, LAYOUTS, decode, next, tile, typical, with_sign};
use crate::digest::mixed;
use crate::kinds::missing::Missing;
use crate::kinds::srl::exhaustive;
use crate::record::{Cases, Fields, Kind, Recording};

pub const CUT_EVERYWHERE: Kind = Kind {
    number: 46,
    inputs: 11,
    size: 19,
};

/// The bytes of a stream that is not cut.
pub const LENGTH: usize = 1024;

/// How many values `decode` is asked for, and their bits.
pub const VALUES: usize = 4096;
pub const WIDTH: u8 = 15;

/// The positions of all bands before a pass and after it.
const PREV: Row = [GREATEST; 10];
const CURR: Row = [0; 10];

/// How many values are written where a stream is the writer's: as a rule more than a kilobyte takes.
const WRITTEN: usize = 200;

/// The call that is made on the streams at each length.
#[derive(Clone, Copy)]
pub enum Call {
    /// `SrlDecoder::decode`.
    Decode,
    /// `decode_upgrade_pass`, over zeros.
    Pass,
    /// `TileState::decode_upgrade`, over a tile of zeros.
    Tile,
}

/// What an SRL stream is like.
#[derive(Clone, Copy)]
pub enum Sort {
    /// Any bytes.
    Any,
    /// Nearly all bits are zeros,
    FewOnes,
    /// or ones.
    FewZeros,
    /// A nonzero value whose zeros go on to the end.
    OneCount,
    /// What the text writes: one of four values is not zero,
    Written,
    /// or each, so that nearly every byte ends within the zeros of a value.
    WrittenCounts,
}

const SORTS: [Sort; 6] = [
    Sort::Any,
    Sort::FewOnes,
    Sort::FewZeros,
    Sort::OneCount,
    Sort::Written,
    Sort::WrittenCounts,
];

const CALLS: [Call; 3] = [Call::Decode, Call::Pass, Call::Tile];

/// The seeds of the cases that are not random: with these each of the four streams of one count is there.
const SEEDS: [u64; 2] = [4, 5];

/// What a case begins with.
#[derive(Clone, Copy)]
pub struct Given {
    seed: u64,
    sort: Sort,
    pub call: Call,
    use_reduce_extrapolate: bool,
}

/// The streams of the three components, of which `decode` and a pass take those of the first.
pub struct Streams {
    srl: [Vec<u8>; 3],
    raw: [Vec<u8>; 3],
}

/// Each sort of streams by each call, in both layouts where there are such; then random ones.
pub fn record_all(recording: &mut Recording<'_>) -> io::Result<()> {
    let mut random = recording.random(CUT_EVERYWHERE.number);
    let count = recording.scaled(2);
    let mut cases = recording.cases(CUT_EVERYWHERE);
    for given in directed() {
        add(&mut cases, given)?;
    }
    for _ in 0..count {
        add(&mut cases, random_given(&mut random))?;
    }
    cases.finish()
}

fn add(cases: &mut Cases<'_, '_>, given: Given) -> io::Result<()> {
    let streams = given.streams();
    let digest = (0..=LENGTH).fold(0, |digest, length| given.with_cut(digest, &streams, length));
    cases.add(&[&given.fields(), &digest.to_le_bytes()])
}

fn directed() -> Vec<Given> {
    let mut directed = Vec::new();
    for seed in SEEDS {
        for sort in SORTS {
            for call in CALLS {
                directed.extend(call.layouts().iter().map(|&use_reduce_extrapolate| Given {
                    seed,
                    sort,
                    call,
                    use_reduce_extrapolate,
                }));
            }
        }
    }
    directed
}

fn random_given(random: &mut Random) -> Given {
    let call = random.pick(&CALLS);
    Given {
        seed: random.word() | 1,
        sort: random.pick(&SORTS),
        call,
        use_reduce_extrapolate: random.pick(call.layouts()),
    }
}

impl Call {
    /// The layouts in which the call is made. Values by themselves have none, and the field is 0.
    fn layouts(self) -> &'static [bool] {
        match self {
            Self::Decode => &LAYOUTS[..1],
            Self::Pass | Self::Tile => &LAYOUTS,
        }
    }
}

impl Given {
    /// Reads the fields of a case.
    pub fn read(fields: &mut Fields<'_>) -> Self {
        Self {
            seed: fields.u64(),
            sort: SORTS[usize::from(fields.u8())],
            call: CALLS[usize::from(fields.u8())],
            use_reduce_extrapolate: fields.flag(),
        }
    }

    /// As fields of a case.
    fn fields(&self) -> Vec<u8> {
        let mut fields = self.seed.to_le_bytes().to_vec();
        fields.extend([self.sort as u8, self.call as u8]);
        fields.push(u8::from(self.use_reduce_extrapolate));
        fields
    }

    /// The streams before they are cut.
    pub fn streams(&self) -> Streams {
        let seed = |number: usize| tile::numbered(self.seed, number as u64);
        Streams {
            srl: core::array::from_fn(|k| self.sort.stream(seed(k))),
            raw: core::array::from_fn(|k| Sort::Any.stream(seed(3 + k))),
        }
    }

    /// A digest with what the text makes of the streams at a length.
    fn with_cut(&self, digest: u64, streams: &Streams, length: usize) -> u64 {
        let [srl, raw] = streams.first(length);
        match self.call {
            Call::Decode => {
                let (values, state, missing) = exhaustive::decoded(srl, WIDTH, VALUES);
                exhaustive::with_answer(digest, &values, state, missing)
            }
            Call::Pass => {
                let mut made = zeros();
                let (number, missing) = decode::read(&self.pass(), srl, raw, &mut made);
                with_answer(digest, number, decode::digest(&made), missing)
            }
            Call::Tile => {
                let mut tile = self.tile();
                let (number, missing) = streams.upgrade(length).apply(&mut tile);
                with_answer(digest, number, tile::digest(&tile), missing)
            }
        }
    }

    /// The pass of all bits.
    pub fn pass(&self) -> component::Given {
        component::Given {
            use_reduce_extrapolate: self.use_reduce_extrapolate,
            prev: PREV,
            curr: CURR,
            ..typical(self.seed)
        }
    }

    /// A loaded tile of zeros.
    pub fn tile(&self) -> Tile {
        Tile::of(TileState {
            prog_quant: [ComponentCodecQuant::of_bands(PREV); 3],
            pass: 1,
            use_reduce_extrapolate: self.use_reduce_extrapolate,
            ..TileState::new()
        })
    }
}

/// The component that a pass goes over.
pub fn zeros() -> Made {
    Made {
        target: Vec::new(),
        before: vec![0; COMPONENT],
        sign: vec![0; COMPONENT],
    }
}

/// A digest with an answer more: the refusal, or 0, the digest of what the call left, and the bits that were missing.
pub fn with_answer(digest: u64, number: u8, left: u64, missing: Missing) -> u64 {
    let [srl, raw] = missing.map(u64::from);
    [number.into(), left, srl, raw]
        .into_iter()
        .fold(digest, mixed)
}

impl Streams {
    /// The SRL stream and the raw stream of the first component, cut.
    pub fn first(&self, length: usize) -> [&[u8]; 2] {
        [&self.srl, &self.raw].map(|streams| &streams[0][..length])
    }

    /// The upgrade of all bits by all streams, cut.
    pub fn upgrade(&self, length: usize) -> Upgrade {
        let cut = |streams: &[Vec<u8>; 3]| streams.each_ref().map(|all| all[..length].to_vec());
        Upgrade {
            srl: cut(&self.srl),
            raw: cut(&self.raw),
            rows: [CURR; 3],
            quality: 50,
        }
    }
}

impl Sort {
    fn stream(self, seed: u64) -> Vec<u8> {
        let words = iter::successors(Some(next(seed)), |&word| Some(next(word)));
        match self {
            Self::Written | Self::WrittenCounts => {
                let values: Vec<i16> = words.take(WRITTEN).map(|word| self.value(word)).collect();
                written(&values)
            }
            _ => (0..LENGTH)
                .zip(words)
                .map(|(place, word)| self.byte(place, word))
                .collect(),
        }
    }

    fn byte(self, place: usize, word: u64) -> u8 {
        let [a, b, c, d, ..] = word.to_le_bytes();
        match self {
            Self::FewOnes => a & b & c & d,
            Self::FewZeros => a | b | c | d,
            // A code word 1, a run of one zero or none, and a sign.
            Self::OneCount if place == 0 => 0x80 + a / 64 * 32,
            Self::OneCount => 0,
            _ => a,
        }
    }

    fn value(self, word: u64) -> i16 {
        if matches!(self, Self::Written) && !word.is_multiple_of(4) {
            return 0;
        }
        with_sign(1 + (word >> 8) as u16 % 512, word >> 28 & 1 == 1)
    }
}

/// The first whole bytes that the text writes of values; zeros behind them if they are few.
fn written(values: &[i16]) -> Vec<u8> {
    let mut encoder = SrlEncoder::new();
    encoder.encode(values, WIDTH).expect("the values fit");
    let (mut bytes, _) = reach::encoder_parts(encoder);
    bytes.resize(LENGTH, 0);
    bytes
}
