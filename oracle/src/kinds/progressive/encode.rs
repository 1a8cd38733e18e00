//! Kind 37: a pass over one component, written by `encode_upgrade_pass` and read back. Kind 47: the same by
//! the symmetric rule, which the text does not have.

use std::io;

use oracle::progressive;
use oracle::srl::SrlError;

use super::component::Made;
use super::{
    Before, COMPONENT, GREATEST, Given, LAYOUTS, NO_ROOM, PLACES, Shape, Signs, bad_rows, decode,
    every_pair, lengths, random_given, record_kind, refusal, short, symmetric, typical,
};
use crate::digest::with_bytes;
use crate::kinds::missing::{self, Missing};
use crate::kinds::room::Room;
use crate::record::{Case, Recording};
use oracle::random::Random;

pub const ENCODE_UPGRADE: u8 = 37;
pub const ENCODE_SYMMETRIC: u8 = 47;

/// Who writes: the text, or the second form of the symmetric writer.
#[derive(Clone, Copy)]
pub enum Writer {
    Text,
    Symmetric,
}

/// The most bytes that an output of a case has room for.
const MOST_ROOM: usize = 16384;

/// The rooms that a stream can have.
const ROOMS: [Room; 5] = [
    Room::Exact,
    Room::Short,
    Room::Over(1),
    Room::Over(50),
    Room::Of(0),
];

/// Records all cases; the answer is the cases whose answers kind 35 makes wrong.
pub fn record_all(recording: &mut Recording<'_>) -> io::Result<Vec<(u8, Case)>> {
    Writer::Text.record_all(recording, 600, |random| Writer::Text.random_case(random))
}

/// The same of kind 47.
pub fn record_symmetric(recording: &mut Recording<'_>) -> io::Result<Vec<(u8, Case)>> {
    symmetric::check();
    Writer::Symmetric.record_all(recording, 300, |random| {
        Writer::Symmetric.random_case(random)
    })
}

/// What comes of a call, and of reading what it wrote.
pub struct Answer {
    /// How many bytes of each output are lent.
    pub rooms: [usize; 2],
    /// The number of the refusal, 0 if there is none.
    pub number: u8,
    /// How many bytes of each output are written.
    pub written: [usize; 2],
    /// The outputs, also past what is lent.
    pub outputs: [Vec<u8>; 2],
    /// The component after the pass was read.
    pub made: Made,
    /// The bits that were missing then.
    pub missing: Missing,
}

impl Answer {
    /// As fields of a case.
    pub fn fields(&self) -> Vec<u8> {
        let [srl, raw] = &self.outputs;
        let mut fields = vec![self.number];
        fields.extend(self.written.map(short).concat());
        fields.extend(with_bytes(with_bytes(0, srl), raw).to_le_bytes());
        fields.extend(decode::digest(&self.made).to_le_bytes());
        fields.extend(missing::fields(self.missing));
        fields
    }
}

impl Writer {
    /// What is answered, with the port's refusal of an output that is too short.
    pub fn answer(self, given: &Given, rooms: [Room; 2]) -> Answer {
        let mut made = given.make();
        let (number, streams) = match self.write(given, &made) {
            Ok((srl, raw)) => (0, [srl, raw]),
            Err(number) => (number, Default::default()),
        };
        let rooms: [usize; 2] =
            core::array::from_fn(|k| rooms[k].bytes(streams[k].len(), MOST_ROOM));
        let fits = (0..2).all(|k| streams[k].len() <= rooms[k]);
        let number = if number == 0 && !fits {
            NO_ROOM
        } else {
            number
        };
        let streams = if number == 0 {
            streams
        } else {
            Default::default()
        };
        let mut missing = [0; 2];
        if number == 0 {
            let [srl, raw] = &streams;
            let (read, bits) = decode::read(given, srl, raw, &mut made);
            assert_eq!(read, 0);
            missing = bits;
        }
        Answer {
            rooms,
            number,
            written: [streams[0].len(), streams[1].len()],
            outputs: streams.map(|stream| held(&stream)),
            made,
            missing,
        }
    }

    fn write(self, given: &Given, made: &Made) -> Result<(Vec<u8>, Vec<u8>), u8> {
        match self {
            Self::Text => write(given, made),
            Self::Symmetric => symmetric::write(given, made),
        }
    }
}

/// The streams that the text writes, or the refusal.
pub fn write(given: &Given, made: &Made) -> Result<(Vec<u8>, Vec<u8>), u8> {
    let [target, before, sign] = given.lengths;
    match refusal(&given.lengths, &[given.prev, given.curr]) {
        0 => progressive::encode_upgrade_pass(
            &made.target[..target],
            &made.before[..before],
            &given.prev_quant(),
            &given.curr_quant(),
            &made.sign[..sign],
            given.use_reduce_extrapolate,
        )
        .map_err(|error| match error {
            SrlError::MagnitudeOutOfRange { .. } => 5,
            error => panic!("the writer does not answer {error}"),
        }),
        number => Err(number),
    }
}

/// What an output holds after the call, also past the room that is lent: the stream, and behind it
/// what was there before.
pub fn held(stream: &[u8]) -> Vec<u8> {
    let mut held = stream.to_vec();
    held.extend((stream.len()..MOST_ROOM).map(|place| (place % 200) as u8 + 55));
    held
}

impl Writer {
    fn kind(self) -> u8 {
        match self {
            Self::Text => ENCODE_UPGRADE,
            Self::Symmetric => ENCODE_SYMMETRIC,
        }
    }

    /// Components that the writer accepts. The symmetric one gets a target that is not cut.
    fn typical(self, seed: u64) -> Given {
        let mut given = typical(seed);
        if let Self::Symmetric = self {
            given.shape.before = Before::OfBand;
            given.shape.cut = false;
        }
        given
    }

    /// Coefficients before the pass over which a target that is not cut has values that are too large.
    fn far(self) -> Before {
        match self {
            Self::Text => Before::Cut,
            Self::Symmetric => Before::Any,
        }
    }

    /// The sorts of coefficients before the pass.
    fn befores(self) -> &'static [Before] {
        const ALL: [Before; 5] = [
            Before::Cut,
            Before::Floor,
            Before::Any,
            Before::Extreme,
            Before::OfBand,
        ];
        match self {
            Self::Text => &ALL[..4],
            Self::Symmetric => &ALL,
        }
    }

    /// Components of all sorts. Most of those for the symmetric writer are as its senders have them.
    fn random_given(self, random: &mut Random) -> Given {
        let mut given = random_given(random);
        if let Self::Symmetric = self
            && !random.one_in(4)
        {
            given.shape.before = Before::OfBand;
            given.shape.signs = Signs::Before;
            given.shape.cut = random.one_in(4);
        }
        given
    }

    fn record_all(
        self,
        recording: &mut Recording<'_>,
        count: u32,
        random_case: fn(&mut Random) -> Case,
    ) -> io::Result<Vec<(u8, Case)>> {
        let directed = [
            self.pairs(),
            self.shapes(),
            self.refusals(),
            self.rooms(),
            self.faults(),
        ];
        record_kind(
            recording,
            self.kind(),
            self.models(),
            &directed.concat(),
            count,
            random_case,
        )
    }

    fn case(self, given: Given, srl_room: Room, raw_room: Room) -> Case {
        let answer = self.answer(&given, [srl_room, raw_room]);
        let mut case = Case::default();
        case.given(&given.fields());
        case.given(&answer.rooms.map(short).concat());
        case.answer(&answer.fields());
        case
    }

    /// Few cases that have each sort of answer.
    fn models(self) -> Vec<Case> {
        let short = Given {
            lengths: [COMPONENT - 1, COMPONENT, COMPONENT],
            ..typical(2)
        };
        let mut uncut = self.typical(3);
        uncut.shape.before = self.far();
        uncut.shape.cut = false;
        vec![
            self.case(self.typical(1), Room::Over(3), Room::Over(2)),
            self.case(short, Room::Of(2), Room::Of(1)),
            self.case(uncut, Room::Of(2), Room::Of(0)),
            self.case(self.typical(4), Room::Exact, Room::Short),
        ]
    }

    /// Each pair of positions in all bands, and beside others; in both layouts.
    fn pairs(self) -> Vec<Case> {
        let mut rows = every_pair();
        for prev in 0..=GREATEST {
            rows.extend((0..=GREATEST).map(|curr| ([prev; 10], [curr; 10])));
        }
        let mut random = Random::new(1, self.kind());
        let mut cases = Vec::new();
        for use_reduce_extrapolate in LAYOUTS {
            for &(prev, curr) in &rows {
                let most = prev.iter().max().expect("ten");
                let given = Given {
                    shape: Shape {
                        density: 8,
                        drop: 15 - most,
                        spread: 15,
                        ..typical(random.word() | 1).shape
                    },
                    use_reduce_extrapolate,
                    prev,
                    curr,
                    lengths: [COMPONENT; 3],
                };
                cases.push(self.case(given, Room::Exact, Room::Exact));
            }
        }
        cases
    }

    /// Each sort of coefficients with each sort of signs, few and many of them; large values and small.
    fn shapes(self) -> Vec<Case> {
        let mut random = Random::new(2, self.kind());
        let mut cases = Vec::new();
        for &before in self.befores() {
            for signs in [Signs::Before, Signs::Any, Signs::Zero, Signs::Later] {
                for density in [2, 50, 200, 255] {
                    for (drop, cut) in
                        [(0, false), (11, true), (13, true), (11, false), (13, false)]
                    {
                        let mut given = self.typical(random.word() | 1);
                        given.use_reduce_extrapolate = random.one_in(2);
                        given.shape = Shape {
                            density,
                            drop,
                            before,
                            signs,
                            cut,
                            ..given.shape
                        };
                        cases.push(self.case(given, Room::Over(5), Room::Over(5)));
                    }
                }
            }
        }
        cases
    }

    /// Slices that are too short or longer, and numbers that are no positions; both at once. Without
    /// room, because both refusals come before that for the room.
    fn refusals(self) -> Vec<Case> {
        let given = self.typical(4);
        let mut cases = Vec::new();
        for lengths in lengths() {
            let given = Given { lengths, ..given };
            let bad = Given {
                curr: [255; 10],
                ..given
            };
            cases.push(self.case(given, Room::Over(9), Room::Over(9)));
            cases.push(self.case(given, Room::Of(0), Room::Of(0)));
            cases.push(self.case(bad, Room::Of(9), Room::Of(0)));
        }
        for (prev, curr) in bad_rows(given.prev, given.curr) {
            let given = Given {
                prev,
                curr,
                ..given
            };
            cases.push(self.case(given, Room::Of(9), Room::Of(0)));
        }
        cases
    }

    /// Outputs that are exactly full, one short and longer: where both streams have bytes, where one has
    /// none and where both have none, and where a stream is far longer than any output.
    fn rooms(self) -> Vec<Case> {
        let both = self.typical(5);
        let mut no_srl = self.typical(6);
        no_srl.shape.signs = Signs::Any;
        no_srl.curr[..9].copy_from_slice(&no_srl.prev[..9]);
        let mut no_raw = self.typical(7);
        no_raw.shape.signs = Signs::Zero;
        no_raw.curr[9] = no_raw.prev[9];
        let mut none = self.typical(8);
        none.curr = [9; 10];
        let mut long = self.typical(9);
        long.shape.drop = 0;
        long.prev = [15; 10];
        long.curr = [0; 10];
        let mut zeros = self.typical(10);
        zeros.shape.drop = 16;
        zeros.lengths = [PLACES; 3];
        let mut cases = Vec::new();
        for given in [both, no_srl, no_raw, none, zeros] {
            for srl_room in ROOMS {
                for raw_room in ROOMS {
                    cases.push(self.case(given, srl_room, raw_room));
                }
            }
        }
        cases.push(self.case(long, Room::Of(MOST_ROOM), Room::Exact));
        cases
    }

    /// Values that are too large for their width, with room and without: their refusal comes first. And
    /// differences that leave the range, which are clamped and then not too large.
    fn faults(self) -> Vec<Case> {
        let mut random = Random::new(3, self.kind());
        let mut cases = vec![self.case(self.clamped(), Room::Of(MOST_ROOM), Room::Exact)];
        for curr in [0, 1, 2, 3] {
            for drop in [11, 12, 13] {
                let mut given = self.typical(random.word() | 1);
                given.prev = [curr + 1; 10];
                given.curr = [curr; 10];
                given.shape = Shape {
                    density: 3,
                    drop,
                    before: self.far(),
                    signs: Signs::Zero,
                    cut: false,
                    ..given.shape
                };
                for rooms in [
                    (Room::Over(9), Room::Over(9)),
                    (Room::Of(0), Room::Of(0)),
                    (Room::Of(0), Room::Over(9)),
                    (Room::Over(9), Room::Of(0)),
                ] {
                    cases.push(self.case(given, rooms.0, rooms.1));
                }
            }
        }
        cases
    }

    /// Zeros over the least and the greatest, in one band of 15 bits.
    fn clamped(self) -> Given {
        let mut given = self.typical(11);
        given.shape = Shape {
            drop: 16,
            before: Before::Extreme,
            signs: Signs::Zero,
            ..given.shape
        };
        given.curr = [0; 10];
        given.prev = [0; 10];
        given.prev[8] = 15;
        given
    }

    fn random_case(self, random: &mut Random) -> Case {
        let given = self.random_given(random);
        self.case(given, Room::random(random), Room::random(random))
    }
}
