//! Kind 40: a tile, and upgrades of it one after another by `TileState::decode_upgrade`.

use std::io;

use oracle::codecs::rfx::progressive::ComponentCodecQuant;
use oracle::progressive::TileState;
use oracle::random::Random;

use super::component::{Made, Row, next, shifted};
use super::tile::{
    Fields, Start, Tile, bad_fields, digest, numbers_of_layouts, random_start, typical,
    wrong_numbers,
};
use super::zero_signs::{self, Wrong};
use super::{
    Before, COMPONENT, GREATEST, IMPOSSIBLE_STATE, LAYOUTS, Shape, Signs, encode, load,
    record_kind, refusal,
};
use crate::kinds::missing::{self, Missing};
use crate::record::{self, Case, Recording};

pub const UPGRADE_LADDER: u8 = 40;

/// The longest stream of a case.
const LONGEST: usize = 16384;

/// Where a ladder begins.
#[derive(Clone, Copy)]
pub enum From {
    /// `TileState::new`.
    New,
    /// A loaded tile.
    Loaded,
    /// A tile with any fields.
    Built,
}

/// The rows of an upgrade.
#[derive(Clone, Copy)]
enum Rows {
    /// Each position of the tile, less a number of the bits that are set here.
    Down(u8),
    /// The same, raised.
    Up(u8),
    /// Any positions.
    Any,
    /// This position in every band.
    All(u8),
}

/// The streams of a component.
#[derive(Clone, Copy)]
enum Streams {
    None,
    /// Those that the text writes for the component's target.
    Written,
    /// The same, cut.
    Cut,
    /// Any bytes.
    Any,
}

/// One upgrade of a ladder.
#[derive(Clone, Copy)]
pub struct Step {
    rows: Rows,
    /// A place of the thirty that has a number above 15.
    bad: Option<u8>,
    streams: [Streams; 3],
    /// A length of sixteen bits is shifted right so far.
    lengths: u8,
}

/// Records all cases; the answer is the cases whose answers kind 35 makes wrong.
pub fn record_all(recording: &mut Recording<'_>) -> io::Result<Vec<(u8, Case)>> {
    let directed = [
        fresh(),
        real(),
        shapes(),
        alone(),
        refusals(),
        pass_numbers(),
        short_streams(),
        empty(),
        cuts(),
        right_and_wrong_numbers(),
    ];
    record_kind(
        recording,
        UPGRADE_LADDER,
        models(),
        &directed.concat(),
        200,
        random_case,
    )
}

fn case(start: Start, from: From, steps: &[Step]) -> Case {
    let (number, mut tile) = from.tile(&start);
    let mut case = Case::default();
    case.given(&start.bytes());
    case.given(&[from as u8, steps.len() as u8]);
    case.given(&start.wrong.bytes());
    add_answer(&mut case, number, &tile);
    let is_right = tile.is_right();
    for (index, step) in steps.iter().enumerate() {
        case.given(&step.bytes());
        let upgrade = step.upgrade(&start, index, &tile.state);
        let (number, missing) = upgrade.apply(&mut tile);
        // No upgrade of a tile with right numbers has this refusal, and each of another tile.
        assert_eq!(number == IMPOSSIBLE_STATE, !is_right);
        add_answer(&mut case, number, &tile);
        case.answer(&missing::fields(missing));
    }
    case
}

fn add_answer(case: &mut Case, number: u8, tile: &Tile) {
    case.answer(&answer_fields(number, tile));
}

/// An answer as fields of a case.
pub fn answer_fields(number: u8, tile: &Tile) -> Vec<u8> {
    let mut fields = vec![number];
    fields.extend(digest(tile).to_le_bytes());
    fields
}

impl From {
    /// Reads the field of a case.
    pub fn read(fields: &mut record::Fields<'_>) -> Self {
        [Self::New, Self::Loaded, Self::Built][usize::from(fields.u8())]
    }

    /// The refusal, or 0, and the tile that a ladder begins with.
    pub fn tile(self, start: &Start) -> (u8, Tile) {
        match self {
            Self::New => (0, Tile::of(TileState::new())),
            Self::Loaded => load::load(start, [COMPONENT; 6]),
            Self::Built => (0, start.built()),
        }
    }
}

/// What a call of `decode_upgrade` is given.
pub struct Upgrade {
    pub srl: [Vec<u8>; 3],
    pub raw: [Vec<u8>; 3],
    pub rows: [Row; 3],
    pub quality: u8,
}

impl Upgrade {
    /// Upgrades a tile: the refusal, or 0, and the bits that were missing. The text gives no refusal, and
    /// takes no number above 15 from the wire: it is asked only where there is none.
    pub fn apply(&self, tile: &mut Tile) -> (u8, Missing) {
        let number = self.refusal(tile);
        if number != 0 {
            return (number, [0; 2]);
        }
        let missing = self.missing(&tile.state);
        tile.state
            .decode_upgrade(
                self.srl.each_ref().map(Vec::as_slice),
                self.raw.each_ref().map(Vec::as_slice),
                self.rows.map(ComponentCodecQuant::of_bands),
                self.quality,
            )
            .expect("a stream causes no refusal");
        tile.zero_signs = zero_signs::of(&tile.state);
        (number, missing)
    }

    /// 8 comes before 2.
    fn refusal(&self, tile: &Tile) -> u8 {
        if !tile.is_right() {
            return IMPOSSIBLE_STATE;
        }
        let fields = Fields::of(&tile.state);
        let rows = [self.rows, fields.prog_quant, fields.base_quant];
        refusal(&[], &rows.concat())
    }

    /// The bits that are missing in all three components.
    fn missing(&self, tile: &TileState) -> Missing {
        let mut sums = [0; 2];
        for (k, prev) in Fields::of(tile).prog_quant.iter().enumerate() {
            let [srl, raw] = missing::of_pass(
                &self.srl[k],
                &self.raw[k],
                prev,
                &self.rows[k],
                tile.use_reduce_extrapolate,
                &tile.sign[k],
            );
            sums[0] += srl;
            sums[1] += raw;
        }
        sums
    }
}

impl Step {
    /// Reads the fields of a case.
    pub fn read(fields: &mut record::Fields<'_>) -> Self {
        let [rows, bad, streams, lengths] = [(); 4].map(|()| fields.u8());
        let sorts = [Streams::None, Streams::Written, Streams::Cut, Streams::Any];
        Self {
            rows: match rows / 16 {
                0 => Rows::Down(rows % 16),
                1 => Rows::Up(rows % 16),
                2 => Rows::Any,
                _ => Rows::All(rows % 16),
            },
            bad: bad.checked_sub(1),
            streams: [0, 2, 4].map(|place| sorts[usize::from(streams >> place & 3)]),
            lengths,
        }
    }

    fn bytes(&self) -> [u8; 4] {
        let rows = match self.rows {
            Rows::Down(mask) => mask,
            Rows::Up(mask) => 16 + mask,
            Rows::Any => 32,
            Rows::All(position) => 48 + position,
        };
        let [y, cb, cr] = self.streams.map(|streams| streams as u8);
        let bad = self.bad.map_or(0, |place| place + 1);
        [rows, bad, y + 4 * cb + 16 * cr, self.lengths]
    }

    /// What the upgrade with number `index` is given.
    pub fn upgrade(&self, start: &Start, index: usize, tile: &TileState) -> Upgrade {
        let words: [u64; 4] =
            core::array::from_fn(|k| next(start.seed(4 * (index as u64 + 1) + k as u64)));
        let fields = Fields::of(tile);
        let rows = self.rows_of(&fields, words);
        let mut upgrade = Upgrade {
            srl: Default::default(),
            raw: Default::default(),
            rows,
            quality: words[3] as u8,
        };
        for k in 0..3 {
            (upgrade.srl[k], upgrade.raw[k]) =
                self.streams_of(start, tile, k, rows[k], next(words[k]));
        }
        upgrade
    }

    fn rows_of(&self, fields: &Fields, words: [u64; 4]) -> [Row; 3] {
        let mut rows: [Row; 3] = core::array::from_fn(|k| {
            core::array::from_fn(|band| {
                let number = (words[k] >> (4 * band)) as u8 % 16;
                self.rows.position(fields.prog_quant[k][band], number)
            })
        });
        if let Some(place) = self.bad {
            let number = 16 + (words[3] >> 8) as u8 % 240;
            rows.as_flattened_mut()[usize::from(place)] = number;
        }
        rows
    }

    /// The streams of the component with number `k`.
    fn streams_of(
        &self,
        start: &Start,
        tile: &TileState,
        k: usize,
        curr: Row,
        word: u64,
    ) -> (Vec<u8>, Vec<u8>) {
        let lengths =
            [word, word >> 16].map(|word| LONGEST.min(shifted(word as u16, self.lengths).into()));
        match self.streams[k] {
            Streams::None => Default::default(),
            Streams::Written => written(start, tile, k, curr),
            Streams::Cut => {
                let (mut srl, mut raw) = written(start, tile, k, curr);
                srl.truncate(lengths[0]);
                raw.truncate(lengths[1]);
                (srl, raw)
            }
            Streams::Any => {
                let mut word = word;
                let [srl, raw] = lengths.map(|length| {
                    (0..length)
                        .map(|_| {
                            word = next(word);
                            word as u8
                        })
                        .collect()
                });
                (srl, raw)
            }
        }
    }
}

impl Rows {
    fn position(self, position: u8, number: u8) -> u8 {
        match self {
            Self::Down(mask) => position.saturating_sub(number & mask),
            Self::Up(mask) => position.saturating_add(number & mask).min(GREATEST),
            Self::Any => number,
            Self::All(position) => position,
        }
    }
}

/// The streams that the text writes from a component of a tile to its target; none if it refuses, or
/// if one is too long.
fn written(start: &Start, tile: &TileState, k: usize, curr: Row) -> (Vec<u8>, Vec<u8>) {
    let mut given = start.component(k, Fields::of(tile).prog_quant[k], curr);
    given.use_reduce_extrapolate = tile.use_reduce_extrapolate;
    let made = Made {
        target: given.make().target,
        before: tile.coefficients[k].to_vec(),
        sign: tile.sign[k].to_vec(),
    };
    match encode::write(&given, &made) {
        Ok((srl, raw)) if srl.len() <= LONGEST && raw.len() <= LONGEST => (srl, raw),
        _ => Default::default(),
    }
}

/// An upgrade with streams of one sort.
fn step(rows: Rows, streams: Streams) -> Step {
    Step {
        rows,
        bad: None,
        streams: [streams; 3],
        lengths: 7,
    }
}

fn bad(step: Step, place: u8) -> Step {
    Step {
        bad: Some(place),
        ..step
    }
}

/// Few cases that have each sort of answer.
fn models() -> Vec<Case> {
    let down = step(Rows::Down(3), Streams::Written);
    let any = step(Rows::Down(7), Streams::Any);
    vec![
        case(
            typical(1),
            From::New,
            &[step(Rows::Up(15), Streams::Any), any],
        ),
        case(typical(2), From::Loaded, &[down, bad(down, 17)]),
        case(typical(3), From::Built, &[any]),
        case(
            Start {
                wrong: Wrong::At(29, 1),
                ..typical(4)
            },
            From::Built,
            &[bad(any, 5)],
        ),
    ]
}

/// The fresh tile: its positions are 0, so they are raised first.
fn fresh() -> Vec<Case> {
    let mut cases = vec![case(typical(10), From::New, &[])];
    for (seed, top) in (11..).zip([15, 8, 1]) {
        for streams in [Streams::Written, Streams::Any, Streams::None] {
            let mut steps = vec![step(Rows::All(top), Streams::Any)];
            steps.extend([step(Rows::Down(3), streams); 5]);
            steps.push(step(Rows::All(0), streams));
            cases.push(case(typical(seed), From::New, &steps));
        }
    }
    cases
}

/// Tiles that fit, upgraded by the writer's streams down to the last bit, in both layouts.
fn real() -> Vec<Case> {
    let mut cases = Vec::new();
    for (seed, density) in (20..).zip([4, 60, 200, 255]) {
        for use_reduce_extrapolate in LAYOUTS {
            for mask in [1, 3, 7] {
                let mut start = typical(seed);
                start.shape.density = density;
                start.fields.use_reduce_extrapolate = use_reduce_extrapolate;
                let mut steps = vec![step(Rows::Down(mask), Streams::Written); 4];
                steps.push(step(Rows::All(0), Streams::Written));
                cases.push(case(start, From::Loaded, &steps));
            }
        }
    }
    cases
}

/// Each sort of coefficients with each sort of signs, on streams of all sorts.
fn shapes() -> Vec<Case> {
    let mut random = Random::new(1, UPGRADE_LADDER);
    let mut cases = Vec::new();
    for before in [Before::Cut, Before::Floor, Before::Any, Before::Extreme] {
        for signs in [Signs::Before, Signs::Any, Signs::Zero, Signs::Later] {
            let mut start = typical(random.word());
            start.shape = Shape {
                density: 120,
                drop: 0,
                before,
                signs,
                ..start.shape
            };
            let steps = [
                step(Rows::Down(3), Streams::Any),
                step(Rows::Up(7), Streams::Written),
                step(Rows::Any, Streams::Any),
                step(Rows::Down(3), Streams::Cut),
            ];
            cases.push(case(start, From::Built, &steps));
        }
    }
    cases
}

/// One component's streams at a time.
fn alone() -> Vec<Case> {
    let mut cases = Vec::new();
    for k in 0..3 {
        for sort in [Streams::Written, Streams::Any] {
            let mut streams = [Streams::None; 3];
            streams[k] = sort;
            let step = Step {
                streams,
                ..step(Rows::Down(3), sort)
            };
            cases.push(case(typical(40 + k as u64), From::Built, &[step; 2]));
        }
    }
    cases
}

/// A number above 15 at each place of the rows, one after another, before an upgrade that is accepted;
/// and at places of the tile, in each band.
fn refusals() -> Vec<Case> {
    let down = step(Rows::Down(3), Streams::Any);
    let mut cases = Vec::new();
    for first in (0..30).step_by(6) {
        let mut steps: Vec<Step> = (first..first + 6).map(|place| bad(down, place)).collect();
        steps.push(down);
        cases.push(case(typical(50 + u64::from(first)), From::Built, &steps));
    }
    let start = typical(60);
    for fields in bad_fields(start.fields).into_iter().step_by(3) {
        cases.push(case(Start { fields, ..start }, From::Built, &[down]));
    }
    let mut loaded = start;
    loaded.fields.base_quant[2][9] = 16;
    cases.push(case(loaded, From::Loaded, &[down]));
    cases
}

/// Pass numbers up to the greatest, where they stay.
fn pass_numbers() -> Vec<Case> {
    let down = step(Rows::Down(1), Streams::None);
    [0, 255, 256, 32767, 65533, 65534, 65535]
        .map(|pass| {
            let mut start = typical(70);
            start.fields.pass = pass;
            case(start, From::Built, &[down; 3])
        })
        .to_vec()
}

/// Streams of up to a few bytes.
fn short_streams() -> Vec<Case> {
    let mut cases = Vec::new();
    for lengths in [16, 15, 14, 13, 12] {
        for streams in [Streams::Cut, Streams::Any] {
            let short = Step {
                lengths,
                ..step(Rows::Down(7), streams)
            };
            cases.push(case(
                typical(80 + u64::from(lengths)),
                From::Loaded,
                &[short; 3],
            ));
        }
    }
    cases
}

/// Zero tiles with positions 15, upgraded to the last bit at once, or by as few bits at a time as there
/// are, by empty streams; in both layouts, and with the positions of one component alone moving.
fn empty() -> Vec<Case> {
    let mut cases = Vec::new();
    for use_reduce_extrapolate in LAYOUTS {
        let mut start = typical(90);
        start.shape.drop = 16;
        start.fields.use_reduce_extrapolate = use_reduce_extrapolate;
        start.fields.prog_quant = [[15; 10]; 3];
        let last = step(Rows::All(0), Streams::None);
        cases.push(case(start, From::Loaded, &[last]));
        let down = step(Rows::Down(1), Streams::None);
        cases.push(case(start, From::Loaded, &[down, down, last]));
        for k in 0..3 {
            let mut alone = start;
            alone.fields.prog_quant = [[0; 10]; 3];
            alone.fields.prog_quant[k] = [15; 10];
            cases.push(case(alone, From::Loaded, &[last]));
        }
    }
    cases
}

/// The writer's streams, all cut, or those of one component alone.
fn cuts() -> Vec<Case> {
    let mut cases = Vec::new();
    for lengths in [6, 7, 8, 9, 10, 11] {
        let all = Step {
            lengths,
            ..step(Rows::Down(3), Streams::Cut)
        };
        let one = |k: usize| {
            let mut streams = [Streams::Written; 3];
            streams[k] = Streams::Cut;
            Step { streams, ..all }
        };
        let steps = [one(0), one(1), one(2), all];
        let seed = 100 + u64::from(lengths);
        cases.push(case(typical(seed), From::Loaded, &steps));
    }
    cases
}

/// Right and wrong numbers of zero signs, in both layouts: a wrong one at each of the thirty places, first in an upgrade
/// that would be accepted and then with a number above 15 given; with one in the tile; all of the other layout, which
/// are right where no sign is 0; and right ones with signs of all sorts, also after a refusal.
fn right_and_wrong_numbers() -> Vec<Case> {
    let down = step(Rows::Down(3), Streams::Any);
    let mut cases = Vec::new();
    for use_reduce_extrapolate in LAYOUTS {
        let mut start = typical(110);
        start.fields.use_reduce_extrapolate = use_reduce_extrapolate;
        for (place, wrong) in (0..30).zip(wrong_numbers(start)) {
            cases.push(case(wrong, From::Built, &[down, bad(down, 29 - place)]));
        }
        let mut wrong = start;
        wrong.wrong = Wrong::At(9, u16::MAX);
        for fields in bad_fields(start.fields).into_iter().step_by(7) {
            cases.push(case(Start { fields, ..wrong }, From::Built, &[down]));
        }
        for [right, other] in numbers_of_layouts(start) {
            cases.push(case(other, From::Built, &[down]));
            cases.push(case(right, From::Built, &[down, bad(down, 12), down]));
        }
    }
    cases
}

fn random_case(random: &mut Random) -> Case {
    let mut start = random_start(random);
    let from = match random.below(8) {
        0 => From::New,
        1..=4 => From::Loaded,
        _ => From::Built,
    };
    if random.one_in(32) {
        start.fields = random.pick(&bad_fields(start.fields));
    }
    if matches!(from, From::Built) && random.one_in(6) {
        start.wrong = Wrong::random(random);
    }
    let written = random.one_in(2);
    let mut steps: Vec<Step> = (0..random.within(1..=8))
        .map(|_| random_step(random, written))
        .collect();
    if matches!(from, From::New) {
        steps[0].rows = match random.below(2) {
            0 if !written => random.pick(&[Rows::Up(15), Rows::Any]),
            _ => Rows::All(GREATEST),
        };
    }
    case(start, from, &steps)
}

/// An upgrade of any sort, or if all of a ladder's streams are to be written, one that leaves the tile
/// on the way to its target.
fn random_step(random: &mut Random, written: bool) -> Step {
    let rows = match random.below(16) {
        0 => Rows::Up(random.pick(&[1, 3, 15])),
        1 => Rows::Any,
        2 => Rows::All(random.below(GREATEST + 1)),
        _ => Rows::Down(random.pick(&[0, 1, 1, 1, 3, 3, 7])),
    };
    let streams = match random.below(3) {
        _ if written => [Streams::Written; 3],
        0 => core::array::from_fn(|_| {
            random.pick(&[Streams::None, Streams::Written, Streams::Cut, Streams::Any])
        }),
        1 => [Streams::Any; 3],
        _ => [Streams::Written; 3],
    };
    Step {
        rows,
        bad: random.one_in(12).then(|| random.below(30)),
        streams,
        lengths: random.pick(&[5, 6, 7, 7, 8, 8, 9, 10, 12, 14]),
    }
}
