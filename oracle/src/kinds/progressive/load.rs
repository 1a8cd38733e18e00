//! Kind 39: a loaded tile. The text has no loading call: the recorder makes the tile by its fields.

use std::io;

use oracle::progressive::TileState;
use oracle::random::Random;

use super::tile::{Start, Tile, bad_fields, digest, random_start, typical};
use super::{COMPONENT, GREATEST, PLACES, record_kind, refusal, short};
use crate::record::{Case, Recording};

pub const TILE_LOAD: u8 = 39;

/// How many elements are lent: coefficients and signs of the first component, then of the others.
type Lengths = [usize; 6];

/// Records all cases; the answer is the cases whose answers kind 35 makes wrong.
pub fn record_all(recording: &mut Recording<'_>) -> io::Result<Vec<(u8, Case)>> {
    record_kind(
        recording,
        TILE_LOAD,
        vec![case(typical(1), [COMPONENT; 6])],
        &directed(),
        20,
        random_case,
    )
}

fn case(start: Start, lengths: Lengths) -> Case {
    let (number, tile) = load(&start, lengths);
    let mut case = Case::default();
    case.given(&start.bytes());
    case.given(&lengths.map(short).concat());
    case.answer(&[number]);
    case.answer(&digest(&tile).to_le_bytes());
    case
}

/// The refusal, or 0, and the tile: a fresh one where it is refused.
pub fn load(start: &Start, lengths: Lengths) -> (u8, Tile) {
    let rows = [start.fields.prog_quant, start.fields.base_quant].concat();
    match refusal(&lengths, &rows) {
        0 => (0, start.loaded()),
        number => (number, Tile::of(TileState::new())),
    }
}

/// Each slice too short and longer; a number above 15 at each place; both at once.
fn directed() -> Vec<Case> {
    let mut cases = Vec::new();
    for slice in 0..6 {
        for length in [COMPONENT - 1, COMPONENT + 1 + slice] {
            let mut lengths = [COMPONENT; 6];
            lengths[slice] = length;
            cases.push(case(typical(2 + slice as u64), lengths));
        }
    }
    let typical = typical(9);
    for length in [0, COMPONENT - 1, PLACES] {
        cases.push(case(typical, [length; 6]));
    }
    for fields in bad_fields(typical.fields) {
        cases.push(case(Start { fields, ..typical }, [COMPONENT; 6]));
    }
    let mut bad = typical;
    bad.fields.prog_quant = [[200; 10]; 3];
    cases.push(case(bad, [PLACES; 6]));
    cases.push(case(bad, [PLACES, PLACES, PLACES, PLACES, PLACES, 4095]));
    let mut most = typical;
    most.fields.prog_quant = [[GREATEST; 10]; 3];
    most.fields.base_quant = [[GREATEST; 10]; 3];
    cases.push(case(most, [PLACES; 6]));
    cases
}

fn random_case(random: &mut Random) -> Case {
    let mut start = random_start(random);
    let mut lengths = [COMPONENT; 6];
    if random.one_in(4) {
        start.fields = random.pick(&bad_fields(start.fields));
    }
    if random.one_in(2) {
        let slice = random.within(0..=5);
        lengths[slice] = random.pick(&[0, COMPONENT - 1, COMPONENT + 1, COMPONENT + 100, PLACES]);
    }
    case(start, lengths)
}
