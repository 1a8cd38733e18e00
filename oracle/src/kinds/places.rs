//! Kind 22: the band that a place belongs to. The text has no such call, so the answer is by a form of
//! its own: the ten rows are walked, and a place belongs to the one whose offset and count enclose it.

use std::io;

use oracle::progressive::reach;

use crate::record::{Kind, Recording};

pub const BAND_OF_PLACE: Kind = Kind {
    number: 22,
    inputs: 9,
    size: 10,
};

/// The number that stands for no band.
const NO_BAND: u8 = 10;

/// Width, height and offset of each band: HL1 LH1 HH1 HL2 LH2 HH2 HL3 LH3 HH3 LL3.
type Rows = [[usize; 3]; 10];

const EXTRAPOLATE: Rows = [
    [31, 33, 0],
    [33, 31, 1023],
    [31, 31, 2046],
    [16, 17, 3007],
    [17, 16, 3279],
    [16, 16, 3551],
    [8, 9, 3807],
    [9, 8, 3879],
    [8, 8, 3951],
    [9, 9, 4015],
];

const STANDARD: Rows = [
    [32, 32, 0],
    [32, 32, 1024],
    [32, 32, 2048],
    [16, 16, 3072],
    [16, 16, 3328],
    [16, 16, 3584],
    [8, 8, 3840],
    [8, 8, 3904],
    [8, 8, 3968],
    [8, 8, 4032],
];

/// Places past the last one; of some the low 12, 16 or 32 bits are a place.
const PAST: [u64; 14] = [
    4096,
    4097,
    5119,
    8191,
    8192,
    65535,
    65536,
    (1 << 32) - 1,
    1 << 32,
    (1 << 32) + 4015,
    (1 << 63) - 1,
    1 << 63,
    u64::MAX - 4095,
    u64::MAX,
];

/// The number of a place's band; 10 if no row encloses it.
pub fn band_of_place(use_reduce_extrapolate: bool, place: u64) -> u8 {
    let rows = if use_reduce_extrapolate {
        EXTRAPOLATE
    } else {
        STANDARD
    };
    for (number, [width, height, offset]) in (0..).zip(rows) {
        if (offset as u64..(offset + width * height) as u64).contains(&place) {
            return number;
        }
    }
    NO_BAND
}

pub fn record_all(recording: &mut Recording<'_>) -> io::Result<()> {
    recording.kind(BAND_OF_PLACE.number, places)
}

/// Every place of both layouts, places past the last one, and random ones.
fn places(recording: &mut Recording<'_>) -> io::Result<()> {
    for (rows, use_reduce_extrapolate) in [(STANDARD, false), (EXTRAPOLATE, true)] {
        let text = reach::get_band_layout(use_reduce_extrapolate);
        let text = text.map(|band| [band.width, band.height, band.offset]);
        assert_eq!(rows, text, "the rows are those of the text");
    }
    let mut random = recording.random(BAND_OF_PLACE.number);
    let count = recording.scaled(100);
    let mut cases = recording.cases(BAND_OF_PLACE);
    for use_reduce_extrapolate in [false, true] {
        let directed = (0..4096).chain(PAST);
        let random = (0..count).map(|_| random.value::<i64>().cast_unsigned());
        for place in directed.chain(random) {
            cases.add(&[
                &[use_reduce_extrapolate.into()],
                &place.to_le_bytes(),
                &[band_of_place(use_reduce_extrapolate, place)],
            ])?;
        }
    }
    cases.finish()
}
