//! Kinds 20 and 21: where the bands of a component are.

use std::io;

use oracle::progressive::reach;

use crate::record::{Kind, Recording};

pub const BAND: Kind = Kind {
    number: 20,
    inputs: 2,
    size: 10,
};
pub const LL3_OFFSET: Kind = Kind {
    number: 21,
    inputs: 1,
    size: 3,
};

/// The two layouts, as the field `use_reduce_extrapolate` of a case and of the text.
const LAYOUTS: [(u8, bool); 2] = [(0, false), (1, true)];

pub fn record_all(recording: &mut Recording<'_>) -> io::Result<()> {
    recording.kind(BAND.number, band)?;
    recording.kind(LL3_OFFSET.number, ll3_offset)
}

fn band(recording: &mut Recording<'_>) -> io::Result<()> {
    assert_eq!(
        reach::get_band_layout(false),
        reach::standard_band_layout(),
        "the layout without extrapolation is the standard one"
    );
    let mut cases = recording.cases(BAND);
    for (flag, use_reduce_extrapolate) in LAYOUTS {
        for (index, band) in (0u8..).zip(reach::get_band_layout(use_reduce_extrapolate)) {
            cases.add(&[
                &[flag, index],
                &field(band.width),
                &field(band.height),
                &field(band.offset),
                &field(band.count()),
            ])?;
        }
    }
    cases.finish()
}

fn ll3_offset(recording: &mut Recording<'_>) -> io::Result<()> {
    let mut cases = recording.cases(LL3_OFFSET);
    for (flag, use_reduce_extrapolate) in LAYOUTS {
        let answer = reach::ll3_offset(use_reduce_extrapolate);
        cases.add(&[&[flag], &field(answer)])?;
    }
    cases.finish()
}

fn field(number: usize) -> [u8; 2] {
    u16::try_from(number)
        .expect("a component has 4096 places")
        .to_le_bytes()
}
