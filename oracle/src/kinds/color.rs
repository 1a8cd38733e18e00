//! Kinds 43 and 44: the colours of a pixel, `ycbcr_to_rgb`.

use std::io;

use oracle::progressive::reach;
use oracle::random::{Random, limits};

use crate::digest::mixed;
use crate::record::{Cases, Kind, Recording};

pub const YCBCR_TO_RGB: Kind = Kind {
    number: 43,
    inputs: 6,
    size: 9,
};
pub const YCBCR_ROW: Kind = Kind {
    number: 44,
    inputs: 4,
    size: 12,
};

/// The values of which every three are tried.
const NINE: [i16; 9] = [-32768, -129, -128, -1, 0, 1, 127, 128, 32767];

/// Those of which every two are tried as cb and cr, with every y. At 17002 a factor of red or of blue
/// that is one less shows, and at 17016 one that is one more.
const GRID: [i16; 21] = [
    -32768, -32767, -16384, -1000, -129, -128, -127, -64, -1, 0, 1, 64, 127, 128, 129, 1000, 16384,
    17002, 17016, 32766, 32767,
];

pub fn record_all(recording: &mut Recording<'_>) -> io::Result<()> {
    recording.kind(YCBCR_TO_RGB.number, ycbcr_to_rgb)?;
    recording.kind(YCBCR_ROW.number, ycbcr_row)
}

fn ycbcr_to_rgb(recording: &mut Recording<'_>) -> io::Result<()> {
    let mut random = recording.random(YCBCR_TO_RGB.number);
    let count = recording.scaled(500);
    let mut cases = recording.cases(YCBCR_TO_RGB);
    add_pixel(&mut cases, 0, 0, 100)?;
    for y in NINE {
        for cb in NINE {
            for cr in NINE {
                add_pixel(&mut cases, y, cb, cr)?;
            }
        }
    }
    for _ in 0..count {
        let [y, cb, cr] = random_pixel(&mut random);
        add_pixel(&mut cases, y, cb, cr)?;
    }
    cases.finish()
}

fn add_pixel(cases: &mut Cases<'_, '_>, y: i16, cb: i16, cr: i16) -> io::Result<()> {
    cases.add(&[
        &y.to_le_bytes(),
        &cb.to_le_bytes(),
        &cr.to_le_bytes(),
        &reach::ycbcr_to_rgb(y, cb, cr),
    ])
}

/// Half of them such that most colours are not clamped.
fn random_pixel(random: &mut Random) -> [i16; 3] {
    if random.one_in(2) {
        return [(); 3].map(|()| random.value());
    }
    [160, 90, 90].map(|most| random.within(0..=2 * most) as i16 - most as i16)
}

/// Every two of the grid's values; at a larger scale every two limits too.
fn ycbcr_row(recording: &mut Recording<'_>) -> io::Result<()> {
    let mut random = recording.random(YCBCR_ROW.number);
    let count = recording.scaled(20);
    let mut values = GRID.to_vec();
    if recording.scaled(1) > 1 {
        values.extend(limits::<i16>());
        values.sort_unstable();
        values.dedup();
    }
    let mut cases = recording.cases(YCBCR_ROW);
    for &cb in &values {
        for &cr in &values {
            add_row(&mut cases, cb, cr)?;
        }
    }
    for _ in 0..count {
        add_row(&mut cases, random.value(), random.value())?;
    }
    cases.finish()
}

/// A digest with one pixel more.
pub fn with_pixel(digest: u64, [red, green, blue]: [u8; 3]) -> u64 {
    mixed(digest, u32::from_le_bytes([red, green, blue, 0]).into())
}

/// Every y, in the order of its bits as an unsigned number.
fn add_row(cases: &mut Cases<'_, '_>, cb: i16, cr: i16) -> io::Result<()> {
    let digest = (0..=u16::MAX).fold(0, |digest, y| {
        with_pixel(digest, reach::ycbcr_to_rgb(y.cast_signed(), cb, cr))
    });
    cases.add(&[&cb.to_le_bytes(), &cr.to_le_bytes(), &digest.to_le_bytes()])
}
