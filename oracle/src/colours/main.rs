//! The colours of the Rust beside those of the factors that are commonly cited for MS-RDPRFX: the largest
//! difference in a byte, over all samples of a picture and over all of sixteen bits.

use std::ops::RangeInclusive;

use oracle::progressive::reach::ycbcr_to_rgb;

/// What is added to y + 128 for a channel, in millionths.
type Cited = fn(i64, i64) -> i64;

/// A channel: its place in a pixel, its name, the cited factors, whether it depends on cb and on cr.
const CHANNELS: [(usize, &str, Cited, bool, bool); 3] = [
    (0, "red", |_, cr| 1_402_525 * cr, false, true),
    (
        1,
        "green",
        |cb, cr| -343_730 * cb - 714_401 * cr,
        true,
        true,
    ),
    (2, "blue", |cb, _| 1_769_905 * cb, true, false),
];

/// What the Rust adds to y + 128, before it clamps.
fn added(channel: usize, cb: i64, cr: i64) -> i64 {
    match channel {
        0 => (cr * 91881 + 32768) >> 16,
        1 => -((cb * 22554 + cr * 46802 + 32768) >> 16),
        _ => (cb * 116130 + 32768) >> 16,
    }
}

/// The largest difference of a channel with samples in `range`, and the y, cb, cr that show it.
fn largest(
    (channel, _, cited, by_cb, by_cr): (usize, &str, Cited, bool, bool),
    range: RangeInclusive<i16>,
) -> (i64, [i16; 3], u8, i64) {
    let of = |used: bool| if used { range.clone() } else { 0..=0 };
    let mut found = (0, [0; 3], 0, 0);
    for cb in of(by_cb) {
        for cr in of(by_cr) {
            let (b, r) = (i64::from(cb), i64::from(cr));
            let ours = added(channel, b, r);
            let theirs = (cited(b, r) + 500_000).div_euclid(1_000_000);
            // The bytes differ by no more than the sums. The y that brings the lower sum to 0, or the higher to
            // 255, shows all of it, if there is such a y.
            if (ours - theirs).abs() <= found.0 {
                continue;
            }
            for wanted in [-128 - ours.min(theirs), 127 - ours.max(theirs)] {
                let y = wanted.clamp(i64::from(*range.start()), i64::from(*range.end()));
                let y = i16::try_from(y).expect("it lies in the range");
                let byte = ycbcr_to_rgb(y, cb, cr)[channel];
                let other = (i64::from(y) + 128 + theirs).clamp(0, 255);
                let difference = (i64::from(byte) - other).abs();
                if difference > found.0 {
                    found = (difference, [y, cb, cr], byte, other);
                }
            }
        }
    }
    found
}

fn main() {
    for range in [-128..=127, i16::MIN..=i16::MAX] {
        println!("y, cb, cr in {}..{}", range.start(), range.end());
        for channel in CHANNELS {
            let (difference, [y, cb, cr], byte, other) = largest(channel, range.clone());
            let name = channel.1;
            println!(
                "  {name}: {difference}, at y {y}, cb {cb}, cr {cr}: the Rust {byte}, cited {other}"
            );
        }
    }
}
