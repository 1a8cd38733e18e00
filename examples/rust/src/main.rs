//! A tile with a minus stroke is loaded coarse and sharpened by two upgrade passes, which the writer writes
//! and the tile reads; and by one of which half arrives. `expected` has what the program prints.

use tarjimp::dwt_extrapolate::band_layout;
use tarjimp::progressive::{
    COEFFICIENTS_PER_COMPONENT, TileState, bands_of_places, encode_upgrade_pass_symmetric,
};
use tarjimp::{ComponentCodecQuant, Error};

type Component = [i16; COEFFICIENTS_PER_COMPONENT];

/// The layout that has pixels.
const USE_REDUCE_EXTRAPOLATE: bool = true;

fn main() -> Result<(), Error> {
    let target = stroke();
    println!("coefficients by band: {:?}", by_band(&target));
    let grey = [0; COEFFICIENTS_PER_COMPONENT];

    // What a first pass brings: the bits from position 5 on.
    let coarse = cut(&target, 5);
    let sign = coarse.map(|coefficient| coefficient.signum() as i8);
    let no_sign = [0; COEFFICIENTS_PER_COMPONENT];
    let mut tile = TileState::load(
        [&coarse, &grey, &grey],
        [&sign, &no_sign, &no_sign],
        [all(5); 3],
        [all(6); 3],
        USE_REDUCE_EXTRAPOLATE,
    )?;
    show(&tile)?;
    let mut half = tile.clone();

    for (position, quality) in [(2, 60), (0, 100)] {
        let (srl, raw) = luma_pass(&tile, &target, position)?;
        upgrade(&mut tile, &srl, &raw, position, quality)?;
    }
    assert_eq!(tile.coefficients[0], target, "all bits have arrived");

    println!("half of the first pass:");
    let (srl, raw) = luma_pass(&half, &target, 2)?;
    let (srl, raw) = (&srl[..srl.len() / 2], &raw[..raw.len() / 2]);
    upgrade(&mut half, srl, raw, 2, 60)?;

    let refused = tile.decode_upgrade([&[]; 3], [&[]; 3], [all(16); 3], 100);
    explain("positions 16", refused);
    explain("17 pixels", tile.reconstruct_to_rgba(&mut [0; 68]));
    explain("7 in 2 bits", tarjimp::srl::encode_srl(&[7], 2));
    Ok(())
}

/// The streams that bring the luma component of a tile to a position: from what it has to the picture itself,
/// which the writer cuts, a negative coefficient like its positive twin.
fn luma_pass(
    tile: &TileState,
    target: &Component,
    position: u8,
) -> Result<(Vec<u8>, Vec<u8>), Error> {
    encode_upgrade_pass_symmetric(
        target,
        &tile.coefficients[0],
        &tile.prog_quant[0],
        &all(position),
        &tile.sign[0],
        USE_REDUCE_EXTRAPOLATE,
    )
}

/// Upgrades the luma component of a tile; those of chroma stay at their positions. Bits behind the end of
/// a stream are zeros, and counted.
fn upgrade(
    tile: &mut TileState,
    srl: &[u8],
    raw: &[u8],
    position: u8,
    quality: u8,
) -> Result<(), Error> {
    let rows = [all(position), tile.prog_quant[1], tile.prog_quant[2]];
    let missing = tile.decode_upgrade_counted([srl, &[], &[]], [raw, &[], &[]], rows, quality)?;
    println!(
        "{} bytes SRL, {} bits missing; {} bytes raw, {} bits missing",
        srl.len(),
        missing.srl,
        raw.len(),
        missing.raw
    );
    show(tile)
}

/// The same number for every band.
fn all(number: u8) -> ComponentCodecQuant {
    ComponentCodecQuant::of_bands([number; 10])
}

/// A dark stroke over the middle of a bright tile: the bottom band has the ground and a dark row, and two
/// other bands sharpen its edges.
fn stroke() -> Component {
    let bands = band_layout();
    let [hl3, lh3, ll3] = [bands[6], bands[7], bands[9]];
    let mut target = [0; COEFFICIENTS_PER_COMPONENT];
    target[ll3.offset..].fill(101);
    let row = ll3.offset + 4 * ll3.width;
    target[row + 1..row + 8].fill(-23);
    let row = lh3.offset + 3 * lh3.width;
    target[row + 1..row + 8].fill(-18);
    target[row + lh3.width + 1..row + lh3.width + 8].fill(27);
    let row = hl3.offset + 4 * hl3.width;
    (target[row], target[row + 7]) = (-9, 13);
    target
}

/// How many coefficients of each band are not 0.
fn by_band(target: &Component) -> [usize; 10] {
    let mut counts = [0; 10];
    for (coefficient, band) in target.iter().zip(bands_of_places(USE_REDUCE_EXTRAPOLATE)) {
        counts[usize::from(band)] += usize::from(*coefficient != 0);
    }
    counts
}

/// What is known of coefficients at a position: the bits of their magnitudes from there on, and of the bottom
/// band, number 9, the floor.
fn cut(target: &Component, position: u8) -> Component {
    let bands = bands_of_places(USE_REDUCE_EXTRAPOLATE);
    std::array::from_fn(|place| match (bands[place], target[place]) {
        (9, coefficient) => coefficient >> position << position,
        (_, coefficient) => coefficient.signum() * (coefficient.abs() >> position << position),
    })
}

/// A line for a tile: its pass, how much is undecided, and the brightness down its middle.
fn show(tile: &TileState) -> Result<(), Error> {
    let mut pixels = [0; 64 * 64 * 4];
    tile.reconstruct_to_rgba(&mut pixels)?;
    // The bottom band, which is the last one, is sent without signs.
    let undecided: u16 = tile.zero_signs()[0][..9].iter().sum();
    let down = (0..64).step_by(6).map(|y| pixels[4 * (64 * y + 32)]);
    let down: Vec<String> = down.map(|red| format!("{red:>3}")).collect();
    println!(
        "pass {}, quality {:>3}, {undecided} places undecided: {}",
        tile.pass,
        tile.quality,
        down.join(" ")
    );
    Ok(())
}

/// A line for a call that is refused.
fn explain<T>(what: &str, refused: Result<T, Error>) {
    match refused {
        Ok(_) => println!("{what}: accepted"),
        Err(error) => println!("{what}: refused with {}: {error}", error.number()),
    }
}
