//! Tiles sharpened by the symmetric writer in any number of passes end at the target, cut at the last positions.

use tarjimp::ComponentCodecQuant;
use tarjimp::progressive::{
    MissingBits, TileState, bands_of_places, encode_upgrade_pass, encode_upgrade_pass_symmetric,
};

type Component = [i16; 4096];
type Rows = [[u8; 10]; 3];

const LL3: u8 = 9;

/// A generator of numbers, the same at each run.
struct Numbers(u64);

impl Numbers {
    fn next(&mut self) -> u64 {
        self.0 = self.0.wrapping_add(0x9E37_79B9_7F4A_7C15);
        let mut word = self.0;
        word = (word ^ (word >> 30)).wrapping_mul(0xBF58_476D_1CE4_E5B9);
        word = (word ^ (word >> 27)).wrapping_mul(0x94D0_49BB_1331_11EB);
        word ^ (word >> 31)
    }

    /// Any number of sixteen bits.
    fn sixteen_bits(&mut self) -> i16 {
        let bytes = self.next().to_le_bytes();
        i16::from_le_bytes([bytes[0], bytes[1]])
    }

    /// A number from 0 to `most`.
    fn up_to(&mut self, most: u8) -> u8 {
        u8::try_from(self.next() % (u64::from(most) + 1)).expect("it is no more than most")
    }
}

/// Numbers of sixteen bits, one of `sparse` of which is not 0, with the extremes in LL3 and outside.
fn target(numbers: &mut Numbers, sparse: u64) -> [Component; 3] {
    let mut all = [[0; 4096]; 3];
    for component in &mut all {
        for c in component.iter_mut() {
            if numbers.next().is_multiple_of(sparse) {
                let shift = numbers.up_to(15);
                *c = numbers.sixteen_bits() >> shift;
            }
        }
        for (place, c) in [
            (0, -32768),
            (1, 32767),
            (2, -7),
            (3, 1),
            (4093, -32768),
            (4094, -7),
            (4095, 32767),
        ] {
            component[place] = c;
        }
    }
    all
}

/// A coefficient of a band without the bits below its position: in LL3 by floor, elsewhere towards zero.
fn cut(c: i16, band: u8, row: &[u8; 10]) -> i16 {
    let step = 1i32 << row[usize::from(band)];
    let c = i32::from(c);
    let left = if band == LL3 {
        c.div_euclid(step) * step
    } else {
        c / step * step
    };
    i16::try_from(left).expect("a cut has sixteen bits")
}

/// Three rows, none of which has a position above that of `above`.
fn lower(numbers: &mut Numbers, above: &Rows) -> Rows {
    above.map(|row| row.map(|position| numbers.up_to(position)))
}

/// Three rows between two.
fn between(numbers: &mut Numbers, above: &Rows, below: &Rows) -> Rows {
    let mut rows = *below;
    for (row, high) in rows.iter_mut().zip(above) {
        for (position, high) in row.iter_mut().zip(high) {
            *position += numbers.up_to(high - *position);
        }
    }
    rows
}

fn quants(rows: &Rows) -> [ComponentCodecQuant; 3] {
    rows.map(ComponentCodecQuant::of_bands)
}

/// The target cut at rows, with the signs of LL3 that are given.
fn cut_tile(
    target: &[Component; 3],
    rows: &Rows,
    bottom: &[[i8; 4096]; 3],
    extrapolate: bool,
) -> TileState {
    let bands = bands_of_places(extrapolate);
    let (mut coefficients, mut sign) = ([[0; 4096]; 3], *bottom);
    for k in 0..3 {
        for i in 0..4096 {
            coefficients[k][i] = cut(target[k][i], bands[i], &rows[k]);
            if bands[i] != LL3 {
                sign[k][i] = i8::try_from(coefficients[k][i].signum()).expect("a sign");
            }
        }
    }
    let lent = (
        coefficients.each_ref().map(|c| &c[..]),
        sign.each_ref().map(|s| &s[..]),
    );
    TileState::load(
        lent.0,
        lent.1,
        quants(rows),
        quants(&[[6; 10]; 3]),
        extrapolate,
    )
    .expect("rows are in the domain")
}

/// A pass to rows; the writer of a component is given what `towards` says of it.
fn sharpen(tile: &mut TileState, rows: &Rows, towards: impl Fn(usize) -> Component) {
    let prog_quants = quants(rows);
    let streams: [(Vec<u8>, Vec<u8>); 3] = std::array::from_fn(|k| {
        encode_upgrade_pass_symmetric(
            &towards(k),
            &tile.coefficients[k],
            &tile.prog_quant[k],
            &prog_quants[k],
            &tile.sign[k],
            tile.use_reduce_extrapolate,
        )
        .expect("no writing call is refused")
    });
    let missing = tile
        .decode_upgrade_counted(
            streams.each_ref().map(|(srl, _)| &srl[..]),
            streams.each_ref().map(|(_, raw)| &raw[..]),
            prog_quants,
            100,
        )
        .expect("no reading call is refused");
    assert_eq!(missing, MissingBits { srl: 0, raw: 0 });
}

/// From a tile to the last rows in some passes; in each the writer is given the target, or the target cut already.
fn climb(
    numbers: &mut Numbers,
    start: &TileState,
    target: &[Component; 3],
    last: &Rows,
    passes: u8,
) -> TileState {
    let mut tile = start.clone();
    let bands = bands_of_places(tile.use_reduce_extrapolate);
    for pass in 0..passes {
        let here = tile.prog_quant.map(|quant| quant.bands());
        let rows = if pass + 1 == passes {
            *last
        } else {
            between(numbers, &here, last)
        };
        let is_cut = numbers.up_to(1) == 1;
        sharpen(&mut tile, &rows, |k| match is_cut {
            true => std::array::from_fn(|i| cut(target[k][i], bands[i], &rows[k])),
            false => target[k],
        });
    }
    tile
}

#[test]
fn any_number_of_passes() {
    let mut numbers = Numbers(14);
    for case in 0..240 {
        let extrapolate = case % 2 == 0;
        let target = target(&mut numbers, [1, 3, 20, 400][case % 4]);
        let first = lower(&mut numbers, &[[15; 10]; 3]);
        let last = if case % 3 == 0 {
            [[0; 10]; 3]
        } else {
            lower(&mut numbers, &first)
        };
        let bottom = std::array::from_fn(|_| {
            std::array::from_fn(|_| (numbers.next() >> 56).to_le_bytes()[0].cast_signed())
        });
        let start = cut_tile(&target, &first, &bottom, extrapolate);
        let mut end = cut_tile(&target, &last, &bottom, extrapolate);
        end.quality = 100;
        for _ in 0..2 {
            let passes = 1 + numbers.up_to(7);
            let tile = climb(&mut numbers, &start, &target, &last, passes);
            end.pass = 1 + u16::from(passes);
            assert!(tile == end, "case {case}, {passes} passes");
        }
        if last == [[0; 10]; 3] {
            assert!(end.coefficients == target, "case {case}");
        }
    }
}

#[test]
fn no_pass() {
    let mut numbers = Numbers(15);
    let target = target(&mut numbers, 3);
    let start = cut_tile(&target, &[[5; 10]; 3], &[[0; 4096]; 3], true);
    assert!(climb(&mut numbers, &start, &target, &[[5; 10]; 3], 0) == start);
    // A pass to the same rows sends nothing.
    let same = quants(&[[5; 10]; 3]);
    let sent = encode_upgrade_pass_symmetric(
        &target[0],
        &start.coefficients[0],
        &same[0],
        &same[0],
        &start.sign[0],
        true,
    );
    assert_eq!(sent, Ok((vec![], vec![])));
}

#[test]
fn the_other_rule() {
    // By the source's rule -7 is refused on its way from position 3 to 1, and sent whole in one pass to 0.
    let mut target = [0; 4096];
    target[100] = -7;
    let at = |position| ComponentCodecQuant::of_bands([position; 10]);
    let to = |position| {
        encode_upgrade_pass(&target, &[0; 4096], &at(3), &at(position), &[0; 4096], true)
    };
    assert_eq!(to(1).map_err(|error| error.number()), Err(5));
    assert!(to(0).is_ok());
}
