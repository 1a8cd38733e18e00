// Calls as a program that uses the source makes them. This file is included where `use` lines name its
// items: see `compare.rs`.

use oracle::random::Random;

use crate::notes::Notes;

/// A component and its signs.
type Component = (Vec<i16>, Vec<i8>);

/// Numbers for the bands in band order.
fn quant(row: [u8; NUM_BANDS]) -> ComponentCodecQuant {
    let [hl1, lh1, hh1, hl2, lh2, hh2, hl3, lh3, hh3, ll3] = row;
    ComponentCodecQuant {
        ll3,
        hl3,
        lh3,
        hh3,
        hl2,
        lh2,
        hh2,
        hl1,
        lh1,
        hh1,
    }
}

/// Positions: mostly near each other.
fn random_row(random: &mut Random) -> [u8; NUM_BANDS] {
    let lowest = random.below(16);
    std::array::from_fn(|_| match random.below(8) {
        0 => random.below(16),
        _ => (lowest + random.below(4)).min(15),
    })
}

/// Positions below those of a row: mostly a few bits.
fn lower_row(random: &mut Random, row: [u8; NUM_BANDS]) -> [u8; NUM_BANDS] {
    let widest = random.pick(&[1, 2, 3, 6]);
    row.map(|position| match random.below(16) {
        0 => random.below(16),
        _ => position.saturating_sub(random.below(widest + 1)),
    })
}

/// Values with magnitudes of a width, few of them above it; many zeros.
fn random_values(random: &mut Random, num_bits: u8, count: usize) -> Vec<i16> {
    let maximum = (1i32 << num_bits.clamp(1, 15)) - 1;
    let value = |random: &mut Random| {
        let magnitude = match random.below(200) {
            0 => maximum + 1,
            1 => maximum,
            _ => 1 + random.within(0..=maximum.min(12) as usize - 1) as i32,
        };
        match random.below(5) {
            0 => -magnitude as i16,
            1 => magnitude.min(32767) as i16,
            _ => 0,
        }
    };
    (0..count).map(|_| value(random)).collect()
}

/// A width that a value can have, or at times one that it cannot.
fn random_width(random: &mut Random) -> u8 {
    match random.below(12) {
        0 => random.pick(&[0, 16, 17, 255]),
        _ => 1 + random.below(15).min(random.below(15)),
    }
}

/// Coefficients and signs: such as a pass leaves, or any.
fn random_component(random: &mut Random) -> Component {
    let plain = random.below(3) != 0;
    let drop = random.below(16);
    let density = random.within(1..=255);
    let length = COEFFICIENTS_PER_COMPONENT + random.pick(&[0, 0, 0, 1, 50]);
    let mut coefficients: Vec<i16> = (0..length)
        .map(|_| match random.within(0..=255) <= density {
            true => (random.word() as i16) >> drop,
            false => 0,
        })
        .collect();
    if random.one_in(8) {
        coefficients[random.within(0..=4095)] = i16::MIN;
    }
    let sign = coefficients
        .iter()
        .map(|coefficient| match coefficient.signum() {
            _ if !plain => random.word() as i8,
            1 => SIGN_POSITIVE,
            -1 => SIGN_NEGATIVE,
            _ => SIGN_ZERO,
        })
        .collect();
    (coefficients, sign)
}

/// A component without the bits below the positions of a row, and its signs.
fn cut(target: &[i16], row: [u8; NUM_BANDS], use_reduce_extrapolate: bool) -> Component {
    let mut coefficients = target.to_vec();
    let mut place = 0;
    for (index, band) in band_layout().iter().enumerate() {
        let count = match use_reduce_extrapolate {
            true => band.count(),
            false => [1024, 256, 64][(index / 3).min(2)],
        };
        for coefficient in &mut coefficients[place..place + count] {
            let magnitude = coefficient.unsigned_abs() >> row[index] << row[index];
            let value = i32::from(magnitude) * i32::from(coefficient.signum());
            *coefficient = value.clamp(-32768, 32767) as i16;
        }
        place += count;
    }
    let sign = coefficients.iter().map(|value| value.signum() as i8);
    let sign = sign.collect();
    (coefficients, sign)
}

/// A refusal is an error like others.
fn is_an_error(error: &dyn std::error::Error) -> bool {
    !error.to_string().is_empty() && error.source().is_none()
}

pub fn constants(_: &mut Random, notes: &mut Notes) {
    notes.note("coefficients", COEFFICIENTS_PER_COMPONENT);
    notes.note("bands", NUM_BANDS);
    notes.note("dimension", TILE_DIM);
    notes.note("bytes", TILE_BYTES_PER_PIXEL);
    notes.note("signs", [SIGN_ZERO, SIGN_POSITIVE, SIGN_NEGATIVE]);
    let bands: [BandInfo; 10] = band_layout();
    notes.note("layout", bands);
    notes.note("counts", bands.map(|band| band.count()));
    notes.note("lossless", ComponentCodecQuant::LOSSLESS);
    for tile in [TileState::new(), TileState::default()] {
        note_tile(notes, &tile);
    }
    for error in [
        SrlError::InvalidBitCount(16),
        SrlError::ZeroRunTooLong,
        SrlError::MagnitudeOutOfRange {
            magnitude: 4,
            max: 3,
        },
    ] {
        let copy = error;
        notes.note("error", (error, error == copy, is_an_error(&error)));
    }
}

pub fn quants(random: &mut Random, notes: &mut Notes) {
    let row = std::array::from_fn(|_| random.word() as u8);
    let quant = quant(row);
    notes.note("fields", quant);
    for index in 0..NUM_BANDS {
        notes.note("band", quant.for_band(index));
    }
    notes.note("equal", quant == ComponentCodecQuant::LOSSLESS);
}

pub fn srl_streams(random: &mut Random, notes: &mut Notes) {
    let num_bits = random_width(random);
    let count = random.within(0..=60);
    let values = random_values(random, num_bits, count);
    let written = encode_srl(&values, num_bits);
    if notes.answer("encode_srl", &written) {
        let stream = written.expect("it is accepted");
        notes.answer("read back", &decode_srl(&stream, count, num_bits));
        let other = random_width(random);
        notes.answer("other width", &decode_srl(&stream, count + 9, other));
    }
    let length = random.within(0..=40);
    let stream = random.bytes(length);
    notes.answer("any bytes", &decode_srl(&stream, 100, num_bits));
}

/// One stream, read in several calls. After a refusal the source's decoder has moved on.
pub fn srl_decoders(random: &mut Random, notes: &mut Notes) {
    let length = random.within(0..=60);
    let mut stream = random.bytes(length);
    if random.one_in(2) {
        let mask = random.word() as u8 & random.word() as u8;
        stream.iter_mut().for_each(|byte| *byte &= mask);
    }
    let mut decoder = SrlDecoder::new(&stream).expect("every stream is one");
    for _ in 0..random.within(1..=8) {
        let num_values = random.pick(&[0, 1, 2, 5, 30, 300]);
        let answer = decoder.decode(num_values, random_width(random));
        if !notes.answer("decode", &answer) {
            return;
        }
    }
}

/// One stream, written in several calls and read back. After a refusal the source's encoder has moved on.
pub fn srl_encoders(random: &mut Random, notes: &mut Notes) {
    let mut encoder = match random.one_in(2) {
        true => SrlEncoder::new(),
        false => SrlEncoder::default(),
    };
    let mut written = Vec::new();
    for _ in 0..random.within(0..=8) {
        let num_bits = random_width(random);
        let count = random.within(0..=20);
        let values = random_values(random, num_bits, count);
        if !notes.answer("encode", &encoder.encode(&values, num_bits)) {
            return;
        }
        written.push((values.len(), num_bits));
    }
    let stream = encoder.finish();
    notes.answer("finish", &stream);
    let stream = stream.expect("the zeros are few");
    let mut decoder = SrlDecoder::new(&stream).expect("every stream is one");
    for (count, num_bits) in written {
        notes.answer("decode", &decoder.decode(count, num_bits));
    }
}

/// Zeros up to their limit and above it, in one call and across calls.
pub fn zero_runs(random: &mut Random, notes: &mut Notes) {
    let first = random.within(4000..=4097);
    let second = random.within(0..=97);
    let mut encoder = SrlEncoder::new();
    if !notes.answer("first zeros", &encoder.encode(&vec![0; first], 3)) {
        return;
    }
    let mut values = vec![0; second];
    values.push(random.pick(&[1, -7, 7, 8, i16::MIN]));
    if notes.answer("second zeros", &encoder.encode(&values, 3)) {
        notes.answer("finish", &encoder.finish());
    }
}

pub fn passes_read(random: &mut Random, notes: &mut Notes) {
    let (mut coefficients, mut sign) = random_component(random);
    let prev = random_row(random);
    let curr = lower_row(random, prev);
    let most = random.pick(&[0, 5, 100, 2000]);
    let [srl, raw] = [(); 2].map(|()| {
        let length = random.within(0..=most);
        random.bytes(length)
    });
    let answer = decode_upgrade_pass(
        &srl,
        &raw,
        &quant(prev),
        &quant(curr),
        random.one_in(2),
        &mut coefficients,
        &mut sign,
    );
    notes.answer("decode_upgrade_pass", &answer);
    notes.note("coefficients", coefficients);
    notes.note("signs", sign);
}

/// A pass that is written and read back; half of them fit their widths.
pub fn passes_written(random: &mut Random, notes: &mut Notes) {
    let use_reduce_extrapolate = random.one_in(2);
    let prev = random_row(random);
    let curr = lower_row(random, prev);
    let (target, any_sign) = random_component(random);
    let (target, (mut before, mut sign)) = match random.below(2) {
        0 => {
            let (target, _) = cut(&target, curr, use_reduce_extrapolate);
            let before = cut(&target, prev, use_reduce_extrapolate);
            (target, before)
        }
        _ => (target.clone(), (random_component(random).0, any_sign)),
    };
    let written = encode_upgrade_pass(
        &target,
        &before,
        &quant(prev),
        &quant(curr),
        &sign,
        use_reduce_extrapolate,
    );
    if !notes.answer("encode_upgrade_pass", &written) {
        return;
    }
    let (srl, raw) = written.expect("it is accepted");
    let answer = decode_upgrade_pass(
        &srl,
        &raw,
        &quant(prev),
        &quant(curr),
        use_reduce_extrapolate,
        &mut before,
        &mut sign,
    );
    notes.answer("decode_upgrade_pass", &answer);
    notes.note("coefficients", before);
    notes.note("signs", sign);
}

pub fn components_dequantized(random: &mut Random, notes: &mut Notes) {
    let (mut coefficients, _) = random_component(random);
    let row = std::array::from_fn(|_| random.below(16));
    let answer = dequantize_component_ccq(&mut coefficients, &quant(row), random.one_in(2));
    notes.answer("dequantize_component_ccq", &answer);
    notes.note("coefficients", coefficients);
}

pub fn components_transformed(random: &mut Random, notes: &mut Notes) {
    let (mut buffer, _) = random_component(random);
    let (mut temp, _) = random_component(random);
    let answer = dwt_extrapolate::decode(&mut buffer, &mut temp);
    notes.answer("dwt_extrapolate::decode", &answer);
    notes.note("samples", buffer);
    notes.note("scratch", temp);
}

pub fn colours(random: &mut Random, notes: &mut Notes) {
    for _ in 0..1000 {
        let [y, cb, cr] = [(); 3].map(|()| random.value());
        notes.note("rgb", ycbcr_to_rgb(y, cb, cr));
    }
}

fn note_tile(notes: &mut Notes, tile: &TileState) {
    notes.note("coefficients", tile.coefficients);
    notes.note("signs", tile.sign);
    notes.note("zero signs", tile.zero_signs());
    notes.note("positions", tile.prog_quant);
    notes.note("quantizers", (tile.quant_idx, tile.base_quant));
    notes.note("pass", (tile.pass, tile.is_difference, tile.quality));
    notes.note("layout", tile.use_reduce_extrapolate);
}

/// A tile with its first pass, upgraded by the writer's streams or by any, and its pixels.
pub fn tiles_upgraded(random: &mut Random, notes: &mut Notes) {
    let use_reduce_extrapolate = random.below(4) != 0;
    let mut tile = TileState::new();
    let rows = [(); 3].map(|()| random_row(random));
    let targets = [(); 3].map(|()| random_component(random).0);
    for k in 0..3 {
        let (coefficients, sign) = cut(&targets[k], rows[k], use_reduce_extrapolate);
        tile.coefficients[k].copy_from_slice(&coefficients[..COEFFICIENTS_PER_COMPONENT]);
        tile.sign[k].copy_from_slice(&sign[..COEFFICIENTS_PER_COMPONENT]);
        tile.base_quant[k] = quant(std::array::from_fn(|_| random.below(16)));
    }
    tile.prog_quant = rows.map(quant);
    tile.quant_idx = [1, 2, 3];
    tile.pass = random.pick(&[1, 2, 65534, 65535]);
    tile.is_difference = random.one_in(2);
    tile.use_reduce_extrapolate = use_reduce_extrapolate;
    tile.count_zero_signs();

    let written = random.one_in(2);
    for _ in 0..random.within(0..=4) {
        let rows: [[u8; NUM_BANDS]; 3] = std::array::from_fn(|k| {
            let row = std::array::from_fn(|band| tile.prog_quant[k].for_band(band));
            lower_row(random, row)
        });
        let streams: [(Vec<u8>, Vec<u8>); 3] = std::array::from_fn(|k| {
            let (target, _) = cut(&targets[k], rows[k], use_reduce_extrapolate);
            let written = written.then(|| {
                encode_upgrade_pass(
                    &target,
                    &tile.coefficients[k],
                    &tile.prog_quant[k],
                    &quant(rows[k]),
                    &tile.sign[k],
                    use_reduce_extrapolate,
                )
            });
            match written {
                Some(Ok(streams)) => streams,
                _ => (random.bytes(60), random.bytes(300)),
            }
        });
        let answer = tile.decode_upgrade(
            std::array::from_fn(|k| &streams[k].0[..]),
            std::array::from_fn(|k| &streams[k].1[..]),
            rows.map(quant),
            random.word() as u8,
        );
        notes.answer("decode_upgrade", &answer);
        note_tile(notes, &tile);
    }

    if use_reduce_extrapolate {
        let mut pixels = vec![7; 64 * 64 * TILE_BYTES_PER_PIXEL + random.within(0..=3)];
        let answer = tile.reconstruct_to_rgba(&mut pixels);
        notes.answer("reconstruct_to_rgba", &answer);
        notes.note("pixels", pixels);
        note_tile(notes, &tile);
    }
}

/// Slices that are too short: the source panics. Its writer reads no sign of the bottom band, and so takes
/// signs that end there.
pub fn short_slices(random: &mut Random, notes: &mut Notes) {
    let short = random.within(0..=COEFFICIENTS_PER_COMPONENT - 1);
    let bottom = band_layout()[9].offset;
    let [prev, curr] = [quant([5; NUM_BANDS]), quant([2; NUM_BANDS])];
    for [first, second] in [[short, 4096], [4096, short], [short; 2]] {
        let (mut coefficients, mut sign) = (vec![1; first], vec![1; second]);
        notes.no_answer("decode_upgrade_pass", "SliceTooShort", || {
            decode_upgrade_pass(&[], &[], &prev, &curr, true, &mut coefficients, &mut sign)
        });
        notes.no_answer("encode_upgrade_pass", "SliceTooShort", || {
            let signs = match second {
                4096 => second,
                _ => second.min(bottom - 1),
            };
            encode_upgrade_pass(
                &coefficients,
                &[0; 4096],
                &prev,
                &curr,
                &sign[..signs],
                false,
            )
        });
        let (mut buffer, mut temp) = (vec![1; first], vec![1; second]);
        notes.no_answer("dwt_extrapolate::decode", "SliceTooShort", || {
            dwt_extrapolate::decode(&mut buffer, &mut temp)
        });
    }
    notes.no_answer("encode_upgrade_pass", "SliceTooShort", || {
        let whole = [0; 4096];
        encode_upgrade_pass(&whole, &whole[..short], &prev, &curr, &[0; 4096], true)
    });
    notes.no_answer("dequantize_component_ccq", "SliceTooShort", || {
        dequantize_component_ccq(&mut vec![1; short], &prev, true)
    });
    let mut tile = TileState::new();
    tile.use_reduce_extrapolate = true;
    tile.count_zero_signs();
    let mut pixels = vec![1; random.within(0..=64 * 64 * TILE_BYTES_PER_PIXEL - 1)];
    notes.no_answer("reconstruct_to_rgba", "SliceTooShort", || {
        tile.reconstruct_to_rgba(&mut pixels)
    });
}
