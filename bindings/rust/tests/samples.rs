//! The bench samples of the program `samples`, through the crate.

use tarjimp::progressive::{
    MissingBits, TileState, band_of_place, decode_upgrade_pass, decode_upgrade_pass_counted,
    dequantize_component_ccq, encode_upgrade_pass, encode_upgrade_pass_symmetric, ycbcr_to_rgb,
};
use tarjimp::srl::{SrlDecoder, SrlEncoder, decode_srl, encode_srl};
use tarjimp::{ComponentCodecQuant, Error, dwt_extrapolate};

fn all(number: u8) -> ComponentCodecQuant {
    ComponentCodecQuant::of_bands([number; 10])
}

#[test]
fn srl_streams() {
    let samples: [(&[i16], u8, &[u8]); 7] = [
        (&[1], 1, &[0x80, 0]),
        (&[-1], 1, &[0xA0, 0]),
        (&[0], 1, &[0xC0, 0]),
        (&[0, 0], 1, &[0x40, 0]),
        (&[1], 2, &[0x90, 0]),
        (&[2], 2, &[0x88, 0]),
        (&[3], 2, &[0x80, 0]),
    ];
    for (values, num_bits, stream) in samples {
        assert_eq!(encode_srl(values, num_bits).as_deref(), Ok(stream));
        let values = Ok(values.to_vec());
        let count = values.as_ref().map_or(0, Vec::len);
        assert_eq!(decode_srl(stream, count, num_bits), values);
    }
    assert_eq!(decode_srl(&[0xFF], 2, 1), Ok(vec![0, -1]));
    assert_eq!(decode_srl(&[], 5, 1), Ok(vec![0; 5]));
    assert_eq!(SrlEncoder::new().finish(), Ok(vec![0]));
}

#[test]
fn srl_refusals() {
    assert_eq!(encode_srl(&[], 16), Err(Error::InvalidBitCount(16)));
    assert_eq!(decode_srl(&[], 3, 16), Ok(vec![0; 3]));
    assert_eq!(decode_srl(&[0xFF], 2, 16), Err(Error::InvalidBitCount(16)));
    assert!(SrlEncoder::new().encode(&[0; 4096], 1).is_ok());
    let refused = SrlEncoder::new().encode(&[0; 4097], 1);
    assert_eq!(refused, Err(Error::ZeroRunTooLong));
}

#[test]
fn raw_bits() {
    for (place, before, after) in [(0, -8, -14), (4032, -8, -2), (0, -32768, -32768)] {
        let (mut coefficients, mut sign) = ([0; 4096], [0; 4096]);
        coefficients[place] = before;
        sign[place] = -1;
        decode_upgrade_pass(
            &[],
            &[0xC0],
            &all(3),
            &all(1),
            false,
            &mut coefficients,
            &mut sign,
        )
        .expect("a stream causes no refusal");
        assert_eq!(coefficients[place], after);
    }
}

#[test]
fn missing_bits() {
    for (stream, count, num_bits, missing) in [
        (&[][..], 5, 1, 3),
        (&[], 3, 16, 2),
        (&[0x80], 1, 15, 32_761),
        (&[0xFF], 2, 1, 0),
    ] {
        let mut decoder = SrlDecoder::new(stream).expect("every stream is one");
        assert!(decoder.decode(count, num_bits).is_ok());
        assert_eq!(decoder.missing_bits(), missing);
    }
    let mut bottom = [0; 10];
    bottom[9] = 2;
    for (widths, raw) in [([2; 10], 8184), (bottom, 120)] {
        let missing = decode_upgrade_pass_counted(
            &[],
            &[0xC0],
            &ComponentCodecQuant::of_bands(widths),
            &all(0),
            false,
            &mut [-8; 4096],
            &mut [-1; 4096],
        );
        assert_eq!(missing, Ok(MissingBits { srl: 0, raw }));
    }
}

#[test]
fn a_pass_that_is_written() {
    let mut prev = [0; 10];
    let mut curr = [0; 10];
    (prev[0], curr[0]) = (3, 1);
    let [prev, curr] = [prev, curr].map(ComponentCodecQuant::of_bands);
    let mut target = [0; 4096];
    target[0] = -7;
    let refused = encode_upgrade_pass(&target, &[0; 4096], &prev, &curr, &[0; 4096], false);
    let (magnitude, max) = (4, 3);
    assert_eq!(refused, Err(Error::MagnitudeOutOfRange { magnitude, max }));
    target[0] = 7;
    let written = encode_upgrade_pass(&target, &[0; 4096], &prev, &curr, &[0; 4096], false);
    assert_eq!(
        written,
        Ok((vec![0x80, 0x00, 0x01, 0x00, 0x80, 0x00], vec![]))
    );
}

/// A pass over one place alone, from one position to another in its band: the streams, and what a reader
/// that has `before` makes of them.
fn one_place(
    place: usize,
    [coefficient, before]: [i16; 2],
    sign: i8,
    [from, to]: [u8; 2],
) -> Result<(Vec<u8>, Vec<u8>, i16), Error> {
    let band = usize::from(band_of_place(false, place).expect("it is one of the 4,096"));
    let [prev, curr] = [from, to].map(|number| {
        let mut row = [0; 10];
        row[band] = number;
        ComponentCodecQuant::of_bands(row)
    });
    let (mut target, mut coefficients, mut signs) = ([0; 4096], [0; 4096], [0; 4096]);
    (target[place], coefficients[place], signs[place]) = (coefficient, before, sign);
    let (srl, raw) =
        encode_upgrade_pass_symmetric(&target, &coefficients, &prev, &curr, &signs, false)?;
    decode_upgrade_pass(
        &srl,
        &raw,
        &prev,
        &curr,
        false,
        &mut coefficients,
        &mut signs,
    )?;
    Ok((srl, raw, coefficients[place]))
}

#[test]
fn a_pass_that_is_written_by_the_symmetric_rule() {
    let srl = |pair, sign| one_place(0, pair, sign, [3, 1]);
    let of_seven = |first| vec![first, 0x00, 0x01, 0x00, 0x80, 0x00];
    assert_eq!(srl([7, 0], 0), Ok((of_seven(0x80), vec![], 6)));
    assert_eq!(srl([-7, 0], 0), Ok((of_seven(0xA0), vec![], -6)));
    // The difference is 1, and nothing of it is left at position 1; with two floors it would be 1 there.
    let nothing = srl([1, 1], 0);
    assert_eq!(srl([2, 1], 0), nothing);
    // The other signs: 7 is 3 at position 1, the magnitude of -9 is 4.
    for (pair, sign, number, after) in [([7, 0], 1, 0xC0, 6), ([-9, -8], -1, 0x00, -8)] {
        let written = srl(pair, sign).map(|(_, raw, read)| (raw[0], read));
        assert_eq!(written, Ok((number, after)));
    }
    let (magnitude, max) = (32768, 32767);
    let refused = one_place(0, [i16::MIN, 0], 0, [15, 0]);
    assert_eq!(refused, Err(Error::MagnitudeOutOfRange { magnitude, max }));
}

#[test]
fn the_bottom_by_the_symmetric_rule() {
    for (coefficient, before, bits, after) in [
        (-2, 0, 0x00, 0),
        (100, 0, 0x80, 4), // 50, of which the low two bits are written
        (-5, -8, 0x40, -6),
        (-8, -8, 0x00, -8),
        (-1, -8, 0xC0, -2),
        (5, 0, 0x80, 4),
    ] {
        let (srl, raw, read) = one_place(4032, [coefficient, before], 0, [3, 1]).expect("it fits");
        assert_eq!((srl.len(), raw[0], read), (0, bits, after));
    }
}

#[test]
fn quantizers() {
    for (quantizer, before, after) in [(5, -1, 0), (5, 1, 1), (5, -3, -1), (7, 20000, 32767)] {
        let mut coefficients = [before; 4096];
        assert_eq!(
            dequantize_component_ccq(&mut coefficients, &all(quantizer), true),
            Ok(())
        );
        assert_eq!(coefficients, [after; 4096]);
    }
}

#[test]
fn pictures() {
    assert_eq!(ycbcr_to_rgb(0, 0, 100), [255, 57, 128]);
    let mut buffer = [0; 4096];
    (buffer[4015], buffer[3807]) = (-32768, 1);
    assert_eq!(dwt_extrapolate::decode(&mut buffer, &mut [0; 4096]), Ok(()));
    assert_eq!(buffer[0], 32767);
    let mut tile = TileState::new();
    tile.use_reduce_extrapolate = true;
    tile.count_zero_signs();
    let mut pixels = [0; 16384];
    assert_eq!(tile.reconstruct_to_rgba(&mut pixels), Ok(()));
    assert!(pixels.chunks(4).all(|pixel| pixel == [128, 128, 128, 255]));
}
