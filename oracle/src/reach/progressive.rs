// Opens private functions of progressive.rs.

use super::*;

pub fn clamp_i16(value: i32) -> i16 {
    super::clamp_i16(value)
}

pub fn clamp_u8(value: i64) -> u8 {
    super::clamp_u8(value)
}

pub fn ycbcr_to_rgb(y: i16, cb: i16, cr: i16) -> [u8; 3] {
    super::ycbcr_to_rgb(y, cb, cr)
}

pub fn round_shift_right(value: i16, shift: u8) -> i16 {
    super::round_shift_right(value, shift)
}

pub fn capture_sign(coefficients: &[i16], sign: &mut [i8]) {
    super::capture_sign(coefficients, sign);
}

pub fn progressive_dequantize(
    coefficients: &mut [i16],
    prog_quant: &ComponentCodecQuant,
    use_reduce_extrapolate: bool,
) {
    super::progressive_dequantize(coefficients, prog_quant, use_reduce_extrapolate);
}

pub fn dequantize_component_ccq(
    coefficients: &mut [i16],
    quant: &ComponentCodecQuant,
    use_reduce_extrapolate: bool,
) {
    super::dequantize_component_ccq(coefficients, quant, use_reduce_extrapolate);
}

pub fn get_band_layout(use_reduce_extrapolate: bool) -> [BandInfo; NUM_BANDS] {
    super::get_band_layout(use_reduce_extrapolate)
}

pub fn standard_band_layout() -> [BandInfo; NUM_BANDS] {
    super::standard_band_layout()
}

pub fn ll3_offset(use_reduce_extrapolate: bool) -> usize {
    super::ll3_offset(use_reduce_extrapolate)
}

/// The stream that `RawBitWriter` makes of values, each of `width` bits.
pub fn write_raw(values: impl IntoIterator<Item = u32>, width: u32) -> Vec<u8> {
    let mut writer = RawBitWriter::new();
    for value in values {
        writer.write_bits(value, width);
    }
    writer.finish()
}
