//! The C functions of `libtarjimp.a` (`include/tarjimp.h`), and a safe wrapper for each. A wrapper turns
//! slices and arrays into pointers and nothing else; it returns what the function does, mostly the number of
//! the refusal, 0 if there is none.

use crate::progressive::COEFFICIENTS_PER_COMPONENT;

/// A number for each band, in band order.
pub type Row = [u8; 10];

/// The coefficients of a tile, which lie one after another.
pub type Coefficients = [[i16; COEFFICIENTS_PER_COMPONENT]; 3];

/// The signs of a tile.
pub type Signs = [[i8; COEFFICIENTS_PER_COMPONENT]; 3];

/// How many signs of each band of each component are 0.
pub type ZeroSigns = [[u16; 10]; 3];

unsafe extern "C" {
    fn tarjimp_srl_decode(
        data: *const u8,
        data_len: usize,
        state: *mut u64,
        out: *mut i16,
        out_len: usize,
        num_values: usize,
        num_bits: u8,
        missing: *mut u64,
    ) -> u8;

    fn tarjimp_srl_encode(
        values: *const i16,
        values_len: usize,
        state: *mut u64,
        out: *mut u8,
        out_len: usize,
        num_bits: u8,
        written: *mut usize,
    ) -> u8;

    fn tarjimp_srl_finish(
        state: *const u64,
        out: *mut u8,
        out_len: usize,
        written: *mut usize,
    ) -> u8;

    fn tarjimp_decode_upgrade_pass(
        srl: *const u8,
        srl_len: usize,
        raw: *const u8,
        raw_len: usize,
        prev: *const u8,
        curr: *const u8,
        use_reduce_extrapolate: bool,
        coefficients: *mut i16,
        coefficients_len: usize,
        sign: *mut i8,
        sign_len: usize,
        missing: *mut u32,
    ) -> u8;

    fn tarjimp_encode_upgrade_pass(
        coefficients: *const i16,
        coefficients_len: usize,
        prev_coefficients: *const i16,
        prev_coefficients_len: usize,
        prev: *const u8,
        curr: *const u8,
        sign: *const i8,
        sign_len: usize,
        use_reduce_extrapolate: bool,
        srl_out: *mut u8,
        srl_out_len: usize,
        raw_out: *mut u8,
        raw_out_len: usize,
        written: *mut usize,
    ) -> u8;

    fn tarjimp_encode_upgrade_pass_symmetric(
        coefficients: *const i16,
        coefficients_len: usize,
        prev_coefficients: *const i16,
        prev_coefficients_len: usize,
        prev: *const u8,
        curr: *const u8,
        sign: *const i8,
        sign_len: usize,
        use_reduce_extrapolate: bool,
        srl_out: *mut u8,
        srl_out_len: usize,
        raw_out: *mut u8,
        raw_out_len: usize,
        written: *mut usize,
    ) -> u8;

    fn tarjimp_dequantize_component(
        coefficients: *mut i16,
        coefficients_len: usize,
        quant: *const u8,
        use_reduce_extrapolate: bool,
    ) -> u8;

    fn tarjimp_dwt_extrapolate_decode(
        buffer: *mut i16,
        buffer_len: usize,
        temp: *mut i16,
        temp_len: usize,
    ) -> u8;

    fn tarjimp_ycbcr_to_rgb(y: i16, cb: i16, cr: i16, rgb: *mut u8);

    fn tarjimp_band_of_place(use_reduce_extrapolate: bool, place: usize) -> u8;

    fn tarjimp_bands_of_places(use_reduce_extrapolate: bool, bands: *mut u8);

    fn tarjimp_tile_zero_signs(sign: *const i8, use_reduce_extrapolate: bool, zero_signs: *mut u16);

    fn tarjimp_tile_decode_upgrade(
        coefficients: *mut i16,
        sign: *mut i8,
        zero_signs: *mut u16,
        prog_quant: *mut u8,
        base_quant: *const u8,
        use_reduce_extrapolate: bool,
        pass: *mut u16,
        quality: *mut u8,
        prog_quants: *const u8,
        new_quality: u8,
        y_srl: *const u8,
        y_srl_len: usize,
        y_raw: *const u8,
        y_raw_len: usize,
        cb_srl: *const u8,
        cb_srl_len: usize,
        cb_raw: *const u8,
        cb_raw_len: usize,
        cr_srl: *const u8,
        cr_srl_len: usize,
        cr_raw: *const u8,
        cr_raw_len: usize,
        missing: *mut u32,
    ) -> u8;

    fn tarjimp_tile_reconstruct_to_rgba(
        coefficients: *const i16,
        sign: *const i8,
        zero_signs: *const u16,
        prog_quant: *const u8,
        base_quant: *const u8,
        use_reduce_extrapolate: bool,
        pixels: *mut u8,
        pixels_len: usize,
    ) -> u8;
}

pub fn srl_decode(
    data: &[u8],
    state: &mut [u64; 5],
    out: &mut [i16],
    num_values: usize,
    num_bits: u8,
    missing: &mut u64,
) -> u8 {
    // SAFETY: `data` and `out` come with their lengths, `state` has the five numbers that the function
    // reads and writes, `missing` is one, and what is written through is borrowed by this call alone.
    unsafe {
        tarjimp_srl_decode(
            data.as_ptr(),
            data.len(),
            state.as_mut_ptr(),
            out.as_mut_ptr(),
            out.len(),
            num_values,
            num_bits,
            missing,
        )
    }
}

pub fn srl_encode(
    values: &[i16],
    state: &mut [u64; 4],
    out: &mut [u8],
    num_bits: u8,
    written: &mut usize,
) -> u8 {
    // SAFETY: `values` and `out` come with their lengths, `state` has four numbers, `written` is one, and
    // what is written through is borrowed by this call alone.
    unsafe {
        tarjimp_srl_encode(
            values.as_ptr(),
            values.len(),
            state.as_mut_ptr(),
            out.as_mut_ptr(),
            out.len(),
            num_bits,
            written,
        )
    }
}

pub fn srl_finish(state: &[u64; 4], out: &mut [u8], written: &mut usize) -> u8 {
    // SAFETY: `state` has four numbers, `out` comes with its length, `written` is one number, and what is
    // written through is borrowed by this call alone.
    unsafe { tarjimp_srl_finish(state.as_ptr(), out.as_mut_ptr(), out.len(), written) }
}

#[expect(clippy::too_many_arguments, reason = "as the C function has it")]
pub fn decode_upgrade_pass(
    srl: &[u8],
    raw: &[u8],
    prev: &Row,
    curr: &Row,
    use_reduce_extrapolate: bool,
    coefficients: &mut [i16],
    sign: &mut [i8],
    missing: &mut [u32; 2],
) -> u8 {
    // SAFETY: the slices come with their lengths, `prev` and `curr` have ten numbers and `missing` two,
    // and what is written through is borrowed by this call alone.
    unsafe {
        tarjimp_decode_upgrade_pass(
            srl.as_ptr(),
            srl.len(),
            raw.as_ptr(),
            raw.len(),
            prev.as_ptr(),
            curr.as_ptr(),
            use_reduce_extrapolate,
            coefficients.as_mut_ptr(),
            coefficients.len(),
            sign.as_mut_ptr(),
            sign.len(),
            missing.as_mut_ptr(),
        )
    }
}

/// The two writers of a pass, which have the same parameters.
#[derive(Debug, Clone, Copy, PartialEq, Eq)]
pub enum Rule {
    Floor,
    Symmetric,
}

#[expect(clippy::too_many_arguments, reason = "as the C functions have it")]
pub fn encode_upgrade_pass(
    rule: Rule,
    coefficients: &[i16],
    prev_coefficients: &[i16],
    prev: &Row,
    curr: &Row,
    sign: &[i8],
    use_reduce_extrapolate: bool,
    srl_out: &mut [u8],
    raw_out: &mut [u8],
    written: &mut [usize; 2],
) -> u8 {
    let write = match rule {
        Rule::Floor => tarjimp_encode_upgrade_pass,
        Rule::Symmetric => tarjimp_encode_upgrade_pass_symmetric,
    };
    // SAFETY: the slices come with their lengths, `prev` and `curr` have ten numbers and `written` two,
    // and what is written through is borrowed by this call alone.
    unsafe {
        write(
            coefficients.as_ptr(),
            coefficients.len(),
            prev_coefficients.as_ptr(),
            prev_coefficients.len(),
            prev.as_ptr(),
            curr.as_ptr(),
            sign.as_ptr(),
            sign.len(),
            use_reduce_extrapolate,
            srl_out.as_mut_ptr(),
            srl_out.len(),
            raw_out.as_mut_ptr(),
            raw_out.len(),
            written.as_mut_ptr(),
        )
    }
}

pub fn dequantize_component(
    coefficients: &mut [i16],
    quant: &Row,
    use_reduce_extrapolate: bool,
) -> u8 {
    // SAFETY: `coefficients` comes with its length and is borrowed by this call alone, and `quant` has ten
    // numbers.
    unsafe {
        tarjimp_dequantize_component(
            coefficients.as_mut_ptr(),
            coefficients.len(),
            quant.as_ptr(),
            use_reduce_extrapolate,
        )
    }
}

pub fn dwt_extrapolate_decode(buffer: &mut [i16], temp: &mut [i16]) -> u8 {
    // SAFETY: both slices come with their lengths and are borrowed by this call alone.
    unsafe {
        tarjimp_dwt_extrapolate_decode(
            buffer.as_mut_ptr(),
            buffer.len(),
            temp.as_mut_ptr(),
            temp.len(),
        )
    }
}

pub fn ycbcr_to_rgb(y: i16, cb: i16, cr: i16, rgb: &mut [u8; 3]) {
    // SAFETY: `rgb` has the three bytes that the function writes.
    unsafe { tarjimp_ycbcr_to_rgb(y, cb, cr, rgb.as_mut_ptr()) }
}

pub fn band_of_place(use_reduce_extrapolate: bool, place: usize) -> u8 {
    // SAFETY: the function takes two values, any of their types.
    unsafe { tarjimp_band_of_place(use_reduce_extrapolate, place) }
}

pub fn bands_of_places(use_reduce_extrapolate: bool, bands: &mut [u8; COEFFICIENTS_PER_COMPONENT]) {
    // SAFETY: `bands` has the 4,096 numbers that the function writes.
    unsafe { tarjimp_bands_of_places(use_reduce_extrapolate, bands.as_mut_ptr()) }
}

pub fn tile_zero_signs(sign: &Signs, use_reduce_extrapolate: bool, zero_signs: &mut ZeroSigns) {
    // SAFETY: signs are three times 4,096 that lie one after another, and `zero_signs` has the thirty numbers that the
    // function writes.
    unsafe {
        tarjimp_tile_zero_signs(
            sign.as_flattened().as_ptr(),
            use_reduce_extrapolate,
            zero_signs.as_flattened_mut().as_mut_ptr(),
        )
    }
}

/// The fields of a tile that an upgrade reads or sets.
pub struct Tile<'a> {
    pub coefficients: &'a mut Coefficients,
    pub sign: &'a mut Signs,
    pub zero_signs: &'a mut ZeroSigns,
    pub prog_quant: &'a mut [Row; 3],
    pub base_quant: &'a [Row; 3],
    pub use_reduce_extrapolate: bool,
    pub pass: &'a mut u16,
    pub quality: &'a mut u8,
}

pub fn tile_decode_upgrade(
    tile: Tile<'_>,
    prog_quants: &[Row; 3],
    quality: u8,
    [y_srl, cb_srl, cr_srl]: [&[u8]; 3],
    [y_raw, cb_raw, cr_raw]: [&[u8]; 3],
    missing: &mut [u32; 2],
) -> u8 {
    // SAFETY: coefficients and signs are three times 4,096 that lie one after another, rows and numbers of zero
    // signs three times ten numbers, `pass` and `quality` one number each, `missing` two; the streams come with
    // their lengths, and what is written through is borrowed by this call alone.
    unsafe {
        tarjimp_tile_decode_upgrade(
            tile.coefficients.as_flattened_mut().as_mut_ptr(),
            tile.sign.as_flattened_mut().as_mut_ptr(),
            tile.zero_signs.as_flattened_mut().as_mut_ptr(),
            tile.prog_quant.as_flattened_mut().as_mut_ptr(),
            tile.base_quant.as_flattened().as_ptr(),
            tile.use_reduce_extrapolate,
            tile.pass,
            tile.quality,
            prog_quants.as_flattened().as_ptr(),
            quality,
            y_srl.as_ptr(),
            y_srl.len(),
            y_raw.as_ptr(),
            y_raw.len(),
            cb_srl.as_ptr(),
            cb_srl.len(),
            cb_raw.as_ptr(),
            cb_raw.len(),
            cr_srl.as_ptr(),
            cr_srl.len(),
            cr_raw.as_ptr(),
            cr_raw.len(),
            missing.as_mut_ptr(),
        )
    }
}

pub fn tile_reconstruct_to_rgba(
    coefficients: &Coefficients,
    sign: &Signs,
    zero_signs: &ZeroSigns,
    prog_quant: &[Row; 3],
    base_quant: &[Row; 3],
    use_reduce_extrapolate: bool,
    pixels: &mut [u8],
) -> u8 {
    // SAFETY: coefficients and signs are three times 4,096 that lie one after another, rows and numbers of zero
    // signs three times ten numbers, and `pixels` comes with its length and is borrowed by this call alone.
    unsafe {
        tarjimp_tile_reconstruct_to_rgba(
            coefficients.as_flattened().as_ptr(),
            sign.as_flattened().as_ptr(),
            zero_signs.as_flattened().as_ptr(),
            prog_quant.as_flattened().as_ptr(),
            base_quant.as_flattened().as_ptr(),
            use_reduce_extrapolate,
            pixels.as_mut_ptr(),
            pixels.len(),
        )
    }
}
