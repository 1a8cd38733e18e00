//! What the Rust gives for inputs outside the domain and for slices that are too short, in this build: with overflow checks and debug
//! assertions, or without.

use std::fmt::Display;
use std::panic::{self, UnwindSafe};

use oracle::codecs::rfx::progressive::ComponentCodecQuant;
use oracle::progressive::reach::{dequantize_component_ccq, round_shift_right, write_raw};
use oracle::progressive::{
    TileState, decode_upgrade_pass, encode_upgrade_pass, progressive_quantize,
};

/// Prints a call and its answer, or that it panics.
fn show<T: Display>(what: &str, call: impl FnOnce() -> T + UnwindSafe) {
    match panic::catch_unwind(call) {
        Ok(answer) => println!("{what}: {answer}"),
        Err(_) => println!("{what}: panics"),
    }
}

/// A coefficient of the first band after raw bits that form a number, at a position, with a sign that is not 0.
fn after_raw(coefficient: i16, sign: i8, number: u32, position: u8) -> i16 {
    const WIDTH: u8 = 15;
    let mut coefficients = [coefficient; 4096];
    let mut signs = [sign; 4096];
    let mut row = [0; 10];
    row[0] = position;
    let curr = ComponentCodecQuant::of_bands(row);
    row[0] = position + WIDTH;
    let prev = ComponentCodecQuant::of_bands(row);
    let raw = write_raw([number], WIDTH.into());
    decode_upgrade_pass(&[], &raw, &prev, &curr, true, &mut coefficients, &mut signs)
        .expect("a stream causes no error");
    coefficients[0]
}

/// A coefficient after the left shift of a quantizer.
fn after_left_shift(value: i16, shift: u8) -> i16 {
    let mut coefficients = [value; 4096];
    let quant = ComponentCodecQuant::all(6 + shift);
    dequantize_component_ccq(&mut coefficients, &quant, true);
    coefficients[0]
}

/// A coefficient of the bottom after the writer's shift of a first pass.
fn after_right_shift(value: i16, shift: u8) -> i16 {
    let mut coefficients = [value; 4096];
    let mut row = [0; 10];
    row[9] = shift;
    progressive_quantize(&mut coefficients, &ComponentCodecQuant::of_bands(row), true);
    coefficients[4095]
}

/// A pass of zeros over slices of this length.
fn read_pass(length: usize) -> &'static str {
    let (prev, curr) = (ComponentCodecQuant::all(1), ComponentCodecQuant::all(0));
    let mut coefficients = vec![0; length];
    let mut signs = vec![0; length];
    decode_upgrade_pass(&[], &[], &prev, &curr, true, &mut coefficients, &mut signs)
        .expect("a stream causes no error");
    "read"
}

/// How many bytes a written pass of zeros has, of slices of these lengths.
fn written(values: usize, signs: usize, extrapolate: bool, prev: u8) -> String {
    let (prev, curr) = (ComponentCodecQuant::all(prev), ComponentCodecQuant::all(0));
    let zeros = vec![0; values];
    let (srl, raw) =
        encode_upgrade_pass(&zeros, &zeros, &prev, &curr, &vec![0; signs], extrapolate)
            .expect("zeros fit every width");
    format!("{} SRL bytes and {} raw ones", srl.len(), raw.len())
}

/// Dequantizing so many elements by one quantizer.
fn dequantized(length: usize, quantizer: u8) -> &'static str {
    let mut coefficients = vec![0; length];
    dequantize_component_ccq(
        &mut coefficients,
        &ComponentCodecQuant::all(quantizer),
        true,
    );
    "done"
}

/// The inverse wavelet on slices of these lengths.
fn transformed(buffer: usize, temp: usize) -> &'static str {
    oracle::dwt_extrapolate::decode(&mut vec![0; buffer], &mut vec![0; temp]);
    "done"
}

/// The pixels of a fresh tile in the reduce-extrapolate layout, to so many bytes.
fn pixels(length: usize) -> &'static str {
    let mut tile = TileState::new();
    tile.use_reduce_extrapolate = true;
    tile.reconstruct_to_rgba(&mut vec![0; length]);
    "done"
}

fn main() {
    panic::set_hook(Box::new(|_| {}));
    show("round_shift_right, value 1, shift 0", || {
        round_shift_right(1, 0)
    });
    show("round_shift_right, value 1, shift 16", || {
        round_shift_right(1, 16)
    });
    show("round_shift_right, value 1, shift 31", || {
        round_shift_right(1, 31)
    });
    show("round_shift_right, value 1, shift 32", || {
        round_shift_right(1, 32)
    });
    show("left shift, value 16384, shift 17", || {
        after_left_shift(16384, 17)
    });
    show(
        "raw bits added, coefficient 0, number 16384, position 17",
        || after_raw(0, 1, 16384, 17),
    );
    show(
        "raw bits subtracted, coefficient 0, number 16384, position 17",
        || after_raw(0, -1, 16384, 17),
    );
    show(
        "raw bits subtracted, coefficient -32768, number 16384, position 17",
        || after_raw(-32768, -1, 16384, 17),
    );
    show("right shift of an i16, value 2, shift 16", || {
        after_right_shift(2, 16)
    });
    show("decode_upgrade_pass, 4095 elements", || read_pass(4095));
    show("dwt_extrapolate::decode, 4095 elements", || {
        transformed(4095, 4096)
    });
    show("dwt_extrapolate::decode, scratch of 4095", || {
        transformed(4096, 4095)
    });
    show("reconstruct_to_rgba, 16383 bytes", || pixels(16383));
    show("encode_upgrade_pass, 4032 signs, standard layout", || {
        written(4096, 4032, false, 1)
    });
    show("encode_upgrade_pass, 4031 signs, standard layout", || {
        written(4096, 4031, false, 1)
    });
    show(
        "encode_upgrade_pass, 4015 signs, reduce-extrapolate",
        || written(4096, 4015, true, 1),
    );
    show(
        "encode_upgrade_pass, 4014 signs, reduce-extrapolate",
        || written(4096, 4014, true, 1),
    );
    show("encode_upgrade_pass, no elements, equal positions", || {
        written(0, 0, true, 0)
    });
    show(
        "dequantize_component_ccq, no elements, quantizers 6",
        || dequantized(0, 6),
    );
    show(
        "dequantize_component_ccq, 100 elements, quantizers 7",
        || dequantized(100, 7),
    );
}
