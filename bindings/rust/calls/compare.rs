//! `calls.rs` is built twice, with the items of the crate `tarjimp` and with those of the source, which
//! `oracle` builds unchanged. Only the `use` lines differ, and that the source's tile has no numbers of zero
//! signs. Both run with the same random numbers and must note the same.

#![cfg(test)]

mod notes;

/// The calls with the items of the crate.
mod port {
    use tarjimp::ComponentCodecQuant;
    use tarjimp::dwt_extrapolate::{self, BandInfo, band_layout};
    use tarjimp::progressive::{
        COEFFICIENTS_PER_COMPONENT, NUM_BANDS, SIGN_NEGATIVE, SIGN_POSITIVE, SIGN_ZERO,
        TILE_BYTES_PER_PIXEL, TILE_DIM, TileState, decode_upgrade_pass, dequantize_component_ccq,
        encode_upgrade_pass, ycbcr_to_rgb,
    };
    use tarjimp::srl::{SrlDecoder, SrlEncoder, SrlError, decode_srl, encode_srl};

    include!("calls.rs");
}

/// The calls with the items of the source. Two of them are private there.
#[expect(
    clippy::let_unit_value,
    reason = "three functions answer nothing here, and a `Result` in the crate"
)]
mod source {
    use oracle::codecs::rfx::progressive::ComponentCodecQuant;
    use oracle::dwt_extrapolate::{self, BandInfo, band_layout};
    use oracle::kinds::progressive::zero_signs;
    use oracle::progressive::reach::{dequantize_component_ccq, ycbcr_to_rgb};
    use oracle::progressive::{
        COEFFICIENTS_PER_COMPONENT, NUM_BANDS, SIGN_NEGATIVE, SIGN_POSITIVE, SIGN_ZERO,
        TILE_BYTES_PER_PIXEL, TILE_DIM, TileState, decode_upgrade_pass, encode_upgrade_pass,
    };
    use oracle::srl::{SrlDecoder, SrlEncoder, SrlError, decode_srl, encode_srl};

    /// The numbers of zero signs, which the source's tile does not keep: the oracle counts them.
    trait ZeroSigns {
        fn zero_signs(&self) -> zero_signs::ZeroSigns;
        fn count_zero_signs(&mut self);
    }

    impl ZeroSigns for TileState {
        fn zero_signs(&self) -> zero_signs::ZeroSigns {
            zero_signs::of(self)
        }

        fn count_zero_signs(&mut self) {}
    }

    include!("calls.rs");
}

use notes::{Notes, compare};
use oracle::random::Random;

/// Runs calls of one name with many seeds, on both sides.
fn run(
    name: &str,
    seeds: u64,
    port: fn(&mut Random, &mut Notes),
    source: fn(&mut Random, &mut Notes),
) {
    let mut seen = Notes::default();
    for seed in 0..seeds {
        let [port, source] = [port, source].map(|calls| {
            let mut notes = Notes::default();
            calls(&mut Random::new(seed, 1), &mut notes);
            notes
        });
        if let Err(difference) = compare(&port, &source) {
            panic!("{name}, seed {seed}: {difference}");
        }
        seen.add_counts(&source);
    }
    println!("{name}: {seeds} seeds, {seen}");
}

/// A test for each function of `calls.rs`.
macro_rules! tests {
    ($($name:ident: $seeds:expr;)*) => {
        $(
            #[test]
            fn $name() {
                run(stringify!($name), $seeds, port::$name, source::$name);
            }
        )*
    };
}

tests! {
    constants: 1;
    quants: 100;
    srl_streams: 4000;
    srl_decoders: 4000;
    srl_encoders: 4000;
    zero_runs: 100;
    passes_read: 400;
    passes_written: 600;
    components_dequantized: 300;
    components_transformed: 200;
    colours: 100;
    tiles_upgraded: 150;
    short_slices: 20;
}

/// What differs is found: a value, a note too many, and another refusal.
#[test]
fn differences_are_found() {
    let mut random = Random::new(0, 1);
    let mut notes = Notes::default();
    port::srl_streams(&mut random, &mut notes);
    assert!(compare(&notes, &notes).is_ok());
    let mut longer = notes.clone();
    longer.note("one more", 1);
    assert!(compare(&longer, &notes).is_err());
    assert!(compare(&notes, &longer).is_err());
    let mut other = notes.clone();
    other.note("one more", 2);
    assert!(compare(&longer, &other).is_err());
}
