//! Times the port beside the Rust: `bench [REPETITIONS]`.

mod input;

use std::env;
use std::hint::black_box;
use std::process::ExitCode;
use std::time::Instant;

use oracle::codecs::rfx::progressive::ComponentCodecQuant;
use oracle::dwt_extrapolate;
use oracle::kinds::progressive::zero_signs;
use oracle::port::{self, Rule};
use oracle::progressive::{self, COEFFICIENTS_PER_COMPONENT, TileState, reach};

use oracle::srl::{SrlDecoder, SrlEncoder};

use input::{
    CURR, FAINT, Input, PREV, Pixels, QUANT, SORTS, Stream, Tile, USE_REDUCE_EXTRAPOLATE, Upgrade,
    alike, cut_streams, empty_upgrades, inputs, rows, streams, tiles, upgrades,
};

/// The bytes of each output that the port gets: more than any pass here takes.
const ROOM: usize = 16384;

/// The bytes of a tile's pixels.
const PIXELS: usize = 16384;

/// How many times a batch goes over the components or tiles of its sort.
const ROUNDS: usize = 2;

/// What a call works on, and what it leaves.
struct Work {
    coefficients: Vec<i16>,
    sign: Vec<i8>,
    srl: Vec<u8>,
    raw: Vec<u8>,
    /// How many bytes of the two streams were written.
    written: [usize; 2],
    temp: Vec<i16>,
    pixels: Vec<u8>,
    values: Vec<i16>,
    tile: Box<TileState>,
    /// The tile's numbers of zero signs, which the port alone has.
    zero_signs: port::ZeroSigns,
}

impl Work {
    fn new() -> Self {
        Self {
            coefficients: vec![0; COEFFICIENTS_PER_COMPONENT],
            sign: vec![0; COEFFICIENTS_PER_COMPONENT],
            srl: vec![0; ROOM],
            raw: vec![0; ROOM],
            written: [0; 2],
            temp: vec![0; COEFFICIENTS_PER_COMPONENT],
            pixels: vec![0; PIXELS],
            values: Vec::new(),
            tile: Box::default(),
            zero_signs: zero_signs::of(&TileState::new()),
        }
    }

    /// Whether a call of the port left the same, and the right numbers of zero signs.
    fn is_as(&self, port: &Self) -> bool {
        let lists = |work: &Self| {
            let [srl, raw] = work.written;
            let streams = [&work.srl[..srl], &work.raw[..raw], &work.pixels].map(<[u8]>::to_vec);
            let values = [&work.coefficients, &work.temp, &work.values].map(|list| list.to_vec());
            (streams, values, work.sign.clone())
        };
        let tile = |work: &Self| {
            let tile = &work.tile;
            (
                tile.coefficients,
                tile.sign,
                tile.prog_quant,
                tile.pass,
                tile.quality,
            )
        };
        let numbers = zero_signs::of(&port.tile);
        lists(self) == lists(port) && tile(self) == tile(port) && port.zero_signs == numbers
    }
}

/// One call on one component, tile, stream or row, by either side.
type Call<I> = fn(&I, &mut Work);

fn main() -> ExitCode {
    let Some(repetitions) = repetitions() else {
        eprintln!("usage: oracle/bench [REPETITIONS], at least 1");
        return ExitCode::from(2);
    };
    println!("One call, in nanoseconds, {repetitions} batches of each side.");
    println!("Ratio: port / Rust of each pair of batches, the median and the middle half.");
    println!("{:<36}{:>16}{:>18}", "", "median of", "lowest of");
    println!(
        "{:<36}{:>8}{:>8}{:>10}{:>8}   ratio",
        "", "Rust", "port", "Rust", "port"
    );
    for sort in SORTS {
        let inputs = inputs(sort);
        row(
            &format!("decode, {}", sort.name),
            &inputs,
            repetitions,
            rust_decode,
            port_decode,
        );
    }
    for sort in SORTS {
        let inputs = inputs(sort);
        row(
            &format!("encode, {}", sort.name),
            &inputs,
            repetitions,
            rust_encode,
            port_encode,
        );
    }
    let typical = inputs(SORTS[1]);
    row(
        "encode, typical, outputs just fit",
        &typical,
        repetitions,
        rust_encode,
        port_encode_exact,
    );
    // The text has one writer: beside both it is the same.
    for sort in SORTS {
        row(
            &format!("encode symmetric, {}", sort.name),
            &alike(sort),
            repetitions,
            rust_encode,
            port_encode_symmetric,
        );
    }
    row(
        "encode symmetric, typical, just fit",
        &alike(SORTS[1]),
        repetitions,
        rust_encode,
        port_encode_symmetric_exact,
    );
    row(
        "dequantize, typical",
        &typical,
        repetitions,
        rust_dequantize,
        port_dequantize,
    );
    row(
        "dwt_extrapolate::decode, typical",
        &typical,
        repetitions,
        rust_transform,
        port_transform,
    );
    for (name, quant) in [("typical", QUANT), ("faint", FAINT)] {
        row(
            &format!("reconstruct_to_rgba, {name}"),
            &tiles(SORTS[1], quant),
            repetitions,
            rust_reconstruct,
            port_reconstruct,
        );
    }
    for (name, upgrades) in [("typical", upgrades(SORTS[1])), ("empty", empty_upgrades())] {
        row(
            &format!("TileState::decode_upgrade, {name}"),
            &upgrades,
            repetitions,
            rust_upgrade,
            port_upgrade,
        );
    }
    for (name, streams) in [
        ("4015 values", streams()),
        ("cut after one byte", cut_streams()),
    ] {
        row(
            &format!("srl decode, {name}"),
            &streams,
            repetitions,
            rust_srl_decode,
            port_srl_decode,
        );
    }
    row(
        "srl encode and finish, 4015 values",
        &streams(),
        repetitions,
        rust_srl_encode,
        port_srl_encode,
    );
    row(
        "ycbcr_to_rgb, 64 pixels",
        &rows(),
        repetitions,
        rust_colours,
        port_colours,
    );
    ExitCode::SUCCESS
}

/// How many batches of each side are timed. 201 if it is not given.
fn repetitions() -> Option<usize> {
    let mut words = env::args().skip(1);
    let number = words.next().map_or(Ok(201), |word| word.parse()).ok()?;
    (words.next().is_none() && number > 0).then_some(number)
}

/// Sees that both sides leave the same, times them in turns, and prints a line.
fn row<I>(name: &str, inputs: &[I], repetitions: usize, rust: Call<I>, port: Call<I>) {
    let mut works = [Work::new(), Work::new()];
    for input in inputs {
        rust(input, &mut works[0]);
        port(input, &mut works[1]);
        assert!(works[0].is_as(&works[1]), "{name}: the two sides differ");
    }
    let mut times = [Vec::new(), Vec::new()];
    for repetition in 0..repetitions {
        let mut order = [(0, rust), (1, port)];
        if repetition % 2 == 1 {
            order.reverse();
        }
        for (side, call) in order {
            times[side].push(batch(inputs, &mut works[side], call));
        }
    }
    let ratios = times[1].iter().zip(&times[0]);
    let ratios = sorted(ratios.map(|(port, rust)| port / rust).collect());
    let [rust, port] = times.map(sorted);
    println!(
        "{name:<36}{:>8.0}{:>8.0}{:>10.0}{:>8.0}   {} ({} to {})",
        quartile(&rust, 2),
        quartile(&port, 2),
        rust[0],
        port[0],
        shown(quartile(&ratios, 2)),
        shown(quartile(&ratios, 1)),
        shown(quartile(&ratios, 3)),
    );
}

/// Nanoseconds for each component, tile, stream or row.
fn batch<I>(inputs: &[I], work: &mut Work, call: Call<I>) -> f64 {
    let start = Instant::now();
    for _ in 0..ROUNDS {
        for input in inputs {
            call(black_box(input), black_box(work));
        }
    }
    start.elapsed().as_nanos() as f64 / (ROUNDS * inputs.len()) as f64
}

fn sorted(mut numbers: Vec<f64>) -> Vec<f64> {
    numbers.sort_by(f64::total_cmp);
    numbers
}

/// The number below which so many quarters of the numbers are.
fn quartile(numbers: &[f64], quarters: usize) -> f64 {
    numbers[numbers.len() * quarters / 4]
}

/// A ratio with two decimals, or three where two would say nothing.
fn shown(ratio: f64) -> String {
    let decimals = if ratio < 0.05 { 3 } else { 2 };
    format!("{ratio:.decimals$}")
}

/// A fresh copy of the component: both sides work in place, and both are timed with it.
fn refresh(input: &Input, work: &mut Work) {
    work.coefficients.copy_from_slice(&input.before);
    work.sign.copy_from_slice(&input.sign);
}

fn rust_decode(input: &Input, work: &mut Work) {
    refresh(input, work);
    progressive::decode_upgrade_pass(
        &input.srl,
        &input.raw,
        &ComponentCodecQuant::of_bands(PREV),
        &ComponentCodecQuant::of_bands(CURR),
        USE_REDUCE_EXTRAPOLATE,
        &mut work.coefficients,
        &mut work.sign,
    )
    .expect("a stream causes no refusal");
}

fn port_decode(input: &Input, work: &mut Work) {
    refresh(input, work);
    let mut missing = [u32::MAX; 2];
    let number = port::decode_upgrade_pass(
        &input.srl,
        &input.raw,
        &PREV,
        &CURR,
        USE_REDUCE_EXTRAPOLATE,
        &mut work.coefficients,
        &mut work.sign,
        &mut missing,
    );
    assert_eq!(number, 0, "a stream causes no refusal");
    assert_eq!(missing, [0; 2], "the streams are whole");
}

/// The text hands out new lists; the work keeps them.
fn rust_encode(input: &Input, work: &mut Work) {
    let (srl, raw) = progressive::encode_upgrade_pass(
        &input.target,
        &input.before,
        &ComponentCodecQuant::of_bands(PREV),
        &ComponentCodecQuant::of_bands(CURR),
        &input.sign,
        USE_REDUCE_EXTRAPOLATE,
    )
    .expect("every value has its width");
    work.written = [srl.len(), raw.len()];
    work.srl = srl;
    work.raw = raw;
}

/// The port writes into outputs that are lent.
fn port_encode(input: &Input, work: &mut Work) {
    write(Rule::Floor, input, work, ROOM, ROOM);
}

fn port_encode_exact(input: &Input, work: &mut Work) {
    write(Rule::Floor, input, work, input.srl.len(), input.raw.len());
}

fn port_encode_symmetric(input: &Input, work: &mut Work) {
    write(Rule::Symmetric, input, work, ROOM, ROOM);
}

fn port_encode_symmetric_exact(input: &Input, work: &mut Work) {
    write(
        Rule::Symmetric,
        input,
        work,
        input.srl.len(),
        input.raw.len(),
    );
}

fn write(rule: Rule, input: &Input, work: &mut Work, srl_room: usize, raw_room: usize) {
    let number = port::encode_upgrade_pass(
        rule,
        &input.target,
        &input.before,
        &PREV,
        &CURR,
        &input.sign,
        USE_REDUCE_EXTRAPOLATE,
        &mut work.srl[..srl_room],
        &mut work.raw[..raw_room],
        &mut work.written,
    );
    assert_eq!(number, 0, "every value has its width, and there is room");
}

fn rust_dequantize(input: &Input, work: &mut Work) {
    refresh(input, work);
    reach::dequantize_component_ccq(
        &mut work.coefficients,
        &ComponentCodecQuant::of_bands(QUANT),
        USE_REDUCE_EXTRAPOLATE,
    );
}

fn port_dequantize(input: &Input, work: &mut Work) {
    refresh(input, work);
    let number = port::dequantize_component(&mut work.coefficients, &QUANT, USE_REDUCE_EXTRAPOLATE);
    assert_eq!(number, 0, "the quantizers are in the domain");
}

/// The wavelet works in place too; its scratch is lent.
fn rust_transform(input: &Input, work: &mut Work) {
    work.coefficients.copy_from_slice(&input.before);
    dwt_extrapolate::decode(&mut work.coefficients, &mut work.temp);
}

fn port_transform(input: &Input, work: &mut Work) {
    work.coefficients.copy_from_slice(&input.before);
    let number = port::dwt_extrapolate_decode(&mut work.coefficients, &mut work.temp);
    assert_eq!(number, 0, "the slices are long enough");
}

fn rust_reconstruct(tile: &Tile, work: &mut Work) {
    tile.state.reconstruct_to_rgba(&mut work.pixels);
}

fn port_reconstruct(tile: &Tile, work: &mut Work) {
    let number = port::tile_reconstruct_to_rgba(
        &tile.state.coefficients,
        &tile.state.sign,
        &tile.zero_signs,
        &[CURR; 3],
        &tile.base_quant,
        USE_REDUCE_EXTRAPOLATE,
        &mut work.pixels,
    );
    assert_eq!(number, 0, "the tile has pixels, and there is room");
}

/// A fresh copy of the tile: both sides work in place, and both are timed with it.
fn refresh_tile(upgrade: &Upgrade, work: &mut Work) {
    let tile = &mut work.tile;
    tile.coefficients = upgrade.before.coefficients;
    tile.sign = upgrade.before.sign;
    tile.prog_quant = upgrade.before.prog_quant;
    tile.pass = upgrade.before.pass;
    tile.quality = upgrade.before.quality;
    tile.use_reduce_extrapolate = USE_REDUCE_EXTRAPOLATE;
}

fn rust_upgrade(upgrade: &Upgrade, work: &mut Work) {
    refresh_tile(upgrade, work);
    work.tile
        .decode_upgrade(
            upgrade.srl.each_ref().map(Vec::as_slice),
            upgrade.raw.each_ref().map(Vec::as_slice),
            [ComponentCodecQuant::of_bands(upgrade.curr); 3],
            50,
        )
        .expect("a stream causes no refusal");
}

fn port_upgrade(upgrade: &Upgrade, work: &mut Work) {
    refresh_tile(upgrade, work);
    work.zero_signs = upgrade.zero_signs;
    let tile = &mut *work.tile;
    let mut prog_quant = [upgrade.prev; 3];
    let mut missing = [u32::MAX; 2];
    let number = port::tile_decode_upgrade(
        port::Tile {
            coefficients: &mut tile.coefficients,
            sign: &mut tile.sign,
            zero_signs: &mut work.zero_signs,
            prog_quant: &mut prog_quant,
            base_quant: &[[6; 10]; 3],
            use_reduce_extrapolate: USE_REDUCE_EXTRAPOLATE,
            pass: &mut tile.pass,
            quality: &mut tile.quality,
        },
        &[upgrade.curr; 3],
        50,
        upgrade.srl.each_ref().map(Vec::as_slice),
        upgrade.raw.each_ref().map(Vec::as_slice),
        &mut missing,
    );
    assert_eq!(number, 0, "a stream causes no refusal");
    assert_eq!(missing, upgrade.missing, "bits that the streams lack");
    tile.prog_quant = prog_quant.map(ComponentCodecQuant::of_bands);
}

/// The text hands out a new list; the work keeps it.
fn rust_srl_decode(stream: &Stream, work: &mut Work) {
    let mut decoder = SrlDecoder::new(&stream.bytes).expect("every stream is one");
    let values = decoder.decode(stream.values.len(), stream.width);
    work.values = values.expect("the width is one the decoder takes");
}

/// The port writes into an output that is lent.
fn port_srl_decode(stream: &Stream, work: &mut Work) {
    let count = stream.values.len();
    work.values.resize(count, 0);
    let mut state = [0, 0, 8, 0, 0];
    let mut missing = u64::MAX;
    let number = port::srl_decode(
        &stream.bytes,
        &mut state,
        &mut work.values,
        count,
        stream.width,
        &mut missing,
    );
    assert_eq!(
        number, 0,
        "the width is one the decoder takes, and there is room"
    );
    assert_eq!(missing, stream.missing, "bits that the stream lacks");
}

fn rust_srl_encode(stream: &Stream, work: &mut Work) {
    let mut encoder = SrlEncoder::new();
    encoder
        .encode(&stream.values, stream.width)
        .expect("the values fit");
    work.srl = encoder.finish().expect("the zeros are few");
    work.written = [work.srl.len(), 0];
}

fn port_srl_encode(stream: &Stream, work: &mut Work) {
    let mut state = [8, 0, 0, 0];
    let mut written = 0;
    let number = port::srl_encode(
        &stream.values,
        &mut state,
        &mut work.srl,
        stream.width,
        &mut written,
    );
    assert_eq!(number, 0, "the values fit, and there is room");
    let mut last = 0;
    let number = port::srl_finish(&state, &mut work.srl[written..], &mut last);
    assert_eq!(number, 0, "there is room");
    work.written = [written + last, 0];
}

fn rust_colours(pixels: &Pixels, work: &mut Work) {
    for (&[y, cb, cr], rgba) in pixels.iter().zip(work.pixels.chunks_exact_mut(4)) {
        rgba[..3].copy_from_slice(&reach::ycbcr_to_rgb(y, cb, cr));
    }
}

fn port_colours(pixels: &Pixels, work: &mut Work) {
    for (&[y, cb, cr], rgba) in pixels.iter().zip(work.pixels.chunks_exact_mut(4)) {
        let rgb = rgba.first_chunk_mut().expect("a pixel has four bytes");
        port::ycbcr_to_rgb(y, cb, cr, rgb);
    }
}
