//! `tarjimp_tile_decode_upgrade`, `tarjimp_tile_reconstruct_to_rgba` and `tarjimp_tile_zero_signs`.

use oracle::codecs::rfx::progressive::ComponentCodecQuant;
use oracle::digest::with_bytes;
use oracle::kinds::missing::{self, Missing};
use oracle::kinds::progressive::ladder::{From, Step, Upgrade, answer_fields};
use oracle::kinds::progressive::pixels;
use oracle::kinds::progressive::tile::{self, Start, Tile};
use oracle::kinds::progressive::zero_signs::{self, Wrong};
use oracle::port;
use oracle::record::Fields;

use super::{Agrees, same, same_answer, same_places};

/// Has the port upgrade a tile: the refusal, or 0, and the bits that were missing.
fn upgrade(tile: &mut Tile, given: &Upgrade) -> (u8, Missing) {
    let Tile { state, zero_signs } = tile;
    let tile::Fields {
        mut prog_quant,
        base_quant,
        use_reduce_extrapolate,
        ..
    } = tile::Fields::of(state);
    let mut missing = [u32::MAX; 2];
    let number = port::tile_decode_upgrade(
        port::Tile {
            coefficients: &mut state.coefficients,
            sign: &mut state.sign,
            zero_signs,
            prog_quant: &mut prog_quant,
            base_quant: &base_quant,
            use_reduce_extrapolate,
            pass: &mut state.pass,
            quality: &mut state.quality,
        },
        &given.rows,
        given.quality,
        given.srl.each_ref().map(Vec::as_slice),
        given.raw.each_ref().map(Vec::as_slice),
        &mut missing,
    );
    state.prog_quant = prog_quant.map(ComponentCodecQuant::of_bands);
    (number, missing)
}

fn same_tile(port: &Tile, text: &Tile) -> Agrees {
    let [port_numbers, text_numbers] = [port, text].map(|tile| tile.zero_signs.as_flattened());
    let [port, text] = [port, text].map(|tile| &tile.state);
    same_places(
        "coefficients",
        port.coefficients.as_flattened(),
        text.coefficients.as_flattened(),
    )?;
    same_places("signs", port.sign.as_flattened(), text.sign.as_flattened())?;
    same_places("zero signs", port_numbers, text_numbers)?;
    let [port, text] = [port, text].map(|tile| tile::Fields::of(tile).bytes());
    same_places("other fields", &port, &text)
}

/// Whether the port counts the zero signs of a tile as the oracle does.
fn same_count(tile: &Tile) -> Agrees {
    let state = &tile.state;
    let mut numbers = [[u16::MAX; 10]; 3];
    port::tile_zero_signs(&state.sign, state.use_reduce_extrapolate, &mut numbers);
    let text = zero_signs::of(state);
    same_places(
        "count of zero signs",
        numbers.as_flattened(),
        text.as_flattened(),
    )
}

/// Has both upgrade a tile, and gives the refusal, or 0, and the bits that were missing.
pub fn same_upgrade(
    tile: &mut Tile,
    text: &mut Tile,
    given: &Upgrade,
) -> Result<(u8, Missing), String> {
    let (text_number, text_missing) = given.apply(text);
    let (number, missing) = upgrade(tile, given);
    same("refusal", number, text_number)?;
    same("missing bits", missing, text_missing)?;
    same_tile(tile, text)?;
    Ok((number, missing))
}

/// A tile and upgrades one after another. No function makes or loads a tile: the text's is taken.
pub fn upgrade_ladder(fields: &mut Fields<'_>) -> Agrees {
    let mut start = Start::read(fields);
    let from = From::read(fields);
    let steps = fields.u8();
    start.wrong = Wrong::read(fields);
    let (number, mut text) = from.tile(&start);
    let (_, mut tile) = from.tile(&start);
    same_count(&tile)?;
    same_answer(fields, &answer_fields(number, &tile))?;
    for index in 0..usize::from(steps) {
        let given = Step::read(fields).upgrade(&start, index, &text.state);
        let (number, missing) = same_upgrade(&mut tile, &mut text, &given)
            .map_err(|what| format!("upgrade {index}, {what}"))?;
        same_answer(fields, &answer_fields(number, &tile))?;
        same_answer(fields, &missing::fields(missing))?;
    }
    Ok(())
}

/// The pixels of a tile, which stays as it is.
pub fn tile_pixels(fields: &mut Fields<'_>) -> Agrees {
    let mut start = Start::read(fields);
    let length = fields.short();
    start.wrong = Wrong::read(fields);
    let (text_number, text) = pixels::pixels(&start, length);
    let tile = start.built();
    same_count(&tile)?;
    let mut pixels = pixels::before();
    let number = port::tile_reconstruct_to_rgba(
        &tile.state.coefficients,
        &tile.state.sign,
        &tile.zero_signs,
        &start.fields.prog_quant,
        &start.fields.base_quant,
        start.fields.use_reduce_extrapolate,
        &mut pixels[..length],
    );
    same("refusal", number, text_number)?;
    same_places("pixels", &pixels, &text)?;
    same_tile(&tile, &start.built())?;
    same_answer(fields, &[number])?;
    same_answer(fields, &with_bytes(0, &pixels).to_le_bytes())
}
