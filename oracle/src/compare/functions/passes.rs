//! `tarjimp_decode_upgrade_pass`, `tarjimp_encode_upgrade_pass`, `tarjimp_encode_upgrade_pass_symmetric` and
//! `tarjimp_dequantize_component`.

use oracle::digest::with_values;
use oracle::kinds::missing::{self, Missing};
use oracle::kinds::progressive::component::{Given, Made};
use oracle::kinds::progressive::encode::Writer;
use oracle::kinds::progressive::{decode, dequantize, encode};
use oracle::kinds::room::Room;
use oracle::port::{self, Rule};
use oracle::record::Fields;

use super::{Agrees, same, same_answer, same_places};

/// What the port makes of the coefficients before the pass, and of the signs; the refusal, or 0, and the
/// bits that were missing.
fn read(given: &Given, srl: &[u8], raw: &[u8], made: &mut Made) -> (u8, Missing) {
    let [_, before, sign] = given.lengths;
    let mut missing = [u32::MAX; 2];
    let number = port::decode_upgrade_pass(
        srl,
        raw,
        &given.prev,
        &given.curr,
        given.use_reduce_extrapolate,
        &mut made.before[..before],
        &mut made.sign[..sign],
        &mut missing,
    );
    (number, missing)
}

/// Whether the places are the same, also those behind the slices.
fn same_made(port: &Made, text: &Made) -> Agrees {
    same_places("coefficients", &port.before, &text.before)?;
    same_places("signs", &port.sign, &text.sign)?;
    same_places("target", &port.target, &text.target)
}

/// Has both read a pass into places that `make` gives, and gives the refusal, or 0, the bits that were missing and the
/// places of the port.
pub fn same_read(
    given: &Given,
    srl: &[u8],
    raw: &[u8],
    make: impl Fn() -> Made,
) -> Result<(u8, Missing, Made), String> {
    let [mut made, mut text] = [make(), make()];
    let (text_number, text_missing) = decode::read(given, srl, raw, &mut text);
    let (number, missing) = read(given, srl, raw, &mut made);
    same("refusal", number, text_number)?;
    same("missing bits", missing, text_missing)?;
    same_made(&made, &text)?;
    Ok((number, missing, made))
}

/// A pass that is read.
pub fn decode_upgrade(fields: &mut Fields<'_>) -> Agrees {
    let given = Given::read(fields);
    let [srl, raw] = fields.shorts();
    let mut answers = Fields::of(fields.bytes(17));
    let srl = fields.bytes(srl);
    let raw = fields.bytes(raw);
    let (number, missing, made) = same_read(&given, srl, raw, || given.make())?;
    same_answer(&mut answers, &[number])?;
    same_answer(&mut answers, &decode::digest(&made).to_le_bytes())?;
    same_answer(&mut answers, &missing::fields(missing))
}

/// A pass that is written by either rule, and read back if it is accepted.
pub fn encode_upgrade(fields: &mut Fields<'_>, writer: Writer) -> Agrees {
    let given = Given::read(fields);
    let rooms: [usize; 2] = fields.shorts();
    let text = writer.answer(&given, rooms.map(Room::Of));
    let rule = match writer {
        Writer::Text => Rule::Floor,
        Writer::Symmetric => Rule::Symmetric,
    };
    let mut made = given.make();
    let mut outputs = [encode::held(&[]), encode::held(&[])];
    let [srl_out, raw_out] = &mut outputs;
    let [target, before, sign] = given.lengths;
    let mut written = [usize::MAX; 2];
    let number = port::encode_upgrade_pass(
        rule,
        &made.target[..target],
        &made.before[..before],
        &given.prev,
        &given.curr,
        &made.sign[..sign],
        given.use_reduce_extrapolate,
        &mut srl_out[..rooms[0]],
        &mut raw_out[..rooms[1]],
        &mut written,
    );
    same("refusal", number, text.number)?;
    same("counts of bytes", written, text.written)?;
    same_places("SRL output", &outputs[0], &text.outputs[0])?;
    same_places("raw output", &outputs[1], &text.outputs[1])?;
    let mut missing = [0; 2];
    if number == 0 {
        let [srl, raw] = [0, 1].map(|k| &outputs[k][..written[k]]);
        let (read, bits) = read(&given, srl, raw, &mut made);
        same("refusal of what is written", read, 0)?;
        missing = bits;
    }
    same("missing bits", missing, text.missing)?;
    same_made(&made, &text.made)?;
    let answer = encode::Answer {
        rooms,
        number,
        written,
        outputs,
        made,
        missing,
    };
    same_answer(fields, &answer.fields())
}

/// A component that is dequantized.
pub fn dequantize(fields: &mut Fields<'_>) -> Agrees {
    let given = Given::read(fields);
    let mut text = given.make().target;
    let text_number = dequantize::dequantize(&given, &mut text);
    let mut target = given.make().target;
    let number = port::dequantize_component(
        &mut target[..given.lengths[0]],
        &given.curr,
        given.use_reduce_extrapolate,
    );
    same("refusal", number, text_number)?;
    same_places("coefficients", &target, &text)?;
    same_answer(fields, &[number])?;
    same_answer(fields, &with_values(0, target).to_le_bytes())
}
