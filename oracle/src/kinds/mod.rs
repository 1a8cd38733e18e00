//! The kinds of cases. README.md lists them.

mod bands;
pub mod color;
mod fixed;
pub mod missing;
pub mod places;
pub mod progressive;
pub mod room;
pub mod srl;
pub mod wavelet;
pub mod wrong;

use std::io;

use crate::record::{Case, Recording};
use oracle::random::Random;

/// The number and the name of each kind.
pub const KINDS: [(u8, &str); 35] = [
    (1, "clamp_i16"),
    (2, "clamp_u8"),
    (3, "t"),
    (4, "round_shift_right"),
    (5, "shift_left_clamp"),
    (6, "shift_right_floor"),
    (7, "add_scaled"),
    (8, "sub_scaled"),
    (9, "sub_clamp"),
    (10, "magnitude"),
    (11, "with_sign"),
    (12, "sign_of"),
    (13, "halves"),
    (14, "widen"),
    (15, "sign_use"),
    (20, "band"),
    (21, "ll3_offset"),
    (22, "band_of_place"),
    (31, "wrong_answer"),
    (32, "srl_decode"),
    (33, "srl_encode"),
    (34, "srl_exhaustive"),
    (35, "wrong_case"),
    (36, "decode_upgrade"),
    (37, "encode_upgrade"),
    (38, "dequantize"),
    (39, "tile_load"),
    (40, "upgrade_ladder"),
    (41, "dwt_decode"),
    (42, "dwt_impulse"),
    (43, "ycbcr_to_rgb"),
    (44, "ycbcr_row"),
    (45, "tile_pixels"),
    (46, "cut_everywhere"),
    (47, "encode_symmetric"),
];

/// The name of a kind.
pub fn name(kind: u8) -> &'static str {
    let named = KINDS.iter().find(|(number, _)| *number == kind);
    named.expect("a kind that is recorded has a name").1
}

/// Whether there is a kind of this number.
pub fn is_known(kind: u8) -> bool {
    KINDS.iter().any(|(number, _)| *number == kind)
}

/// The size of a case, if all cases of the kind have the same.
fn size(kind: u8) -> Option<usize> {
    let one_size = fixed::KINDS.iter().chain(&[
        bands::BAND,
        bands::LL3_OFFSET,
        places::BAND_OF_PLACE,
        wrong::WRONG_ANSWER,
        srl::exhaustive::SRL_EXHAUSTIVE,
        progressive::cuts::CUT_EVERYWHERE,
        wavelet::DWT_DECODE,
        wavelet::DWT_IMPULSE,
        color::YCBCR_TO_RGB,
        color::YCBCR_ROW,
    ]);
    let mut of_kind = one_size.filter(|known| known.number == kind);
    of_kind.next().map(|known| known.size)
}

/// The cases of a record.
pub fn cases(kind: u8, payload: &[u8]) -> impl Iterator<Item = &[u8]> {
    payload.chunks(size(kind).unwrap_or(payload.len()).max(1))
}

/// Whether the answers of a kind's cases are wrong.
pub fn is_wrong(kind: u8) -> bool {
    [wrong::WRONG_ANSWER.number, wrong::WRONG_CASE].contains(&kind)
}

/// The port's refusals of an output that is too short, and of a state that cannot be: of a coder, or of a
/// tile whose numbers of zero signs are wrong. The text has nothing like them: README.md has the rule.
const NO_ROOM: u8 = 7;
const IMPOSSIBLE_STATE: u8 = 8;

/// Records the cases of every kind.
pub fn record_all(recording: &mut Recording<'_>) -> io::Result<()> {
    fixed::record_all(recording)?;
    bands::record_all(recording)?;
    places::record_all(recording)?;
    let mut models = srl::record_all(recording)?;
    models.extend(progressive::record_all(recording)?);
    wavelet::record_all(recording)?;
    color::record_all(recording)?;
    wrong::record_all(recording)?;
    wrong::record_models(recording, &models)
}

/// Records the cases of one kind: models, directed ones, and random ones, `count` of them at scale 1.
/// The answer is the models with the kind.
fn record_kind(
    recording: &mut Recording<'_>,
    kind: u8,
    models: Vec<Case>,
    directed: &[Case],
    count: u32,
    random_case: fn(&mut Random) -> Case,
) -> io::Result<Vec<(u8, Case)>> {
    for case in models.iter().chain(directed) {
        recording.record_case(kind, case)?;
    }
    let mut random = recording.random(kind);
    for _ in 0..recording.scaled(count) {
        let case = random_case(&mut random);
        recording.record_case(kind, &case)?;
    }
    Ok(models.into_iter().map(|case| (kind, case)).collect())
}

/// A length or a count, as a field of 2 bytes.
fn short(number: usize) -> [u8; 2] {
    u16::try_from(number)
        .expect("a length of a case fits")
        .to_le_bytes()
}
