//! The functions of the static library, asked in this process. The text is asked once more, and all
//! that both leave is compared byte by byte, also what no one may touch; then the answers of the case
//! are compared with those of the functions.

mod cuts;
mod passes;
mod pixels;
mod places;
mod srl;
mod tiles;

use std::fmt::Debug;

use oracle::kinds::progressive::{decode, dequantize, encode, ladder};
use oracle::kinds::srl as srl_kinds;
use oracle::kinds::{color, places as place_kinds, progressive, wavelet, wrong};
use oracle::record::Fields;

/// Whether the functions agree with the text, and if not, what differs.
type Agrees = Result<(), String>;

/// Whether the functions give the answers of a case. Nothing where no function answers cases of the
/// kind.
pub fn agree(kind: u8, case: &[u8]) -> Option<Agrees> {
    const WRONG_ANSWER: u8 = wrong::WRONG_ANSWER.number;
    const SRL_EXHAUSTIVE: u8 = srl_kinds::exhaustive::SRL_EXHAUSTIVE.number;
    const CUT_EVERYWHERE: u8 = progressive::cuts::CUT_EVERYWHERE.number;
    const DWT_DECODE: u8 = wavelet::DWT_DECODE.number;
    const DWT_IMPULSE: u8 = wavelet::DWT_IMPULSE.number;
    const YCBCR_TO_RGB: u8 = color::YCBCR_TO_RGB.number;
    const YCBCR_ROW: u8 = color::YCBCR_ROW.number;
    const BAND_OF_PLACE: u8 = place_kinds::BAND_OF_PLACE.number;
    let mut fields = Fields::of(case);
    let agrees = match kind {
        srl_kinds::decode::SRL_DECODE => srl::decode(&mut fields),
        srl_kinds::encode::SRL_ENCODE => srl::encode(&mut fields),
        SRL_EXHAUSTIVE => srl::exhaustive(&mut fields),
        decode::DECODE_UPGRADE => passes::decode_upgrade(&mut fields),
        encode::ENCODE_UPGRADE => passes::encode_upgrade(&mut fields, encode::Writer::Text),
        encode::ENCODE_SYMMETRIC => passes::encode_upgrade(&mut fields, encode::Writer::Symmetric),
        dequantize::DEQUANTIZE => passes::dequantize(&mut fields),
        ladder::UPGRADE_LADDER => tiles::upgrade_ladder(&mut fields),
        progressive::pixels::TILE_PIXELS => tiles::tile_pixels(&mut fields),
        CUT_EVERYWHERE => cuts::cut_everywhere(&mut fields),
        DWT_DECODE => pixels::dwt_decode(&mut fields),
        DWT_IMPULSE => pixels::dwt_impulse(&mut fields),
        YCBCR_TO_RGB => pixels::ycbcr_to_rgb(&mut fields),
        YCBCR_ROW => pixels::ycbcr_row(&mut fields),
        BAND_OF_PLACE => places::band_of_place(&mut fields),
        WRONG_ANSWER | wrong::WRONG_CASE => {
            let (&kind, case) = case.split_first()?;
            return agree(kind, case).map(not);
        }
        _ => return None,
    };
    Some(agrees)
}

/// A wrong answer must not be found right.
fn not(agrees: Agrees) -> Agrees {
    match agrees {
        Ok(()) => Err("a wrong answer is taken for a right one".into()),
        Err(_) => Ok(()),
    }
}

/// Whether what the port has is what the text, or the second form of a count, gives.
fn same<T: PartialEq + Debug>(what: &str, port: T, text: T) -> Agrees {
    if port == text {
        return Ok(());
    }
    Err(format!(
        "{what}: the port has {port:?}, the oracle {text:?}"
    ))
}

/// Whether two lists are the same, at every place.
fn same_places<T: PartialEq + Debug + Copy>(what: &str, port: &[T], text: &[T]) -> Agrees {
    same(&format!("{what}, length"), port.len(), text.len())?;
    match port.iter().zip(text).position(|(port, text)| port != text) {
        Some(place) => same(&format!("{what}, place {place}"), port[place], text[place]),
        None => Ok(()),
    }
}

/// Whether the case has the answer of the port next.
fn same_answer(fields: &mut Fields<'_>, answer: &[u8]) -> Agrees {
    if fields.has(answer) {
        return Ok(());
    }
    Err(format!("the answer of the port is {answer:02x?}"))
}

/// The bytes of an output before a call.
fn bytes_before(count: usize) -> Vec<u8> {
    (0..count).map(|place| (place % 200) as u8 + 55).collect()
}

/// The list with some of its first places changed.
fn overwritten<T: Copy>(mut list: Vec<T>, first: &[T]) -> Vec<T> {
    list[..first.len()].copy_from_slice(first);
    list
}
