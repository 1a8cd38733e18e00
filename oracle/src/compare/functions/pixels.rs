//! `tarjimp_dwt_extrapolate_decode` and `tarjimp_ycbcr_to_rgb`.

use oracle::kinds::color::with_pixel;
use oracle::kinds::wavelet::{Given, Lists, impulse_lists};
use oracle::port;
use oracle::progressive::reach;
use oracle::record::Fields;

use super::{Agrees, same, same_answer, same_places};

/// Has both transform the lists, and gives the refusal and those of the port.
fn transformed(lists: &Lists) -> Result<(u8, Lists), String> {
    let mut text = lists.clone();
    let text_number = text.decode();
    let mut lists = lists.clone();
    let [buffer, temp] = lists.lengths;
    let number = port::dwt_extrapolate_decode(&mut lists.buffer[..buffer], &mut lists.temp[..temp]);
    same("refusal", number, text_number)?;
    same_places("buffer", &lists.buffer, &text.buffer)?;
    same_places("scratch", &lists.temp, &text.temp)?;
    Ok((number, lists))
}

/// Any lists.
pub fn dwt_decode(fields: &mut Fields<'_>) -> Agrees {
    let (number, lists) = transformed(&Given::read(fields).lists())?;
    same_answer(fields, &[number])?;
    same_answer(fields, &lists.digest().to_le_bytes())
}

/// One value at one place.
pub fn dwt_impulse(fields: &mut Fields<'_>) -> Agrees {
    let (place, amplitude) = (fields.short(), fields.i16());
    let (_, lists) = transformed(&impulse_lists(place, amplitude))?;
    same_answer(fields, &lists.digest().to_le_bytes())
}

/// What the port makes of a pixel, in place of other bytes.
fn port_rgb(y: i16, cb: i16, cr: i16) -> [u8; 3] {
    let mut rgb = [y as u8, cb as u8, cr as u8].map(|byte| !byte);
    port::ycbcr_to_rgb(y, cb, cr, &mut rgb);
    rgb
}

/// One pixel.
pub fn ycbcr_to_rgb(fields: &mut Fields<'_>) -> Agrees {
    let [y, cb, cr] = [(); 3].map(|()| fields.i16());
    let rgb = port_rgb(y, cb, cr);
    same("colours", rgb, reach::ycbcr_to_rgb(y, cb, cr))?;
    same_answer(fields, &rgb)
}

/// A pixel for each y.
pub fn ycbcr_row(fields: &mut Fields<'_>) -> Agrees {
    let [cb, cr] = [(); 2].map(|()| fields.i16());
    let mut digest = 0;
    for y in (0..=u16::MAX).map(u16::cast_signed) {
        let rgb = port_rgb(y, cb, cr);
        if rgb != reach::ycbcr_to_rgb(y, cb, cr) {
            return same(&format!("y {y}"), rgb, reach::ycbcr_to_rgb(y, cb, cr));
        }
        digest = with_pixel(digest, rgb);
    }
    same_answer(fields, &digest.to_le_bytes())
}
