//! `tarjimp_band_of_place` and `tarjimp_bands_of_places`.

use oracle::kinds::places;
use oracle::port;
use oracle::record::Fields;

use super::{Agrees, same, same_answer};

/// One place, by itself and as an entry of the whole table.
pub fn band_of_place(fields: &mut Fields<'_>) -> Agrees {
    let use_reduce_extrapolate = fields.flag();
    let place = fields.long();
    let text = places::band_of_place(use_reduce_extrapolate, place as u64);
    let band = port::band_of_place(use_reduce_extrapolate, place);
    same("band", band, text)?;
    let mut bands = [u8::MAX; 4096];
    port::bands_of_places(use_reduce_extrapolate, &mut bands);
    if let Some(&entry) = bands.get(place) {
        same("entry of the table", entry, text)?;
    }
    same_answer(fields, &[band])
}
