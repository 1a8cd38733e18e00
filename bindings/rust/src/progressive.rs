//! Upgrade passes, dequantizing, colours, and tiles.

use crate::ComponentCodecQuant;
use crate::dwt_extrapolate::{BandInfo, band_layout};
use crate::error::defect;
use crate::ffi::{self, Rule};
use crate::srl::{SrlError, too_large};

/// The coefficients of a component.
pub const COEFFICIENTS_PER_COMPONENT: usize = 4096;

/// The columns and rows of a tile, in pixels.
pub const TILE_DIM: u16 = 64;

/// The bytes of a pixel: red, green, blue, and 255.
pub const TILE_BYTES_PER_PIXEL: usize = 4;

/// The bands of a component.
pub const NUM_BANDS: usize = 10;

/// The sign of a coefficient of which nothing is known yet.
pub const SIGN_ZERO: i8 = 0;
/// The sign of a positive coefficient.
pub const SIGN_POSITIVE: i8 = 1;
/// The sign of a negative coefficient.
pub const SIGN_NEGATIVE: i8 = -1;

/// No SRL stream of a pass has more bytes: [`srl_bytes_for`] a drop of 15, the greatest.
pub const SRL_BYTES_MAX: usize = srl_bytes_for(15);

/// No raw stream of a pass has more bytes: [`raw_bytes_for`] a drop of 15, the greatest.
pub const RAW_BYTES_MAX: usize = raw_bytes_for(15);

/// The room that an SRL stream gets at first. Few are longer.
const USUAL_SRL_BYTES: usize = 8192;

/// The bytes that the SRL stream of a pass has at most, by either writer. `drop` is the most by which the
/// pass lowers a position; above 15 it counts as 15, since such positions are refused. Proved:
/// `room_suffices` of the library's crate `progressive`.
///
/// ```
/// use tarjimp::progressive::{SRL_BYTES_MAX, srl_bytes_for};
///
/// assert_eq!(srl_bytes_for(1), 1010);
/// assert_eq!(SRL_BYTES_MAX, 16_515_074);
/// ```
pub const fn srl_bytes_for(drop: u8) -> usize {
    // 2^drop bits for each of at most 4,032 values, and two bytes more.
    (504 << at_most_15(drop)) + 2
}

/// The bytes that the raw stream of a pass has at most, by either writer, as [`srl_bytes_for`].
///
/// ```
/// use tarjimp::progressive::{RAW_BYTES_MAX, raw_bytes_for};
///
/// assert_eq!(raw_bytes_for(1), 512);
/// assert_eq!(RAW_BYTES_MAX, 7680);
/// ```
pub const fn raw_bytes_for(drop: u8) -> usize {
    // A bit of each place for each position.
    COEFFICIENTS_PER_COMPONENT / 8 * at_most_15(drop)
}

/// The drop of a pass that is not refused for its positions.
const fn at_most_15(drop: u8) -> usize {
    if drop < 15 { drop as usize } else { 15 }
}

/// How many of the bits that a pass read came from past the end of its streams. Both are 0 where the streams
/// had all of them.
///
/// What past the end is read as zeros need not be lost: a writer may leave out zeros at a stream's end.
#[derive(Debug, Clone, Copy, Default, PartialEq, Eq)]
pub struct MissingBits {
    /// Of the SRL stream; for a tile, of all three.
    pub srl: u32,
    /// Of the raw stream; for a tile, of all three.
    pub raw: u32,
}

impl MissingBits {
    /// As the library has them.
    fn of_numbers([srl, raw]: [u32; 2]) -> Self {
        Self { srl, raw }
    }
}

/// Reads an upgrade pass over one component, in place: the coefficients of each band go from its position
/// in `prev_prog_quant` to that in `curr_prog_quant`. [`decode_upgrade_pass_counted`] says also how many
/// bits were missing.
///
/// # Errors
///
/// [`SrlError::SliceTooShort`] if `coefficients` or `sign` has fewer than 4,096 elements,
/// [`SrlError::OutOfDomain`] if a position is above 15. Both slices are as they were then.
pub fn decode_upgrade_pass(
    srl_data: &[u8],
    raw_data: &[u8],
    prev_prog_quant: &ComponentCodecQuant,
    curr_prog_quant: &ComponentCodecQuant,
    use_reduce_extrapolate: bool,
    coefficients: &mut [i16],
    sign: &mut [i8],
) -> Result<(), SrlError> {
    decode_upgrade_pass_counted(
        srl_data,
        raw_data,
        prev_prog_quant,
        curr_prog_quant,
        use_reduce_extrapolate,
        coefficients,
        sign,
    )
    .map(|_| ())
}

/// As [`decode_upgrade_pass`], with the answer how many bits came from past the end of each stream.
///
/// # Errors
///
/// As [`decode_upgrade_pass`].
///
/// ```
/// use tarjimp::ComponentCodecQuant;
/// use tarjimp::progressive::{MissingBits, decode_upgrade_pass_counted, encode_upgrade_pass};
///
/// let prev = ComponentCodecQuant::of_bands([3; 10]);
/// let curr = ComponentCodecQuant::of_bands([1; 10]);
/// let (zeros, no_sign) = ([0; 4096], [0; 4096]);
/// let mut target = zeros;
/// target[100] = 6;
/// let (srl, raw) = encode_upgrade_pass(&target, &zeros, &prev, &curr, &no_sign, true)?;
///
/// let read = |srl: &[u8], raw: &[u8]| {
///     let (mut coefficients, mut sign) = (zeros, no_sign);
///     decode_upgrade_pass_counted(srl, raw, &prev, &curr, true, &mut coefficients, &mut sign)
/// };
/// assert_eq!(read(&srl, &raw)?, MissingBits { srl: 0, raw: 0 });
/// // Of the raw bits two bytes are lost, and the six bits that pad the last one were never read.
/// assert_eq!(read(&srl, &raw[..raw.len() - 2])?, MissingBits { srl: 0, raw: 10 });
/// # Ok::<(), tarjimp::Error>(())
/// ```
pub fn decode_upgrade_pass_counted(
    srl_data: &[u8],
    raw_data: &[u8],
    prev_prog_quant: &ComponentCodecQuant,
    curr_prog_quant: &ComponentCodecQuant,
    use_reduce_extrapolate: bool,
    coefficients: &mut [i16],
    sign: &mut [i8],
) -> Result<MissingBits, SrlError> {
    let mut missing = [0; 2];
    let number = ffi::decode_upgrade_pass(
        srl_data,
        raw_data,
        &prev_prog_quant.bands(),
        &curr_prog_quant.bands(),
        use_reduce_extrapolate,
        coefficients,
        sign,
        &mut missing,
    );
    match number {
        0 => Ok(MissingBits::of_numbers(missing)),
        1 => Err(SrlError::SliceTooShort),
        2 => Err(SrlError::OutOfDomain),
        number => defect("tarjimp_decode_upgrade_pass", number),
    }
}

/// Writes an upgrade pass over one component, from `prev_coefficients`, with their signs, to
/// `coefficients`: the SRL stream and the raw stream.
///
/// By the source's rule, which shifts a coefficient of unknown sign with floor: a negative one is cut
/// further from zero than its positive twin, and may not fit. [`encode_upgrade_pass_symmetric`] treats them
/// alike.
///
/// # Errors
///
/// [`SrlError::SliceTooShort`] if a slice has fewer than 4,096 elements, [`SrlError::OutOfDomain`] if a
/// position is above 15, [`SrlError::MagnitudeOutOfRange`] if a value of the SRL stream does not fit its
/// band's width.
///
/// ```
/// use tarjimp::ComponentCodecQuant;
/// use tarjimp::progressive::{decode_upgrade_pass, encode_upgrade_pass};
///
/// let prev = ComponentCodecQuant::of_bands([3; 10]);
/// let curr = ComponentCodecQuant::of_bands([1; 10]);
/// let (mut coefficients, mut sign) = ([0; 4096], [0; 4096]);
/// let mut target = coefficients;
/// target[100] = 6;
///
/// let (srl, raw) = encode_upgrade_pass(&target, &coefficients, &prev, &curr, &sign, true)?;
/// decode_upgrade_pass(&srl, &raw, &prev, &curr, true, &mut coefficients, &mut sign)?;
/// assert_eq!((coefficients, sign[100]), (target, 1));
/// # Ok::<(), tarjimp::Error>(())
/// ```
pub fn encode_upgrade_pass(
    coefficients: &[i16],
    prev_coefficients: &[i16],
    prev_prog_quant: &ComponentCodecQuant,
    curr_prog_quant: &ComponentCodecQuant,
    sign: &[i8],
    use_reduce_extrapolate: bool,
) -> Result<(Vec<u8>, Vec<u8>), SrlError> {
    write_pass(
        Rule::Floor,
        coefficients,
        prev_coefficients,
        prev_prog_quant,
        curr_prog_quant,
        sign,
        use_reduce_extrapolate,
    )
}

/// As [`encode_upgrade_pass`], by the symmetric rule: a negative coefficient is sent like its positive twin.
///
/// At an unknown sign outside LL3 the SRL stream has the difference of the two coefficients, its sign kept
/// and its magnitude shifted right by the position. In LL3 the raw stream has the difference of the two
/// floors, not below 0. Other places have what [`encode_upgrade_pass`] writes.
///
/// `coefficients` may be the picture itself in every pass. `prev_coefficients` are what the reader has of
/// it: cut at the previous positions, outside LL3 with its sign kept, in LL3 by floor. Then no magnitude is
/// too large, and the reader comes to the picture cut at the current positions: in how many passes it is sent
/// does not matter.
///
/// # Errors
///
/// As [`encode_upgrade_pass`].
///
/// ```
/// use tarjimp::ComponentCodecQuant;
/// use tarjimp::progressive::{
///     decode_upgrade_pass, encode_upgrade_pass, encode_upgrade_pass_symmetric,
/// };
///
/// let [prev, curr] = [3, 1].map(|number| ComponentCodecQuant::of_bands([number; 10]));
/// let (mut coefficients, mut sign) = ([0; 4096], [0; 4096]);
/// let mut target = coefficients;
/// (target[100], target[101]) = (7, -7);
/// // LL3: from -8, the floor at position 3.
/// (coefficients[4015], target[4015]) = (-8, -5);
///
/// let refused = encode_upgrade_pass(&target, &coefficients, &prev, &curr, &sign, true);
/// assert_eq!(refused.map_err(|error| error.number()), Err(5));
///
/// let (srl, raw) =
///     encode_upgrade_pass_symmetric(&target, &coefficients, &prev, &curr, &sign, true)?;
/// decode_upgrade_pass(&srl, &raw, &prev, &curr, true, &mut coefficients, &mut sign)?;
/// assert_eq!((coefficients[100], coefficients[101], coefficients[4015]), (6, -6, -6));
/// # Ok::<(), tarjimp::Error>(())
/// ```
pub fn encode_upgrade_pass_symmetric(
    coefficients: &[i16],
    prev_coefficients: &[i16],
    prev_prog_quant: &ComponentCodecQuant,
    curr_prog_quant: &ComponentCodecQuant,
    sign: &[i8],
    use_reduce_extrapolate: bool,
) -> Result<(Vec<u8>, Vec<u8>), SrlError> {
    write_pass(
        Rule::Symmetric,
        coefficients,
        prev_coefficients,
        prev_prog_quant,
        curr_prog_quant,
        sign,
        use_reduce_extrapolate,
    )
}

/// Either writer, with outputs that grow.
fn write_pass(
    rule: Rule,
    coefficients: &[i16],
    prev_coefficients: &[i16],
    prev_prog_quant: &ComponentCodecQuant,
    curr_prog_quant: &ComponentCodecQuant,
    sign: &[i8],
    use_reduce_extrapolate: bool,
) -> Result<(Vec<u8>, Vec<u8>), SrlError> {
    let mut srl_data = vec![0; USUAL_SRL_BYTES];
    let mut raw_data = vec![0; RAW_BYTES_MAX];
    let mut written = [0; 2];
    loop {
        let number = ffi::encode_upgrade_pass(
            rule,
            coefficients,
            prev_coefficients,
            &prev_prog_quant.bands(),
            &curr_prog_quant.bands(),
            sign,
            use_reduce_extrapolate,
            &mut srl_data,
            &mut raw_data,
            &mut written,
        );
        match number {
            0 => {
                srl_data.truncate(written[0]);
                raw_data.truncate(written[1]);
                return Ok((srl_data, raw_data));
            }
            1 => return Err(SrlError::SliceTooShort),
            2 => return Err(SrlError::OutOfDomain),
            5 => {
                let refusal = first_too_large(
                    rule,
                    coefficients,
                    prev_coefficients,
                    prev_prog_quant,
                    curr_prog_quant,
                    sign,
                    use_reduce_extrapolate,
                );
                return Err(refusal.unwrap_or_else(|| defect(function_of(rule), 5)));
            }
            // The refusal altered nothing, so the call is made again with more room.
            7 if srl_data.len() < SRL_BYTES_MAX => {
                srl_data.resize((8 * srl_data.len()).min(SRL_BYTES_MAX), 0);
            }
            number => defect(function_of(rule), number),
        }
    }
}

/// The C function of a rule.
fn function_of(rule: Rule) -> &'static str {
    match rule {
        Rule::Floor => "tarjimp_encode_upgrade_pass",
        Rule::Symmetric => "tarjimp_encode_upgrade_pass_symmetric",
    }
}

/// The magnitude of the value that a place has in the SRL stream.
fn srl_magnitude(rule: Rule, coefficient: i16, before: i16, position: u8) -> u16 {
    match rule {
        Rule::Floor => (coefficient >> position)
            .saturating_sub(before >> position)
            .unsigned_abs(),
        Rule::Symmetric => coefficient.abs_diff(before) >> position,
    }
}

/// The refusal of the first value of a pass that does not fit its band's width. The library gives its
/// number alone.
fn first_too_large(
    rule: Rule,
    coefficients: &[i16],
    prev_coefficients: &[i16],
    prev_prog_quant: &ComponentCodecQuant,
    curr_prog_quant: &ComponentCodecQuant,
    sign: &[i8],
    use_reduce_extrapolate: bool,
) -> Option<SrlError> {
    let bands = get_band_layout(use_reduce_extrapolate);
    // The bottom band has no SRL values.
    let upper = bands.iter().enumerate().take(NUM_BANDS - 1);
    for (index, band) in upper {
        let position = curr_prog_quant.for_band(index);
        let width = prev_prog_quant.for_band(index).saturating_sub(position);
        if width == 0 {
            continue;
        }
        let magnitudes = (band.offset..band.offset + band.count())
            .filter(|&place| sign[place] == SIGN_ZERO)
            .map(|place| {
                srl_magnitude(
                    rule,
                    coefficients[place],
                    prev_coefficients[place],
                    position,
                )
            });
        let refusal = too_large(magnitudes, width);
        if refusal.is_some() {
            return refusal;
        }
    }
    None
}

/// Dequantizes a component in place.
///
/// # Errors
///
/// [`SrlError::SliceTooShort`] if `coefficients` has fewer than 4,096 elements,
/// [`SrlError::OutOfDomain`] if a quantizer is above 15.
pub fn dequantize_component_ccq(
    coefficients: &mut [i16],
    quant: &ComponentCodecQuant,
    use_reduce_extrapolate: bool,
) -> Result<(), SrlError> {
    match ffi::dequantize_component(coefficients, &quant.bands(), use_reduce_extrapolate) {
        0 => Ok(()),
        1 => Err(SrlError::SliceTooShort),
        2 => Err(SrlError::OutOfDomain),
        number => defect("tarjimp_dequantize_component", number),
    }
}

/// The red, green and blue of a pixel.
///
/// ```
/// assert_eq!(tarjimp::progressive::ycbcr_to_rgb(0, 0, 100), [255, 57, 128]);
/// ```
pub fn ycbcr_to_rgb(y: i16, cb: i16, cr: i16) -> [u8; 3] {
    let mut rgb = [0; 3];
    ffi::ycbcr_to_rgb(y, cb, cr, &mut rgb);
    rgb
}

/// The bands of either layout.
fn get_band_layout(use_reduce_extrapolate: bool) -> [BandInfo; NUM_BANDS] {
    if use_reduce_extrapolate {
        return band_layout();
    }
    let sides = [32, 32, 32, 16, 16, 16, 8, 8, 8, 8];
    let mut offset = 0;
    sides.map(|side| {
        let band = BandInfo {
            width: side,
            height: side,
            offset,
        };
        offset += band.count();
        band
    })
}

/// The number of the band that a place of a component belongs to, 0 to 9 in band order: HL1 LH1 HH1 HL2 LH2 HH2
/// HL3 LH3 HH3 LL3. `None` for a place past the 4,096. For many places, [`bands_of_places`] is quicker.
///
/// ```
/// use tarjimp::progressive::band_of_place;
///
/// assert_eq!(band_of_place(true, 0), Some(0)); // HL1
/// assert_eq!(band_of_place(true, 4015), Some(9)); // LL3
/// assert_eq!(band_of_place(false, 4015), Some(8)); // HH3 of the standard layout
/// assert_eq!(band_of_place(true, 4096), None);
/// ```
pub fn band_of_place(use_reduce_extrapolate: bool, place: usize) -> Option<u8> {
    let band = ffi::band_of_place(use_reduce_extrapolate, place);
    (usize::from(band) < NUM_BANDS).then_some(band)
}

/// The number of the band of each place of a component, 0 to 9 in band order.
///
/// ```
/// use tarjimp::progressive::bands_of_places;
///
/// let bands = bands_of_places(true);
/// assert_eq!(bands.iter().filter(|&&band| band == 9).count(), 81); // LL3
/// ```
pub fn bands_of_places(use_reduce_extrapolate: bool) -> [u8; COEFFICIENTS_PER_COMPONENT] {
    let mut bands = [0; COEFFICIENTS_PER_COMPONENT];
    ffi::bands_of_places(use_reduce_extrapolate, &mut bands);
    bands
}

/// A tile of 64 x 64 pixels: three components, Y, Cb and Cr, with what has arrived of them.
#[derive(Debug, Clone, PartialEq, Eq)]
pub struct TileState {
    /// The coefficients of each component.
    pub coefficients: [[i16; COEFFICIENTS_PER_COMPONENT]; 3],
    /// The sign of each coefficient.
    pub sign: [[i8; COEFFICIENTS_PER_COMPONENT]; 3],
    /// The positions after the last pass.
    pub prog_quant: [ComponentCodecQuant; 3],
    /// Indices of base quantizers. No call looks at them.
    pub quant_idx: [u8; 3],
    /// The quantizers that pixels are made with.
    pub base_quant: [ComponentCodecQuant; 3],
    /// The number of passes so far, which stays at 65535.
    pub pass: u16,
    /// Whether the tile is a difference. No call looks at it.
    pub is_difference: bool,
    /// The quality of the last pass.
    pub quality: u8,
    /// Whether the layout is reduce-extrapolate.
    pub use_reduce_extrapolate: bool,
    /// How many signs of each band of each component are 0.
    zero_signs: [[u16; NUM_BANDS]; 3],
}

/// The numbers of zero signs of a fresh tile: every sign is 0, and the layout is the standard one.
const FRESH_ZERO_SIGNS: [u16; NUM_BANDS] = [1024, 1024, 1024, 256, 256, 256, 64, 64, 64, 64];

impl TileState {
    /// The fresh tile: zeros, base quantizers 6, in the standard layout.
    pub const fn new() -> Self {
        Self {
            coefficients: [[0; COEFFICIENTS_PER_COMPONENT]; 3],
            sign: [[SIGN_ZERO; COEFFICIENTS_PER_COMPONENT]; 3],
            prog_quant: [ComponentCodecQuant::LOSSLESS; 3],
            quant_idx: [0; 3],
            base_quant: [ComponentCodecQuant::of_bands([6; NUM_BANDS]); 3],
            pass: 0,
            is_difference: false,
            quality: 0,
            use_reduce_extrapolate: false,
            zero_signs: [FRESH_ZERO_SIGNS; 3],
        }
    }

    /// A tile after its first pass, which is not part of this library: the first 4,096 of each slice, with
    /// positions, base quantizers and the layout. Its pass number is 1.
    ///
    /// # Errors
    ///
    /// [`SrlError::SliceTooShort`] if a slice has fewer than 4,096 elements, [`SrlError::OutOfDomain`] if
    /// a position or quantizer is above 15.
    pub fn load(
        coefficients: [&[i16]; 3],
        sign: [&[i8]; 3],
        prog_quants: [ComponentCodecQuant; 3],
        base_quants: [ComponentCodecQuant; 3],
        use_reduce_extrapolate: bool,
    ) -> Result<Self, SrlError> {
        let mut tile = Self::new();
        for k in 0..3 {
            tile.coefficients[k] = *component(coefficients[k])?;
            tile.sign[k] = *component(sign[k])?;
        }
        let mut quants = prog_quants.iter().chain(&base_quants);
        if !quants.all(ComponentCodecQuant::is_in_domain) {
            return Err(SrlError::OutOfDomain);
        }
        tile.prog_quant = prog_quants;
        tile.base_quant = base_quants;
        tile.pass = 1;
        tile.use_reduce_extrapolate = use_reduce_extrapolate;
        tile.count_zero_signs();
        Ok(tile)
    }

    /// How many signs of each band are 0, a row for each component: how much of the tile is still undecided. LL3's
    /// signs are counted too, though no pass looks at them. They are right after [`new`](Self::new),
    /// [`load`](Self::load) and each pass.
    ///
    /// ```
    /// use tarjimp::ComponentCodecQuant;
    /// use tarjimp::progressive::TileState;
    ///
    /// let rows = |number| [ComponentCodecQuant::of_bands([number; 10]); 3];
    /// let (coefficients, sign): ([&[i16]; 3], [&[i8]; 3]) = ([&[0; 4096]; 3], [&[0; 4096]; 3]);
    /// let mut tile = TileState::load(coefficients, sign, rows(1), rows(6), true)?;
    /// let all = [1023, 1023, 961, 272, 272, 256, 72, 72, 64, 81];
    /// assert_eq!(tile.zero_signs(), &[all; 3]);
    /// // The first coefficient of Y becomes 1.
    /// tile.decode_upgrade([&[0x80], &[], &[]], [&[]; 3], rows(0), 100)?;
    /// assert_eq!(tile.sign[0][0], 1);
    /// assert_eq!(tile.zero_signs()[0][0], 1022);
    /// # Ok::<(), tarjimp::Error>(())
    /// ```
    pub const fn zero_signs(&self) -> &[[u16; NUM_BANDS]; 3] {
        &self.zero_signs
    }

    /// Counts the zero signs anew, after `sign` or `use_reduce_extrapolate` were set. Until then the calls refuse a
    /// tile whose numbers are no longer right, with [`SrlError::ImpossibleState`].
    ///
    /// ```
    /// use tarjimp::Error;
    /// use tarjimp::progressive::TileState;
    ///
    /// let mut tile = TileState::new();
    /// let mut pixels = [0; 16384];
    /// tile.use_reduce_extrapolate = true;
    /// assert_eq!(tile.reconstruct_to_rgba(&mut pixels), Err(Error::ImpossibleState));
    /// tile.count_zero_signs();
    /// assert_eq!(tile.reconstruct_to_rgba(&mut pixels), Ok(()));
    /// ```
    pub fn count_zero_signs(&mut self) {
        ffi::tile_zero_signs(
            &self.sign,
            self.use_reduce_extrapolate,
            &mut self.zero_signs,
        );
    }

    /// Reads an upgrade pass over the tile, from its positions to `prog_quants`.
    /// [`decode_upgrade_counted`](Self::decode_upgrade_counted) says also how many bits were missing.
    ///
    /// # Errors
    ///
    /// [`SrlError::ImpossibleState`] if the numbers of zero signs are not those of the signs (see
    /// [`count_zero_signs`](Self::count_zero_signs)), [`SrlError::OutOfDomain`] if a position or quantizer is above
    /// 15, given or in the tile. The tile is as it was then.
    pub fn decode_upgrade(
        &mut self,
        srl_data: [&[u8]; 3],
        raw_data: [&[u8]; 3],
        prog_quants: [ComponentCodecQuant; 3],
        quality: u8,
    ) -> Result<(), SrlError> {
        self.decode_upgrade_counted(srl_data, raw_data, prog_quants, quality)
            .map(|_| ())
    }

    /// As [`decode_upgrade`](Self::decode_upgrade), with the answer how many bits came from past the end of
    /// the streams of all three components.
    ///
    /// # Errors
    ///
    /// As [`decode_upgrade`](Self::decode_upgrade).
    ///
    /// ```
    /// use tarjimp::ComponentCodecQuant;
    /// use tarjimp::progressive::{MissingBits, TileState};
    ///
    /// let rows = |number| [ComponentCodecQuant::of_bands([number; 10]); 3];
    /// let mut tile = TileState::new();
    /// tile.prog_quant = rows(15);
    /// // No byte arrives: 20 bits of each SRL stream and 15 for each place of LL3 are read as zeros.
    /// let missing = tile.decode_upgrade_counted([&[]; 3], [&[]; 3], rows(0), 100)?;
    /// assert_eq!(missing, MissingBits { srl: 60, raw: 3 * 64 * 15 });
    /// # Ok::<(), tarjimp::Error>(())
    /// ```
    pub fn decode_upgrade_counted(
        &mut self,
        srl_data: [&[u8]; 3],
        raw_data: [&[u8]; 3],
        prog_quants: [ComponentCodecQuant; 3],
        quality: u8,
    ) -> Result<MissingBits, SrlError> {
        let mut missing = [0; 2];
        let mut prog_quant = self.prog_quant.map(|quant| quant.bands());
        let number = ffi::tile_decode_upgrade(
            ffi::Tile {
                coefficients: &mut self.coefficients,
                sign: &mut self.sign,
                zero_signs: &mut self.zero_signs,
                prog_quant: &mut prog_quant,
                base_quant: &self.base_quant.map(|quant| quant.bands()),
                use_reduce_extrapolate: self.use_reduce_extrapolate,
                pass: &mut self.pass,
                quality: &mut self.quality,
            },
            &prog_quants.map(|quant| quant.bands()),
            quality,
            srl_data,
            raw_data,
            &mut missing,
        );
        self.prog_quant = prog_quant.map(ComponentCodecQuant::of_bands);
        match number {
            0 => Ok(MissingBits::of_numbers(missing)),
            2 => Err(SrlError::OutOfDomain),
            8 => Err(SrlError::ImpossibleState),
            number => defect("tarjimp_tile_decode_upgrade", number),
        }
    }

    /// Writes the pixels of the tile to the first 16,384 bytes, row by row, four bytes each: red, green,
    /// blue, and 255.
    ///
    /// # Errors
    ///
    /// [`SrlError::ImpossibleState`] if the numbers of zero signs are not those of the signs (see
    /// [`count_zero_signs`](Self::count_zero_signs)), [`SrlError::SliceTooShort`] if `pixels` has fewer than 16,384
    /// bytes, [`SrlError::OutOfDomain`] if a position or quantizer of the tile is above 15,
    /// [`SrlError::StandardLayout`] if the tile is in the standard layout, of which no pixels are made.
    pub fn reconstruct_to_rgba(&self, pixels: &mut [u8]) -> Result<(), SrlError> {
        let number = ffi::tile_reconstruct_to_rgba(
            &self.coefficients,
            &self.sign,
            &self.zero_signs,
            &self.prog_quant.map(|quant| quant.bands()),
            &self.base_quant.map(|quant| quant.bands()),
            self.use_reduce_extrapolate,
            pixels,
        );
        match number {
            0 => Ok(()),
            1 => Err(SrlError::SliceTooShort),
            2 => Err(SrlError::OutOfDomain),
            3 => Err(SrlError::StandardLayout),
            8 => Err(SrlError::ImpossibleState),
            number => defect("tarjimp_tile_reconstruct_to_rgba", number),
        }
    }
}

impl Default for TileState {
    fn default() -> Self {
        Self::new()
    }
}

/// The first 4,096 of a slice.
fn component<T>(slice: &[T]) -> Result<&[T; COEFFICIENTS_PER_COMPONENT], SrlError> {
    slice.first_chunk().ok_or(SrlError::SliceTooShort)
}

#[cfg(test)]
mod tests {
    use super::*;

    const LAYOUTS: [bool; 2] = [false, true];

    type Quant = ComponentCodecQuant;
    type Streams = Result<(Vec<u8>, Vec<u8>), SrlError>;
    type Write = fn(&[i16], &[i16], &Quant, &Quant, &[i8], bool) -> Streams;

    /// Both writers of a pass.
    const WRITERS: [Write; 2] = [encode_upgrade_pass, encode_upgrade_pass_symmetric];

    fn all(number: u8) -> ComponentCodecQuant {
        ComponentCodecQuant::of_bands([number; NUM_BANDS])
    }

    #[test]
    fn standard_layout() {
        let bands = get_band_layout(false);
        let counts = bands.map(|band| band.count());
        assert_eq!(counts, [1024, 1024, 1024, 256, 256, 256, 64, 64, 64, 64]);
        assert_eq!(bands[9].offset, 4032);
        let mut offset = 0;
        for band in bands {
            assert_eq!(band.offset, offset);
            offset += band.count();
        }
        assert_eq!(offset, COEFFICIENTS_PER_COMPONENT);
    }

    #[test]
    fn places_belong_to_the_band_that_encloses_them() {
        for use_reduce_extrapolate in LAYOUTS {
            let table = bands_of_places(use_reduce_extrapolate);
            for (number, band) in (0..).zip(get_band_layout(use_reduce_extrapolate)) {
                for place in band.offset..band.offset + band.count() {
                    assert_eq!(band_of_place(use_reduce_extrapolate, place), Some(number));
                    assert_eq!(table[place], number);
                }
            }
            for place in [4096, 4097, 65535, 1 << 32, usize::MAX] {
                assert_eq!(band_of_place(use_reduce_extrapolate, place), None);
            }
        }
    }

    #[test]
    fn passes_refuse_short_slices_and_large_positions() {
        let zeros = [0; 4096];
        for (length, sign_length) in [(4095, 4096), (4096, 4095)] {
            let (mut coefficients, mut sign) = (vec![3; length], vec![1; sign_length]);
            let refused = decode_upgrade_pass(
                &[0xFF],
                &[0xFF],
                &all(2),
                &all(0),
                true,
                &mut coefficients,
                &mut sign,
            );
            assert_eq!(refused, Err(SrlError::SliceTooShort));
            assert!(coefficients.iter().all(|&coefficient| coefficient == 3));
            for write in WRITERS {
                let refused = write(&coefficients, &zeros, &all(2), &all(0), &sign, true);
                assert_eq!(refused, Err(SrlError::SliceTooShort));
            }
        }
        for (prev, curr) in [(16, 0), (0, 16), (255, 255)] {
            let refused = decode_upgrade_pass(
                &[],
                &[],
                &all(prev),
                &all(curr),
                true,
                &mut [0; 4096],
                &mut [0; 4096],
            );
            assert_eq!(refused, Err(SrlError::OutOfDomain));
            for write in WRITERS {
                let refused = write(&zeros, &zeros, &all(prev), &all(curr), &[0; 4096], true);
                assert_eq!(refused, Err(SrlError::OutOfDomain));
            }
        }
        assert_eq!(
            dequantize_component_ccq(&mut [0; 4095], &all(16), true),
            Err(SrlError::SliceTooShort)
        );
        assert_eq!(
            dequantize_component_ccq(&mut [0; 4096], &all(16), true),
            Err(SrlError::OutOfDomain)
        );
    }

    /// What a writer answers with the room for a drop, from position `drop` to 0, and less than that.
    fn answered(rule: Rule, drop: u8, layout: bool, target: &[i16], sign: i8, less: usize) -> u8 {
        let mut srl = vec![0; srl_bytes_for(drop) - less];
        let mut raw = vec![0; raw_bytes_for(drop).saturating_sub(less)];
        ffi::encode_upgrade_pass(
            rule,
            target,
            &[0; 4096],
            &[drop; 10],
            &[0; 10],
            &[sign; 4096],
            layout,
            &mut srl,
            &mut raw,
            &mut [0; 2],
        )
    }

    /// The greatest and least values, and all lengths of runs of zeros, in outputs of the room for their drop.
    #[test]
    fn no_pass_needs_more_room() {
        for drop in 0..=15 {
            let most = ((1 << drop) - 1) as i16;
            let runs = |longest: usize| -> Vec<i16> {
                let run = |zeros| [vec![0; zeros], vec![most; 1 + zeros % 3]].concat();
                let targets = (0..=longest).cycle().flat_map(run);
                targets.take(4096).collect()
            };
            let same = [i16::MAX, i16::MIN, most, -most, 1, 0].map(|value| vec![value; 4096]);
            let others = [1, 2, 3, 4, 5, 9, 40].map(runs);
            for target in same.iter().chain(&others) {
                for (rule, layout) in [Rule::Floor, Rule::Symmetric].into_iter().zip(LAYOUTS) {
                    for sign in [SIGN_ZERO, SIGN_POSITIVE, SIGN_NEGATIVE] {
                        assert_ne!(answered(rule, drop, layout, target, sign, 0), 7);
                        assert_ne!(answered(rule, drop, !layout, target, sign, 0), 7);
                    }
                }
            }
        }
    }

    /// In the standard layout the room is used up: with a byte less there is a refusal by 7.
    #[test]
    fn some_passes_need_all_of_the_room() {
        for drop in 1..=15 {
            let most = ((1 << drop) - 1) as i16;
            for rule in [Rule::Floor, Rule::Symmetric] {
                for sign in [SIGN_ZERO, SIGN_POSITIVE] {
                    assert_eq!(answered(rule, drop, false, &[most; 4096], sign, 0), 0);
                    assert_eq!(answered(rule, drop, false, &[most; 4096], sign, 1), 7);
                }
            }
        }
    }

    #[test]
    fn a_drop_above_15_counts_as_15() {
        for drop in [15, 16, 255] {
            assert_eq!(srl_bytes_for(drop), SRL_BYTES_MAX);
            assert_eq!(raw_bytes_for(drop), RAW_BYTES_MAX);
        }
    }

    /// Streams far longer than the room that they get at first.
    #[test]
    fn the_longest_streams_have_room() {
        for (write, use_reduce_extrapolate) in WRITERS.into_iter().zip(LAYOUTS) {
            let target = [i16::MAX; 4096];
            let (mut coefficients, mut sign) = ([0; 4096], [0; 4096]);
            let (high, low) = (all(15), all(0));
            let (srl, raw) = write(
                &target,
                &coefficients,
                &high,
                &low,
                &sign,
                use_reduce_extrapolate,
            )
            .unwrap();
            assert!(srl.len() > 4000 * 32767 / 8);
            decode_upgrade_pass(
                &srl,
                &raw,
                &high,
                &low,
                use_reduce_extrapolate,
                &mut coefficients,
                &mut sign,
            )
            .unwrap();
            assert_eq!(coefficients, target);
            let known = [SIGN_NEGATIVE; 4096];
            let (srl, raw) = write(
                &target,
                &[0; 4096],
                &high,
                &low,
                &known,
                use_reduce_extrapolate,
            )
            .unwrap();
            assert_eq!((srl.len(), raw.len()), (0, RAW_BYTES_MAX));
        }
    }

    #[test]
    fn the_first_magnitude_that_does_not_fit() {
        for use_reduce_extrapolate in LAYOUTS {
            let bands = get_band_layout(use_reduce_extrapolate);
            let mut target = [0; 4096];
            target[bands[9].offset] = 4000; // the bottom band has no SRL values
            target[bands[0].offset] = 4000; // width 0
            target[bands[1].offset] = 4000; // known
            target[bands[2].offset] = 6; // fits
            target[bands[3].offset] = -7; // -4 with floor at position 1, else -3, which fits
            target[bands[4].offset] = -400;
            let mut sign = [SIGN_ZERO; 4096];
            sign[bands[1].offset] = SIGN_POSITIVE;
            let mut prev = [3; 10];
            prev[0] = 1;
            for (write, magnitude) in WRITERS.into_iter().zip([4, 200]) {
                let refused = write(
                    &target,
                    &[0; 4096],
                    &ComponentCodecQuant::of_bands(prev),
                    &all(1),
                    &sign,
                    use_reduce_extrapolate,
                );
                let max = 3;
                assert_eq!(
                    refused,
                    Err(SrlError::MagnitudeOutOfRange { magnitude, max })
                );
            }
        }
    }

    /// The source's writer clamps the difference and then says 32767 or 32768.
    #[test]
    fn the_symmetric_writer_clamps_nothing() {
        for (coefficient, before, magnitude) in [
            (i16::MAX, i16::MIN, 65535),
            (i16::MIN, i16::MAX, 65535),
            (i16::MIN, 0, 32768),
        ] {
            let refused = encode_upgrade_pass_symmetric(
                &[coefficient; 4096],
                &[before; 4096],
                &all(15),
                &all(0),
                &[SIGN_ZERO; 4096],
                true,
            );
            let max = 32767;
            assert_eq!(
                refused,
                Err(SrlError::MagnitudeOutOfRange { magnitude, max })
            );
        }
    }

    /// A picture sent by the symmetric writer arrives as its cut at each stage, and at last whole, both signs and the
    /// least and greatest numbers alike.
    #[test]
    fn the_symmetric_writer_sends_cuts() {
        for use_reduce_extrapolate in LAYOUTS {
            let bands = bands_of_places(use_reduce_extrapolate);
            let target: [i16; 4096] = std::array::from_fn(|place| match place % 7 {
                0 => i16::MIN,
                1 => i16::MAX,
                2 => 0,
                _ => (place as i16).wrapping_mul(24_593) >> (place % 16),
            });
            let cut = |position: u8| -> [i16; 4096] {
                std::array::from_fn(|place| match bands[place] {
                    9 => target[place] >> position << position,
                    _ => {
                        let magnitude = i32::from(target[place].unsigned_abs() >> position);
                        let cut = i32::from(target[place].signum()) * (magnitude << position);
                        i16::try_from(cut).unwrap()
                    }
                })
            };
            let mut before = cut(15);
            let mut sign = before.map(|coefficient| coefficient.signum() as i8);
            for (prev, curr) in [(15, 12), (12, 5), (5, 4), (4, 0)] {
                let (prev_row, curr_row) = (all(prev), all(curr));
                let (srl, raw) = encode_upgrade_pass_symmetric(
                    &target,
                    &before,
                    &prev_row,
                    &curr_row,
                    &sign,
                    use_reduce_extrapolate,
                )
                .unwrap();
                let missing = decode_upgrade_pass_counted(
                    &srl,
                    &raw,
                    &prev_row,
                    &curr_row,
                    use_reduce_extrapolate,
                    &mut before,
                    &mut sign,
                );
                assert_eq!(missing, Ok(MissingBits::default()));
                assert_eq!(before, cut(curr));
            }
            assert_eq!(before, target);
        }
    }

    #[test]
    fn known_counts_of_missing_bits() {
        for (use_reduce_extrapolate, raw) in [(false, 960), (true, 1215)] {
            let read = |srl: &[u8], sign: i8| {
                decode_upgrade_pass_counted(
                    srl,
                    &[],
                    &all(15),
                    &all(0),
                    use_reduce_extrapolate,
                    &mut [0; 4096],
                    &mut [sign; 4096],
                )
            };
            assert_eq!(read(&[], 0), Ok(MissingBits { srl: 20, raw }));
            let most = MissingBits { srl: 32_790, raw };
            assert_eq!(read(&[0x10, 0x33], 0), Ok(most));
            let most = MissingBits {
                srl: 0,
                raw: 61_440,
            };
            assert_eq!(read(&[], 1), Ok(most));
        }
    }

    /// Each component of a tile by itself, and all three.
    #[test]
    fn missing_bits_of_a_tile_are_sums() {
        for moved in 0..8u32 {
            let mut tile = TileState::new();
            tile.prog_quant = [all(15); 3];
            let rows = [0, 1, 2].map(|k| all(if moved >> k & 1 == 1 { 0 } else { 15 }));
            let count = moved.count_ones();
            let expected = MissingBits {
                srl: 20 * count,
                raw: 960 * count,
            };
            let missing = tile.decode_upgrade_counted([&[]; 3], [&[]; 3], rows, 1);
            assert_eq!(missing, Ok(expected));
        }
    }

    #[test]
    fn load_takes_the_first_of_longer_slices() {
        let (coefficients, sign) = (vec![9; 5000], vec![-1; 4096]);
        let tile = TileState::load(
            [&coefficients, &coefficients, &coefficients],
            [&sign, &sign, &sign],
            [all(3); 3],
            [all(7); 3],
            true,
        );
        let expected = TileState {
            coefficients: [[9; 4096]; 3],
            sign: [[-1; 4096]; 3],
            prog_quant: [all(3); 3],
            base_quant: [all(7); 3],
            pass: 1,
            use_reduce_extrapolate: true,
            zero_signs: [[0; 10]; 3],
            ..TileState::default()
        };
        assert_eq!(tile, Ok(expected));
    }

    /// Counted place by place.
    fn counted(tile: &TileState) -> [[u16; NUM_BANDS]; 3] {
        let mut numbers = [[0; NUM_BANDS]; 3];
        for (numbers, sign) in numbers.iter_mut().zip(&tile.sign) {
            let mut place = 0;
            for (index, band) in get_band_layout(tile.use_reduce_extrapolate)
                .iter()
                .enumerate()
            {
                for _ in 0..band.count() {
                    numbers[index] += u16::from(sign[place] == 0);
                    place += 1;
                }
            }
        }
        numbers
    }

    #[test]
    fn zero_signs_are_right_after_new_load_and_upgrade() {
        let fresh = TileState::new();
        assert_eq!(fresh.zero_signs(), &counted(&fresh));
        for use_reduce_extrapolate in LAYOUTS {
            let coefficients: Vec<i16> = (0..4096).map(|place| place % 7 * 8).collect();
            // Any sign but 0 counts as one that is known.
            let sign: Vec<i8> = (0..4096)
                .map(|place| [0, 1, 0, 5, -1, -128, 0][place % 7])
                .collect();
            let mut tile = TileState::load(
                [&coefficients; 3].map(|list| &list[..]),
                [&sign; 3].map(|list| &list[..]),
                [all(3); 3],
                [all(6); 3],
                use_reduce_extrapolate,
            )
            .unwrap();
            let loaded = *tile.zero_signs();
            assert_eq!(loaded, counted(&tile));
            let streams: [&[u8]; 3] = [&[0x35; 900], &[], &[0xC7; 200]];
            tile.decode_upgrade(streams, streams, [all(1); 3], 9)
                .unwrap();
            assert_eq!(tile.zero_signs(), &counted(&tile));
            let [before, after] =
                [&loaded, tile.zero_signs()].map(|numbers| numbers.as_flattened());
            assert!(
                before
                    .iter()
                    .zip(after)
                    .all(|(before, after)| before >= after)
            );
            assert_ne!(before, after);
            // The signs of the bottom are counted, and no pass sets one.
            assert!(
                loaded
                    .iter()
                    .zip(tile.zero_signs())
                    .all(|(a, b)| a[9] == b[9] && a[9] > 0)
            );
        }
    }

    #[test]
    fn zero_signs_are_counted_anew_or_the_tile_is_refused() {
        let mut tile = TileState::new();
        let mut pixels = vec![1; 16384];
        for k in 0..3 {
            for (index, band) in get_band_layout(false).iter().enumerate() {
                let place = band.offset + band.count() - 1;
                tile.sign[k][place] = 5;
                let before = tile.clone();
                // 8 comes before 2, 1 and 3.
                let refused = tile.decode_upgrade([&[]; 3], [&[]; 3], [all(16); 3], 9);
                assert_eq!(refused, Err(SrlError::ImpossibleState));
                for length in [16383, 16384] {
                    let refused = tile.reconstruct_to_rgba(&mut pixels[..length]);
                    assert_eq!(refused, Err(SrlError::ImpossibleState));
                }
                assert_eq!(tile, before);
                tile.count_zero_signs();
                assert_eq!(tile.zero_signs()[k][index], FRESH_ZERO_SIGNS[index] - 1);
                assert_eq!(tile.zero_signs(), &counted(&tile));
            }
        }
        assert!(pixels.iter().all(|&byte| byte == 1));
        assert_eq!(
            tile.decode_upgrade([&[]; 3], [&[]; 3], [all(0); 3], 9),
            Ok(())
        );
        tile.use_reduce_extrapolate = true;
        let refused = tile.reconstruct_to_rgba(&mut pixels);
        assert_eq!(refused, Err(SrlError::ImpossibleState));
        tile.count_zero_signs();
        assert_eq!(tile.reconstruct_to_rgba(&mut pixels), Ok(()));
    }

    #[test]
    fn load_refuses_in_order() {
        let (short, long) = ([0; 4095], [0; 4096]);
        let sign = [0; 4096];
        let load = |cr: &[i16], position, quantizer| {
            TileState::load(
                [&long, &long, cr],
                [&sign; 3].map(|sign| &sign[..]),
                [all(position); 3],
                [all(0), all(0), all(quantizer)],
                true,
            )
            .map(|_| ())
        };
        assert_eq!(load(&short, 16, 16), Err(SrlError::SliceTooShort));
        assert_eq!(load(&long, 16, 15), Err(SrlError::OutOfDomain));
        assert_eq!(load(&long, 15, 16), Err(SrlError::OutOfDomain));
        assert_eq!(load(&long, 15, 15), Ok(()));
    }

    #[test]
    fn a_refused_upgrade_leaves_the_tile() {
        let mut tile = TileState::new();
        tile.prog_quant = [all(3); 3];
        tile.pass = u16::MAX;
        let before = tile.clone();
        let streams: [&[u8]; 3] = [&[0xFF; 9]; 3];
        let bad = [all(1), all(1), all(16)];
        let refused = tile.decode_upgrade(streams, streams, bad, 9);
        assert_eq!(refused, Err(SrlError::OutOfDomain));
        assert_eq!(tile, before);
        assert_eq!(
            tile.decode_upgrade(streams, streams, [all(1); 3], 9),
            Ok(())
        );
        assert_eq!((tile.pass, tile.quality), (u16::MAX, 9));
        assert_eq!(tile.prog_quant, [all(1); 3]);
        assert_ne!(tile.coefficients, before.coefficients);
        tile.base_quant[1].hh2 = 16;
        let before = tile.clone();
        let refused = tile.decode_upgrade(streams, streams, [all(1); 3], 9);
        assert_eq!(refused, Err(SrlError::OutOfDomain));
        assert_eq!(tile, before);
    }

    #[test]
    fn pixels_are_refused_in_order() {
        let mut tile = TileState::new();
        let mut pixels = vec![1; 16384];
        let (short, whole) = (16383, 16384);
        assert_eq!(
            tile.reconstruct_to_rgba(&mut pixels),
            Err(SrlError::StandardLayout)
        );
        tile.prog_quant[2].ll3 = 16;
        assert_eq!(
            tile.reconstruct_to_rgba(&mut pixels[..whole]),
            Err(SrlError::OutOfDomain)
        );
        assert_eq!(
            tile.reconstruct_to_rgba(&mut pixels[..short]),
            Err(SrlError::SliceTooShort)
        );
        assert!(pixels.iter().all(|&byte| byte == 1));
        tile.prog_quant[2].ll3 = 15;
        tile.use_reduce_extrapolate = true;
        tile.count_zero_signs();
        assert_eq!(tile.reconstruct_to_rgba(&mut pixels), Ok(()));
        assert_eq!(pixels, [128, 128, 128, 255].repeat(4096));
    }
}
