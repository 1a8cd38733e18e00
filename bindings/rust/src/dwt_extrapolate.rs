//! The inverse reduce-extrapolate wavelet of a component, and where the bands of its layout are.

use crate::error::{Error, defect};
use crate::ffi;

/// Where a band is in a component, and how large it is.
#[derive(Debug, Clone, Copy, PartialEq, Eq)]
pub struct BandInfo {
    /// Columns.
    pub width: usize,
    /// Rows.
    pub height: usize,
    /// The place of its first coefficient.
    pub offset: usize,
}

impl BandInfo {
    /// How many coefficients the band has.
    pub const fn count(&self) -> usize {
        self.width * self.height
    }
}

const fn band(width: usize, height: usize, offset: usize) -> BandInfo {
    BandInfo {
        width,
        height,
        offset,
    }
}

/// The ten bands of the reduce-extrapolate layout: HL1 LH1 HH1 HL2 LH2 HH2 HL3 LH3 HH3 LL3.
///
/// ```
/// use tarjimp::dwt_extrapolate::band_layout;
///
/// let bands = band_layout();
/// assert_eq!(bands[9].offset, 4015);
/// assert_eq!(bands.iter().map(|band| band.count()).sum::<usize>(), 4096);
/// ```
pub const fn band_layout() -> [BandInfo; 10] {
    [
        band(31, 33, 0),
        band(33, 31, 1023),
        band(31, 31, 2046),
        band(16, 17, 3007),
        band(17, 16, 3279),
        band(16, 16, 3551),
        band(8, 9, 3807),
        band(9, 8, 3879),
        band(8, 8, 3951),
        band(9, 9, 4015),
    ]
}

/// The inverse wavelet of a component, in place: `buffer` has the coefficients before, and the 64 x 64
/// samples row by row after. `temp` is scratch.
///
/// # Errors
///
/// [`Error::SliceTooShort`] if either slice has fewer than 4,096 elements.
///
/// ```
/// use tarjimp::dwt_extrapolate::decode;
///
/// let mut buffer = [0; 4096];
/// buffer[4015..].fill(100); // LL3
/// decode(&mut buffer, &mut [0; 4096])?;
/// assert_eq!(buffer, [100; 4096]);
/// # Ok::<(), tarjimp::Error>(())
/// ```
pub fn decode(buffer: &mut [i16], temp: &mut [i16]) -> Result<(), Error> {
    match ffi::dwt_extrapolate_decode(buffer, temp) {
        0 => Ok(()),
        1 => Err(Error::SliceTooShort),
        number => defect("tarjimp_dwt_extrapolate_decode", number),
    }
}

#[cfg(test)]
mod tests {
    use super::{band_layout, decode};
    use crate::Error;

    #[test]
    fn offsets_are_running_sums() {
        let mut offset = 0;
        for band in band_layout() {
            assert_eq!(band.offset, offset);
            offset += band.count();
        }
        assert_eq!(offset, 4096);
    }

    #[test]
    fn short_slices_are_refused_and_left_alone() {
        for (buffer, temp) in [(4095, 4096), (4096, 4095), (0, 0)] {
            let mut lists = [vec![7; buffer], vec![9; temp]];
            let [buffer, temp] = &mut lists;
            assert_eq!(decode(buffer, temp), Err(Error::SliceTooShort));
            assert!(buffer.iter().all(|&sample| sample == 7));
            assert!(temp.iter().all(|&sample| sample == 9));
        }
    }

    #[test]
    fn longer_slices_keep_their_rest() {
        let mut buffer = [5; 4100];
        let mut temp = [6; 4099];
        assert_eq!(decode(&mut buffer, &mut temp), Ok(()));
        assert_eq!(buffer[4096..], [5; 4]);
        assert_eq!(temp[4096..], [6; 3]);
    }
}
