//! A number for each band of a component.

/// A number for each band of a component: positions or quantizers.
///
/// The fields are those of `ironrdp_pdu`, in the order of the wire. The library takes numbers up to 15.
#[derive(Debug, Clone, Copy, PartialEq, Eq)]
pub struct ComponentCodecQuant {
    /// The bottom band, LL3.
    pub ll3: u8,
    /// HL3.
    pub hl3: u8,
    /// LH3.
    pub lh3: u8,
    /// HH3.
    pub hh3: u8,
    /// HL2.
    pub hl2: u8,
    /// LH2.
    pub lh2: u8,
    /// HH2.
    pub hh2: u8,
    /// HL1.
    pub hl1: u8,
    /// LH1.
    pub lh1: u8,
    /// HH1.
    pub hh1: u8,
}

impl ComponentCodecQuant {
    /// Positions of a component of which all bits have arrived: ten zeros.
    pub const LOSSLESS: Self = Self::of_bands([0; 10]);

    /// A number for each band in band order: HL1 LH1 HH1 HL2 LH2 HH2 HL3 LH3 HH3 LL3.
    ///
    /// ```
    /// use tarjimp::ComponentCodecQuant;
    ///
    /// let quant = ComponentCodecQuant::of_bands([8, 8, 9, 7, 7, 8, 6, 6, 7, 5]);
    /// assert_eq!((quant.hl1, quant.hh1, quant.ll3), (8, 9, 5));
    /// assert_eq!(quant.for_band(9), 5);
    /// assert_eq!(quant.bands(), [8, 8, 9, 7, 7, 8, 6, 6, 7, 5]);
    /// ```
    pub const fn of_bands(bands: [u8; 10]) -> Self {
        let [hl1, lh1, hh1, hl2, lh2, hh2, hl3, lh3, hh3, ll3] = bands;
        Self {
            ll3,
            hl3,
            lh3,
            hh3,
            hl2,
            lh2,
            hh2,
            hl1,
            lh1,
            hh1,
        }
    }

    /// The numbers in band order.
    pub const fn bands(&self) -> [u8; 10] {
        [
            self.hl1, self.lh1, self.hh1, self.hl2, self.lh2, self.hh2, self.hl3, self.lh3,
            self.hh3, self.ll3,
        ]
    }

    /// The number of the band at `index` of a band layout.
    ///
    /// # Panics
    ///
    /// Panics if there is no such band: `index` is above 9.
    pub const fn for_band(&self, index: usize) -> u8 {
        self.bands()[index]
    }

    pub(crate) fn is_in_domain(&self) -> bool {
        self.bands().iter().all(|&number| number <= 15)
    }
}
