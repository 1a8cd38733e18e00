//! Stand-ins for what the text names outside of its three files, no larger than it takes to build
//! the text. Whatever the port leaves out (the first pass, the surface decoder) is never called
//! and has no body.

use core::fmt;

/// `ironrdp_core`: the error of parsing.
#[derive(Debug)]
pub struct DecodeError;

impl fmt::Display for DecodeError {
    fn fmt(&self, _: &mut fmt::Formatter<'_>) -> fmt::Result {
        unimplemented!()
    }
}

/// `ironrdp_core`: makes an error of parsing.
macro_rules! invalid_field_err {
    ($field:expr, $reason:expr) => {
        $crate::DecodeError
    };
}
pub(crate) use invalid_field_err;

/// `ironrdp_pdu`: rectangles.
pub mod geometry {
    pub struct InclusiveRectangle {
        pub left: u16,
        pub top: u16,
        pub right: u16,
        pub bottom: u16,
    }

    pub struct ExclusiveRectangle {
        pub left: u16,
        pub top: u16,
        pub right: u16,
        pub bottom: u16,
    }
}

/// `ironrdp_pdu`: what comes over the wire.
pub mod codecs {
    pub mod rfx {
        pub enum EntropyAlgorithm {
            Rlgr1,
        }

        pub mod progressive {
            use crate::DecodeError;

            pub const TILE_FLAG_DIFFERENCE: u8 = 1;

            /// A number for each band of a component.
            ///
            /// The text defines neither `LOSSLESS` nor `for_band`. Both are the port's own choice:
            /// ten zeros, because a tile of full quality leaves no bit out, and the order of
            /// `for_band` that the text's comment on `band_layout` states.
            #[derive(Debug, Clone, Copy, PartialEq, Eq)]
            pub struct ComponentCodecQuant {
                pub ll3: u8,
                pub hl3: u8,
                pub lh3: u8,
                pub hh3: u8,
                pub hl2: u8,
                pub lh2: u8,
                pub hh2: u8,
                pub hl1: u8,
                pub lh1: u8,
                pub hh1: u8,
            }

            impl ComponentCodecQuant {
                pub const LOSSLESS: Self = Self::all(0);

                /// The same number for every band. The text does not name this.
                pub const fn all(number: u8) -> Self {
                    Self {
                        ll3: number,
                        hl3: number,
                        lh3: number,
                        hh3: number,
                        hl2: number,
                        lh2: number,
                        hh2: number,
                        hl1: number,
                        lh1: number,
                        hh1: number,
                    }
                }

                /// A number for each band, in the order of `for_band`. The text does not name this.
                pub const fn of_bands(row: [u8; 10]) -> Self {
                    let [hl1, lh1, hh1, hl2, lh2, hh2, hl3, lh3, hh3, ll3] = row;
                    Self {
                        ll3,
                        hl3,
                        lh3,
                        hh3,
                        hl2,
                        lh2,
                        hh2,
                        hl1,
                        lh1,
                        hh1,
                    }
                }

                /// The number for the band at `index` of a band layout.
                pub fn for_band(&self, index: usize) -> u8 {
                    [
                        self.hl1, self.lh1, self.hh1, self.hl2, self.lh2, self.hh2, self.hl3,
                        self.lh3, self.hh3, self.ll3,
                    ][index]
                }
            }

            #[derive(Clone, Copy)]
            pub struct ProgressiveCodecQuant {
                pub quality: u8,
                pub y_quant: ComponentCodecQuant,
                pub cb_quant: ComponentCodecQuant,
                pub cr_quant: ComponentCodecQuant,
            }

            pub enum ProgressiveBlock<'a> {
                FrameBegin(()),
                FrameEnd(()),
                Region(Region<'a>),
            }

            pub struct Region<'a> {
                pub rects: Vec<Rectangle>,
                pub quant_vals: Vec<ComponentCodecQuant>,
                pub quant_prog_vals: Vec<ProgressiveCodecQuant>,
                pub tiles: Vec<ProgressiveTile<'a>>,
            }

            impl Region<'_> {
                pub fn uses_reduce_extrapolate(&self) -> bool {
                    unimplemented!()
                }
            }

            pub struct Rectangle {
                pub x: u16,
                pub y: u16,
                pub width: u16,
                pub height: u16,
            }

            pub enum ProgressiveTile<'a> {
                Simple(FirstTile<'a>),
                First(FirstTile<'a>),
                Upgrade(UpgradeTile<'a>),
            }

            pub struct FirstTile<'a> {
                pub x_idx: u16,
                pub y_idx: u16,
                pub flags: u8,
                pub quality: u8,
                pub quant_idx_y: u8,
                pub quant_idx_cb: u8,
                pub quant_idx_cr: u8,
                pub y_data: &'a [u8],
                pub cb_data: &'a [u8],
                pub cr_data: &'a [u8],
            }

            pub struct UpgradeTile<'a> {
                pub x_idx: u16,
                pub y_idx: u16,
                pub quality: u8,
                pub y_srl_data: &'a [u8],
                pub y_raw_data: &'a [u8],
                pub cb_srl_data: &'a [u8],
                pub cb_raw_data: &'a [u8],
                pub cr_srl_data: &'a [u8],
                pub cr_raw_data: &'a [u8],
            }

            pub fn decode_progressive_stream(
                _: &[u8],
            ) -> Result<Vec<ProgressiveBlock<'_>>, DecodeError> {
                unimplemented!()
            }
        }
    }
}

/// A module beside the text: a set of rectangles.
pub mod rectangle_processing {
    use crate::geometry::InclusiveRectangle;

    pub struct Region {
        pub rectangles: Vec<InclusiveRectangle>,
    }

    #[expect(clippy::new_without_default, reason = "the text names no default")]
    impl Region {
        pub fn new() -> Self {
            unimplemented!()
        }

        pub fn union_rectangle(&mut self, _: InclusiveRectangle) {
            unimplemented!()
        }

        pub fn intersect_rectangle(&self, _: &InclusiveRectangle) -> Self {
            unimplemented!()
        }
    }
}

/// A module beside the text: the entropy coding of a first pass.
pub mod rlgr {
    use core::fmt;

    use crate::codecs::rfx::EntropyAlgorithm;

    #[derive(Debug)]
    pub struct RlgrError;

    impl fmt::Display for RlgrError {
        fn fmt(&self, _: &mut fmt::Formatter<'_>) -> fmt::Result {
            unimplemented!()
        }
    }

    pub fn decode(_: EntropyAlgorithm, _: &[u8], _: &mut [i16]) -> Result<(), RlgrError> {
        unimplemented!()
    }

    pub fn encode(_: EntropyAlgorithm, _: &[i16], _: &mut [u8]) -> Result<usize, RlgrError> {
        unimplemented!()
    }
}

/// A module beside the text: the wavelet transform without extrapolation.
pub mod dwt {
    pub fn decode(_: &mut [i16], _: &mut [i16]) {
        unimplemented!()
    }

    pub fn encode(_: &mut [i16], _: &mut [i16]) {
        unimplemented!()
    }
}

/// A module beside the text: the differences of the bottom band in a first pass.
pub mod subband_reconstruction {
    pub fn decode(_: &mut [i16]) {
        unimplemented!()
    }

    pub fn encode(_: &mut [i16]) {
        unimplemented!()
    }
}
