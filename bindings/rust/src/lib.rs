//! The picture core of RemoteFX Progressive: SRL streams, upgrade passes, dequantizing, the inverse
//! reduce-extrapolate wavelet and pixels.
//!
//! A safe interface over `libtarjimp.a`, whose functions are proved to meet their contracts. Modules and
//! items have the names that they have in `ironrdp_graphics`, and [`ComponentCodecQuant`] that of
//! `ironrdp_pdu`, so that code which uses these changes its `use` lines. What else differs:
//!
//! - A slice that is too short, a position or quantizer above 15 and pixels of the standard layout are
//!   refused with an [`Error`], where the Rust panics or goes on. So [`dwt_extrapolate::decode`] and
//!   [`progressive::TileState::reconstruct_to_rgba`] return a `Result`.
//! - A refusal alters nothing. A coder that refused a call goes on from the state before it.
//! - There is one error for everything, [`Error`], which is also [`srl::SrlError`]. Its
//!   [`number`](Error::number) is that of `docs/SCOPE.md`, "Refusals", and of the C functions.
//! - [`progressive::TileState::load`] stands for the first pass, which is not part of this library.
//! - A tile keeps how many signs of each band are 0: [`progressive::TileState::zero_signs`]. Where `sign` or
//!   `use_reduce_extrapolate` are set by hand, [`progressive::TileState::count_zero_signs`] counts anew; the calls
//!   refuse a tile whose numbers are not right. A tile is made by `new` or `load`, and not as a literal.
//! - [`progressive::band_of_place`] and [`progressive::bands_of_places`] say which band a place of a component
//!   belongs to.
//! - Past a stream's end every bit is 0, here and in the Rust; here each reading also says how many bits came
//!   from there: [`srl::SrlDecoder::missing_bits`], [`progressive::decode_upgrade_pass_counted`] and
//!   [`progressive::TileState::decode_upgrade_counted`].
//! - [`progressive::SRL_BYTES_MAX`] and [`progressive::RAW_BYTES_MAX`] are the bytes that the streams of a pass have
//!   at most.
//!
//! ```
//! use tarjimp::srl::{decode_srl, encode_srl};
//!
//! let stream = encode_srl(&[0, 0, 3, -1], 2)?;
//! assert_eq!(decode_srl(&stream, 4, 2)?, [0, 0, 3, -1]);
//!
//! let refused = encode_srl(&[4], 2).unwrap_err();
//! assert_eq!(refused.number(), 5);
//! assert_eq!(refused.to_string(), "a magnitude is above the maximum of its width: 4 above 3");
//! # Ok::<(), tarjimp::Error>(())
//! ```

#![deny(missing_docs)]
#![deny(unsafe_code)]
#![deny(unsafe_op_in_unsafe_fn)]

mod error;
#[allow(unsafe_code)]
mod ffi;
mod quant;

pub mod dwt_extrapolate;
pub mod progressive;
pub mod srl;

pub use error::Error;
pub use quant::ComponentCodecQuant;

/// The example of the README is built and run.
#[cfg(doctest)]
#[doc = include_str!("../README.md")]
struct Readme;
