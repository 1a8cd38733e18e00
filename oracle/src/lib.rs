//! Three files of IronRDP, built unchanged: [`progressive`], [`srl`] and [`dwt_extrapolate`].
//!
//! `build.rs` fetches them from the folder that `TARJIMP_RUST_SRC` names. Each has one child module
//! added, `reach`, which opens its private functions. What the text names outside of the three
//! files is in [`stand_ins`]. [`kinds`] makes the cases that are recorded and compared, each with the
//! text's answer; [`record`], [`digest`] and [`random`] serve it.

// The text names two crates beside its own. Both are this crate.
extern crate self as ironrdp_core;
extern crate self as ironrdp_pdu;

// The makers of cases name this crate as the programs do.
extern crate self as oracle;

pub mod digest;
pub mod kinds;
/// The C functions of the port, as the Rust crate calls them.
#[cfg(feature = "port")]
#[path = "../../bindings/rust/src/ffi.rs"]
pub mod port;
pub mod random;
pub mod record;
pub mod stand_ins;

pub(crate) use stand_ins::invalid_field_err;
pub use stand_ins::{
    DecodeError, codecs, dwt, geometry, rectangle_processing, rlgr, subband_reconstruction,
};

include!(concat!(env!("OUT_DIR"), "/source.rs"));
