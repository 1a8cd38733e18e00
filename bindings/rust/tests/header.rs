//! The numbers of the C header are those of the crate.

use tarjimp::progressive::{RAW_BYTES_MAX, SRL_BYTES_MAX};

const HEADER: &str = include_str!("../../../include/tarjimp.h");

/// The number that the header defines by a name.
fn defined(name: &str) -> Option<usize> {
    let start = format!("#define {name} ");
    HEADER
        .lines()
        .find_map(|line| line.strip_prefix(&start)?.parse().ok())
}

#[test]
fn room_for_any_pass() {
    assert_eq!(defined("TARJIMP_SRL_BYTES_MAX"), Some(SRL_BYTES_MAX));
    assert_eq!(defined("TARJIMP_RAW_BYTES_MAX"), Some(RAW_BYTES_MAX));
}
