//! Writes recorded cases to standard output: `record SEED [SCALE]`.

use std::env;
use std::io::{self, BufWriter};
use std::process::ExitCode;

use oracle::kinds;
use oracle::record::{Recording, Written};

fn main() -> ExitCode {
    let Some((seed, scale)) = arguments() else {
        eprintln!("usage: record SEED [SCALE], numbers below 2^64 and below 2^32");
        return ExitCode::from(2);
    };
    match write_cases(seed, scale) {
        Ok(()) => ExitCode::SUCCESS,
        Err(error) => {
            eprintln!("record: cannot write the cases: {error}");
            ExitCode::FAILURE
        }
    }
}

/// The seed and the scale. The scale is 1 if it is not given.
fn arguments() -> Option<(u64, u32)> {
    let mut words = env::args().skip(1);
    let seed = words.next()?.parse().ok()?;
    let scale = words.next().map_or(Ok(1), |word| word.parse()).ok()?;
    words.next().is_none().then_some((seed, scale))
}

fn write_cases(seed: u64, scale: u32) -> io::Result<()> {
    let mut out = Written(BufWriter::new(io::stdout().lock()));
    kinds::record_all(&mut Recording::new(&mut out, seed, scale))?;
    out.end()
}
