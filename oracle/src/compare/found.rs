//! The first difference: shown as a case that can be replayed, and kept as a small recording.

use std::fs::{self, File};
use std::io;
use std::sync::{Arc, Mutex, PoisonError};

use oracle::kinds;
use oracle::record::Written;

use crate::ROOT;
use crate::progress::Progress;

/// The folder of the recordings, from the repository's root. Git does not look at it.
const FOLDER: &str = "oracle/target";

/// Which part of the port differs.
#[derive(Clone, Copy, PartialEq, Eq)]
pub enum Side {
    /// The program `replay`.
    Replay,
    /// A function of the static library.
    Functions,
}

/// A case in which the port does not give the text's answer.
pub struct Difference {
    pub side: Side,
    pub kind: u8,
    /// The number of the case within its kind and seed, from 1 on.
    pub number: u64,
    pub case: Vec<u8>,
    /// What differs, if that is known.
    pub what: Option<String>,
}

/// Shows the first difference of all, whoever finds it.
pub struct Found {
    progress: Arc<Progress>,
    shown: Mutex<bool>,
}

impl Found {
    pub fn new(progress: Arc<Progress>) -> Arc<Self> {
        Arc::new(Self {
            progress,
            shown: Mutex::new(false),
        })
    }

    /// Shows a difference unless there was one before. Cases of a file have no seed.
    pub fn difference(&self, seed: Option<u64>, difference: &Difference) {
        let mut shown = self.shown.lock().unwrap_or_else(PoisonError::into_inner);
        if *shown {
            return;
        }
        *shown = true;
        self.progress.print(&text(seed, difference));
    }
}

fn text(seed: Option<u64>, difference: &Difference) -> String {
    let Difference {
        side,
        kind,
        number,
        case,
        what,
    } = difference;
    let name = kinds::name(*kind);
    let from = seed.map_or("file".into(), |seed| format!("seed {seed}"));
    let side = match side {
        Side::Replay => "crates/replay/out/replay",
        Side::Functions => "the functions of libtarjimp.a",
    };
    let mut text = format!("first difference: {name}, {from}, case {number}, by {side}\n");
    if let Some(what) = what {
        text += &format!("  what: {what}\n");
    }
    let bytes: Vec<String> = case.iter().map(|byte| format!("{byte:02x}")).collect();
    text += &format!("  bytes: {}\n", bytes.join(" "));
    let file = match seed {
        Some(seed) => format!("{FOLDER}/difference-{name}-{seed}-{number}"),
        None => format!("{FOLDER}/difference-{name}-file-{number}"),
    };
    match keep(&file, *kind, case) {
        Ok(()) => {
            text += &format!(
                "  replay it: crates/replay/out/replay < {file}\n  compare it: oracle/compare --file {file}"
            );
        }
        Err(error) => text += &format!("  {file} cannot be written: {error}"),
    }
    text
}

/// A record with the case, and the end.
fn keep(file: &str, kind: u8, case: &[u8]) -> io::Result<()> {
    fs::create_dir_all(format!("{ROOT}/{FOLDER}"))?;
    let mut out = Written(File::create(format!("{ROOT}/{file}"))?);
    out.write(kind, case)?;
    out.end()
}
