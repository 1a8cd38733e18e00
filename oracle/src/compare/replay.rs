//! The program `replay`, which gets the cases through a pipe and says what differs.

use std::io::{self, BufRead, BufReader, BufWriter};
use std::process::{Child, ChildStdin, ChildStdout, Command, Stdio};
use std::sync::Arc;
use std::thread::{self, JoinHandle};

use oracle::kinds::KINDS;
use oracle::record::Written;

use crate::ROOT;
use crate::found::{Difference, Found, Side};

/// The program, from the repository's root.
const PROGRAM: &str = "crates/replay/out/replay";

/// What it writes last if it has read everything.
const ENDED: &str = "the recording was read to its end";

/// A run of the program.
pub struct Replay {
    child: Child,
    input: Written<BufWriter<ChildStdin>>,
    reader: JoinHandle<io::Result<Replayed>>,
}

/// What a run said at its end.
pub struct Replayed {
    /// How many cases it read of each kind, and how many of them differ.
    pub counts: Vec<(u8, u64, u64)>,
    pub last_line: String,
}

impl Replayed {
    pub fn ended(&self) -> bool {
        self.last_line == ENDED
    }
}

impl Replay {
    pub fn start(seed: Option<u64>, found: Arc<Found>) -> io::Result<Self> {
        let mut child = Command::new(format!("{ROOT}/{PROGRAM}"))
            .stdin(Stdio::piped())
            .stdout(Stdio::piped())
            .spawn()
            .map_err(|error| with(&format!("cannot run {PROGRAM}"), &error))?;
        let input = child.stdin.take().expect("it is a pipe");
        let output = child.stdout.take().expect("it is a pipe");
        Ok(Self {
            child,
            input: Written(BufWriter::with_capacity(1 << 16, input)),
            reader: thread::spawn(move || read(output, seed, &found)),
        })
    }

    pub fn record(&mut self, kind: u8, payload: &[u8]) -> io::Result<()> {
        self.input.write(kind, payload)
    }

    /// Ends the recording and waits for the answer. If the program reads no more, its last line says
    /// why.
    pub fn finish(mut self) -> io::Result<Replayed> {
        let _ = self.input.end();
        drop(self.input);
        let replayed = self.reader.join().expect("the reader does not panic")?;
        let status = self.child.wait()?;
        if !status.success() {
            return Err(io::Error::other(format!("{PROGRAM} ended with {status}")));
        }
        Ok(replayed)
    }
}

/// An error with what was tried.
fn with(what: &str, error: &io::Error) -> io::Error {
    io::Error::new(error.kind(), format!("{what}: {error}"))
}

/// Reads what the program writes. A difference is shown when it comes.
fn read(output: ChildStdout, seed: Option<u64>, found: &Found) -> io::Result<Replayed> {
    let mut replayed = Replayed {
        counts: Vec::new(),
        last_line: String::new(),
    };
    for line in BufReader::new(output).lines() {
        let line = line?;
        if let Some(difference) = difference(&line) {
            found.difference(seed, &difference);
        } else if let Some(count) = count(&line) {
            replayed.counts.push(count);
        }
        replayed.last_line = line;
    }
    Ok(replayed)
}

/// A line `difference: NAME, case NUMBER: BYTES`.
fn difference(line: &str) -> Option<Difference> {
    let (name, rest) = line.strip_prefix("difference: ")?.split_once(", case ")?;
    let (number, bytes) = rest.split_once(':')?;
    let bytes = bytes.split_whitespace();
    Some(Difference {
        side: Side::Replay,
        kind: kind(name)?,
        number: number.parse().ok()?,
        case: bytes
            .map(|byte| u8::from_str_radix(byte, 16))
            .collect::<Result<_, _>>()
            .ok()?,
        what: None,
    })
}

/// A line `NAME: COUNT cases, COUNT differences`.
fn count(line: &str) -> Option<(u8, u64, u64)> {
    let (name, rest) = line.split_once(": ")?;
    let (cases, rest) = rest.split_once(" cases, ")?;
    let differences = rest.strip_suffix(" differences")?;
    Some((kind(name)?, cases.parse().ok()?, differences.parse().ok()?))
}

fn kind(name: &str) -> Option<u8> {
    let named = KINDS.iter().find(|(_, known)| *known == name);
    named.map(|(number, _)| *number)
}
