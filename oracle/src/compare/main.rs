//! Compares the port with the text, live: README.md says how.

mod arguments;
mod counts;
mod found;
mod functions;
mod progress;
mod replay;

use std::env;
use std::fs::File;
use std::io::{self, BufReader};
use std::panic;
use std::path::Path;
use std::process::ExitCode;
use std::sync::Arc;
use std::time::Duration;

use oracle::kinds;
use oracle::record::{Recording, Sink, read_record};

use arguments::{Arguments, USAGE};
use counts::Counts;
use found::{Difference, Found, Side};
use progress::{Line, Progress};
use replay::Replay;

/// The repository's root.
const ROOT: &str = concat!(env!("CARGO_MANIFEST_DIR"), "/..");

/// The exit status where the comparison cannot be made.
const NOT_COMPARED: u8 = 3;

fn main() -> ExitCode {
    let asked = match Arguments::read(env::args().skip(1)) {
        Ok(asked) => asked,
        Err(wrong) => {
            eprintln!("oracle/compare: {wrong}\n{USAGE}");
            return ExitCode::from(2);
        }
    };
    let progress = Progress::new();
    let line = Line::start(progress.clone());
    let compared = compare(&asked, &progress);
    line.end();
    match compared {
        Ok(counts) => {
            print!("{}", counts.table(progress.elapsed()));
            ExitCode::from(u8::from(counts.differ()))
        }
        Err(error) => {
            eprintln!("oracle/compare: {error}");
            ExitCode::from(NOT_COMPARED)
        }
    }
}

/// Compares what is asked for, one seed after another.
fn compare(asked: &Arguments, progress: &Arc<Progress>) -> io::Result<Counts> {
    let found = Found::new(progress.clone());
    let mut counts = Counts::default();
    if let Some(file) = &asked.file {
        let mut comparison = Comparison::start(None, progress, &found)?;
        let made = compare_file(file, &mut comparison)
            .map_err(|error| io::Error::new(error.kind(), format!("{}: {error}", file.display())));
        comparison.finish(made, &mut counts)?;
        return Ok(counts);
    }
    let mut broken = asked.broken;
    let mut seed = asked.first;
    while asked.seeds.is_none_or(|seeds| counts.seeds < seeds) {
        if asked.time.is_some_and(|time| progress.elapsed() >= time) {
            break;
        }
        let mut comparison = Comparison::start(Some(seed), progress, &found)?;
        comparison.time = asked.time;
        comparison.broken = broken.take();
        let mut recording = Recording::new(&mut comparison, seed, asked.scale);
        if let Some(kind) = asked.kind {
            recording = recording.only(kind);
        }
        let made = kinds::record_all(&mut recording);
        counts.seeds += 1;
        comparison.finish(made, &mut counts)?;
        seed = seed.wrapping_add(1);
    }
    Ok(counts)
}

/// Compares the cases of a recorded file.
fn compare_file(file: &Path, comparison: &mut Comparison<'_>) -> io::Result<()> {
    let mut input = BufReader::new(File::open(file)?);
    while let Some((kind, payload)) = read_record(&mut input)? {
        if !kinds::is_known(kind) {
            return Err(io::Error::other(format!("there is no kind {kind}")));
        }
        for _ in kinds::cases(kind, &payload) {
            comparison.made(kind)?;
        }
        comparison.record(kind, &payload, 0)?;
    }
    Ok(())
}

/// The comparison of the cases of one seed or file. Each goes to the port when it is made.
struct Comparison<'a> {
    seed: Option<u64>,
    progress: &'a Progress,
    found: &'a Found,
    replay: Replay,
    /// How many cases of each kind went to the port, and what its functions say.
    counts: Counts,
    /// When to stop, if there is a limit.
    time: Option<Duration>,
    /// Whether the time was over before all cases were made.
    stopped: bool,
    /// The kind of which the next answer is made wrong.
    broken: Option<u8>,
}

impl<'a> Comparison<'a> {
    fn start(seed: Option<u64>, progress: &'a Progress, found: &'a Arc<Found>) -> io::Result<Self> {
        progress.seed(seed.unwrap_or(0));
        Ok(Self {
            seed,
            progress,
            found,
            replay: Replay::start(seed, found.clone())?,
            counts: Counts::default(),
            time: None,
            stopped: false,
            broken: None,
        })
    }

    /// Waits for `replay`, which must have read every case that it was sent, and adds the counts to
    /// those of all seeds.
    fn finish(mut self, made: io::Result<()>, all: &mut Counts) -> io::Result<()> {
        let replayed = self.replay.finish()?;
        match made {
            Err(error) if !self.stopped && error.kind() != io::ErrorKind::BrokenPipe => {
                return Err(error);
            }
            _ => {}
        }
        self.counts.add_replayed(&replayed)?;
        all.add(&self.counts);
        all.cut = self.stopped;
        Ok(())
    }

    /// Asks the functions of the static library, if there are such for the kind.
    fn ask_functions(&mut self, kind: u8, case: &[u8]) {
        let count = self.counts.of(kind);
        count.made += 1;
        let number = count.made;
        let agrees = panic::catch_unwind(|| functions::agree(kind, case)).unwrap_or_else(|_| {
            Some(Err(
                "a panic: the case of a file is cut, or a function of the Rust panics".into(),
            ))
        });
        let Some(agrees) = agrees else {
            return;
        };
        count.asked += 1;
        if let Err(what) = agrees {
            count.functions_differ += 1;
            let difference = Difference {
                side: Side::Functions,
                kind,
                number,
                case: case.to_vec(),
                what: Some(what),
            };
            self.found.difference(self.seed, &difference);
        }
    }
}

impl Sink for Comparison<'_> {
    fn record(&mut self, kind: u8, payload: &[u8], answer: usize) -> io::Result<()> {
        let mut payload = payload.to_vec();
        if self.broken == Some(kind) {
            self.broken = None;
            payload[answer] ^= 1;
        }
        self.replay.record(kind, &payload)?;
        for case in kinds::cases(kind, &payload) {
            self.ask_functions(kind, case);
        }
        Ok(())
    }

    fn made(&mut self, kind: u8) -> io::Result<()> {
        self.progress.case(kind);
        if self
            .time
            .is_some_and(|time| self.progress.elapsed() >= time)
        {
            self.stopped = true;
            return Err(io::ErrorKind::TimedOut.into());
        }
        Ok(())
    }
}
