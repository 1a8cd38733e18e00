//! How far the comparison is: a line on standard error, which is rewritten in place on a terminal, and
//! comes every ten seconds elsewhere.

use std::io::{self, IsTerminal, Write};
use std::sync::atomic::{AtomicBool, AtomicU8, AtomicU64, Ordering::Relaxed};
use std::sync::{Arc, Mutex, PoisonError};
use std::thread::{self, JoinHandle};
use std::time::{Duration, Instant};

use oracle::kinds;

/// What the line says.
pub struct Progress {
    start: Instant,
    in_place: bool,
    cases: AtomicU64,
    seed: AtomicU64,
    kind: AtomicU8,
    ended: AtomicBool,
    /// Whoever writes to the terminal holds this.
    terminal: Mutex<()>,
}

/// The thread that writes the line.
pub struct Line {
    progress: Arc<Progress>,
    thread: JoinHandle<()>,
}

impl Progress {
    pub fn new() -> Arc<Self> {
        Arc::new(Self {
            start: Instant::now(),
            in_place: io::stderr().is_terminal(),
            cases: AtomicU64::new(0),
            seed: AtomicU64::new(0),
            kind: AtomicU8::new(0),
            ended: AtomicBool::new(false),
            terminal: Mutex::new(()),
        })
    }

    pub fn elapsed(&self) -> Duration {
        self.start.elapsed()
    }

    pub fn seed(&self, seed: u64) {
        self.seed.store(seed, Relaxed);
    }

    /// One case more.
    pub fn case(&self, kind: u8) {
        self.kind.store(kind, Relaxed);
        self.cases.fetch_add(1, Relaxed);
    }

    /// Writes to standard output, where no line is in the way.
    pub fn print(&self, text: &str) {
        let _held = self.terminal.lock().unwrap_or_else(PoisonError::into_inner);
        self.clear();
        println!("{text}");
    }

    fn clear(&self) {
        if self.in_place {
            eprint!("\r\x1b[K");
        }
    }

    fn write(&self) {
        let kind = match self.kind.load(Relaxed) {
            0 => "-",
            kind => kinds::name(kind),
        };
        let line = format!(
            "{} cases, {} s, seed {}, {kind}",
            self.cases.load(Relaxed),
            self.elapsed().as_secs(),
            self.seed.load(Relaxed),
        );
        let _held = self.terminal.lock().unwrap_or_else(PoisonError::into_inner);
        if self.in_place {
            eprint!("\r{line}\x1b[K");
            let _ = io::stderr().flush();
        } else {
            eprintln!("{line}");
        }
    }
}

impl Line {
    pub fn start(progress: Arc<Progress>) -> Self {
        let every = Duration::from_millis(if progress.in_place { 200 } else { 10_000 });
        let shown = progress.clone();
        let thread = thread::spawn(move || {
            let mut next = Instant::now() + every;
            while !shown.ended.load(Relaxed) {
                thread::park_timeout(next.saturating_duration_since(Instant::now()));
                if Instant::now() >= next {
                    shown.write();
                    next += every;
                }
            }
            shown.clear();
        });
        Self { progress, thread }
    }

    pub fn end(self) {
        self.progress.ended.store(true, Relaxed);
        self.thread.thread().unpark();
        let _ = self.thread.join();
    }
}
