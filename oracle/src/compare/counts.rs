//! How many cases there were of each kind, and how many differ.

use std::fmt::Write as _;
use std::io;
use std::time::Duration;

use oracle::kinds::KINDS;

use crate::replay::Replayed;

/// The cases of a kind.
#[derive(Clone, Copy, Default)]
pub struct Count {
    pub made: u64,
    /// Those in which `replay` differs.
    pub replay_differs: u64,
    /// Those that were asked of functions of the static library, and those of them that differ.
    pub asked: u64,
    pub functions_differ: u64,
}

/// The cases of all kinds, by their numbers.
pub struct Counts {
    kinds: [Count; 256],
    pub seeds: u64,
    /// Whether the time was over within the last seed.
    pub cut: bool,
}

impl Default for Counts {
    fn default() -> Self {
        Self {
            kinds: [Count::default(); 256],
            seeds: 0,
            cut: false,
        }
    }
}

impl Count {
    fn plus(self, other: Self) -> Self {
        Self {
            made: self.made + other.made,
            replay_differs: self.replay_differs + other.replay_differs,
            asked: self.asked + other.asked,
            functions_differ: self.functions_differ + other.functions_differ,
        }
    }

    /// A line of the table. Where no function was asked there is a dash.
    fn line(self, name: &str) -> String {
        let functions = if self.asked == 0 {
            format!("{:>12}{:>9}", "-", "-")
        } else {
            format!("{:>12}{:>9}", self.asked, self.functions_differ)
        };
        format!(
            "{name:<18}{:>12}{:>9}{functions}\n",
            self.made, self.replay_differs
        )
    }
}

impl Counts {
    pub fn of(&mut self, kind: u8) -> &mut Count {
        &mut self.kinds[usize::from(kind)]
    }

    pub fn add(&mut self, other: &Self) {
        for (count, other) in self.kinds.iter_mut().zip(other.kinds) {
            *count = count.plus(other);
        }
    }

    /// Adds what `replay` said. It must have read every case that was made.
    pub fn add_replayed(&mut self, replayed: &Replayed) -> io::Result<()> {
        if !replayed.ended() {
            return Err(io::Error::other(format!(
                "replay did not read all cases; its last line: {}",
                replayed.last_line
            )));
        }
        for &(number, name) in &KINDS {
            let read = replayed.counts.iter().find(|(kind, ..)| *kind == number);
            let &(_, cases, differences) = read.unwrap_or(&(number, 0, 0));
            let count = self.of(number);
            if cases != count.made {
                return Err(io::Error::other(format!(
                    "replay read {cases} cases of {name}, and {} were made",
                    count.made
                )));
            }
            count.replay_differs += differences;
        }
        Ok(())
    }

    fn all(&self) -> Count {
        self.kinds
            .iter()
            .copied()
            .fold(Count::default(), Count::plus)
    }

    pub fn differ(&self) -> bool {
        let all = self.all();
        all.replay_differs + all.functions_differ > 0
    }

    /// A line for each kind of which there were cases, one for all, and the result.
    pub fn table(&self, time: Duration) -> String {
        let mut table = format!("{:<18}{:>21}{:>21}\n", "", "replay", "functions");
        let heads = ["cases", "differ", "cases", "differ"];
        let [cases, differ, asked, functions_differ] = heads;
        let _ = writeln!(
            table,
            "{:<18}{cases:>12}{differ:>9}{asked:>12}{functions_differ:>9}",
            "kind"
        );
        for &(number, name) in &KINDS {
            let count = self.kinds[usize::from(number)];
            if count.made > 0 {
                table += &count.line(name);
            }
        }
        table += &self.all().line("all");
        let seeds = match self.seeds {
            0 => "a file".into(),
            1 => "1 seed".into(),
            seeds => format!("{seeds} seeds"),
        };
        let cut = if self.cut { ", the last one cut" } else { "" };
        let result = if self.differ() {
            "the port differs from the Rust"
        } else {
            "nothing differs"
        };
        let _ = writeln!(table, "{result}: {seeds}{cut}, {} s", time.as_secs());
        table
    }
}
