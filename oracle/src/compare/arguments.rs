//! What is asked for.

use std::path::PathBuf;
use std::time::Duration;

use oracle::kinds::{KINDS, is_wrong};

pub const USAGE: &str = "\
usage: oracle/compare [--seed FIRST] [--seeds COUNT] [--scale N] [--minutes M] [--kind NAME]
       oracle/compare --file FILE

  --seed FIRST   the first seed, a number below 2^64 (default 2)
  --seeds COUNT  how many seeds, one after another (default 1; with --minutes, as many as there is time for)
  --scale N      N times as many random cases, a number below 2^32 (default 10)
  --minutes M    begin nothing after M minutes
  --kind NAME    the cases of one kind alone; oracle/README.md lists the kinds
  --file FILE    the cases of a recorded file, as that which a difference leaves
  --break NAME   turn over a bit of the first answer of a kind, so that a difference must be reported

The exit status is 0 if nothing differs, 1 if something does, 2 for wrong arguments, 3 if the comparison
cannot be made.";

/// What is asked for.
pub struct Arguments {
    pub first: u64,
    /// How many seeds; as many as there is time for if it is not given.
    pub seeds: Option<u64>,
    pub scale: u32,
    pub time: Option<Duration>,
    pub kind: Option<u8>,
    pub broken: Option<u8>,
    pub file: Option<PathBuf>,
}

impl Arguments {
    /// Reads the words of the command line; what is wrong with them if they are not as the usage says.
    pub fn read(mut words: impl Iterator<Item = String>) -> Result<Self, String> {
        let mut asked = Self {
            first: 2,
            seeds: None,
            scale: 10,
            time: None,
            kind: None,
            broken: None,
            file: None,
        };
        let mut given: Vec<String> = Vec::new();
        while let Some(option) = words.next() {
            if given.contains(&option) {
                return Err(format!("{option} is given twice"));
            }
            let Some(value) = words.next() else {
                return Err(format!("{option}: no such option, or nothing follows it"));
            };
            match option.as_str() {
                "--seed" => asked.first = number(&option, &value)?,
                "--seeds" => match number(&option, &value)? {
                    0 => return Err("--seeds: at least 1".into()),
                    seeds => asked.seeds = Some(seeds),
                },
                "--scale" => asked.scale = number(&option, &value)?,
                "--minutes" => asked.time = Some(minutes(&value)?),
                "--kind" => asked.kind = Some(kind(&option, &value)?),
                "--break" => asked.broken = Some(kind(&option, &value)?),
                "--file" => asked.file = Some(value.into()),
                _ => return Err(format!("{option}: no such option")),
            }
            given.push(option);
        }
        asked.complete(&given)
    }

    fn complete(mut self, given: &[String]) -> Result<Self, String> {
        if self.file.is_some() && given.len() > 1 {
            return Err("--file stands alone".into());
        }
        if let (Some(kind), Some(broken)) = (self.kind, self.broken)
            && kind != broken
        {
            return Err("--break and --kind name two kinds".into());
        }
        if self.time.is_none() {
            self.seeds.get_or_insert(1);
        }
        // Wrong cases are made of the first cases of the other kinds, none of which is random.
        if self.kind.is_some_and(is_wrong) {
            self.scale = 0;
        }
        Ok(self)
    }
}

fn number<N: std::str::FromStr>(option: &str, value: &str) -> Result<N, String> {
    let number = value.parse();
    number.map_err(|_| format!("{option}: {value} is no number that it takes"))
}

fn minutes(value: &str) -> Result<Duration, String> {
    let minutes: f64 = number("--minutes", value)?;
    let time = Duration::try_from_secs_f64(60.0 * minutes);
    time.map_err(|_| format!("--minutes: {value} is no length of time"))
}

fn kind(option: &str, value: &str) -> Result<u8, String> {
    match KINDS.iter().find(|(_, name)| *name == value) {
        Some((number, _)) => Ok(*number),
        None => {
            let names: Vec<&str> = KINDS.iter().map(|(_, name)| *name).collect();
            Err(format!(
                "{option}: there is no kind {value}; the kinds are {}",
                names.join(" ")
            ))
        }
    }
}
