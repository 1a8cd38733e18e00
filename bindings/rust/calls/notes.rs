//! What a run of calls notes.

use std::fmt::{self, Debug};
use std::panic::{self, AssertUnwindSafe};

/// Notes of a run, in order.
#[derive(Clone, Default)]
pub struct Notes {
    notes: Vec<String>,
    /// How many calls were accepted, refused, and not answered.
    counts: [usize; 3],
}

/// What a call answers. Some calls of the source answer nothing, and panic where the crate refuses.
pub trait Answer {
    /// The answer, or the refusal.
    fn text(&self) -> Result<String, String>;
}

impl Answer for () {
    fn text(&self) -> Result<String, String> {
        Ok("()".into())
    }
}

impl<T: Debug, E: Debug> Answer for Result<T, E> {
    fn text(&self) -> Result<String, String> {
        match self {
            Ok(answer) => Ok(format!("{answer:?}")),
            Err(error) => Err(format!("{error:?}")),
        }
    }
}

impl Notes {
    /// Notes something.
    pub fn note(&mut self, what: &str, value: impl Debug) {
        self.notes.push(format!("{what}: {value:?}"));
    }

    /// Notes an answer; whether it was accepted.
    pub fn answer(&mut self, what: &str, answer: &impl Answer) -> bool {
        let text = answer.text();
        self.counts[usize::from(text.is_err())] += 1;
        self.note(what, &text);
        text.is_ok()
    }

    /// Notes that a call has no answer: the source panics, and the crate refuses it as it is expected to.
    pub fn no_answer<A: Answer>(&mut self, what: &str, refusal: &str, call: impl FnOnce() -> A) {
        let hook = panic::take_hook();
        panic::set_hook(Box::new(|_| {}));
        let answer = panic::catch_unwind(AssertUnwindSafe(call));
        panic::set_hook(hook);
        match answer.map(|answer| answer.text()) {
            Err(_) => {}
            Ok(Err(text)) if text == refusal => {}
            Ok(answer) => {
                self.answer(what, &answer);
                return;
            }
        }
        self.counts[2] += 1;
        self.note(what, "no answer");
    }

    /// Adds the counts of other notes.
    pub fn add_counts(&mut self, other: &Self) {
        for (count, other) in self.counts.iter_mut().zip(other.counts) {
            *count += other;
        }
    }
}

impl fmt::Display for Notes {
    fn fmt(&self, f: &mut fmt::Formatter<'_>) -> fmt::Result {
        let [accepted, refused, unanswered] = self.counts;
        write!(
            f,
            "{accepted} calls accepted, {refused} refused, {unanswered} not answered"
        )
    }
}

/// The first difference of two runs.
pub fn compare(port: &Notes, source: &Notes) -> Result<(), String> {
    let both = port.notes.iter().zip(&source.notes);
    for (index, (port, source)) in both.enumerate() {
        if port != source {
            return Err(format!(
                "note {index}\n  the crate: {}\n  the source: {}",
                around(port, source),
                around(source, port)
            ));
        }
    }
    let (port, source) = (port.notes.len(), source.notes.len());
    if port != source {
        return Err(format!("the crate has {port} notes, the source {source}"));
    }
    Ok(())
}

/// The part of a note where it differs from another.
fn around(note: &str, other: &str) -> String {
    let same = note.bytes().zip(other.bytes()).take_while(|(a, b)| a == b);
    let from = same.count().saturating_sub(60);
    let part: String = note.chars().skip(from).take(160).collect();
    format!("... {part} ...")
}
