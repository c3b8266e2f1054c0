//! The plain program: what an ordinary Rust program does for the same answer, by the same search.
//! It reads legal texts only, and is not careful about anything else.

mod formula;
mod judge;
mod recording;
mod steps;

pub use judge::{Lookup, cuts};

use formula::Formula;
use judge::{Row, judge};
use recording::Recording;
use steps::Steps;

#[derive(Clone, Copy, Debug, PartialEq, Eq)]
pub enum Answer {
    None { pairs: usize },
    Found { pairs: usize },
    /// The number by which users know the refusal.
    Refused(u8),
}

/// From the text of a recording to the verdict, over so many rows. Where a run breaks the rule, the
/// front of `run` takes its threads.
pub fn predict(text: &str, rows: usize, run: &mut [u8], lookup: Lookup) -> Answer {
    let recording = Recording::read(text);
    let formula = Formula::read(recording.rule, &recording.starts);
    let mut rows = vec![Row::BLANK; rows];
    if run.len() < recording.events.len() {
        return Answer::Refused(21);
    }
    let steps = Steps::new(&recording);
    judge(&steps, &formula, &mut rows, run, lookup)
}

/// How many cuts the pairs have.
pub fn count_cuts(text: &str, rows: usize) -> usize {
    let recording = Recording::read(text);
    let formula = Formula::read(recording.rule, &recording.starts);
    cuts(&Steps::new(&recording), &formula, &mut vec![Row::BLANK; rows])
}
