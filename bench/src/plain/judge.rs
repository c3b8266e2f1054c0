//! The search: every pair of a cut and a code that can be reached, breadth first.

use super::Answer;
use super::formula::Formula;
use super::steps::{Cut, Steps};
use std::collections::HashSet;

/// A pair, the row that it was first found from, and the thread whose event led there.
#[derive(Clone, Copy, Debug)]
pub struct Row {
    cut: Cut,
    code: u64,
    from: usize,
    thread: u8,
}

impl Row {
    pub const BLANK: Row = Row { cut: [0; 8], code: 0, from: 0, thread: 0 };
}

/// Among which rows a pair is looked up.
#[derive(Clone, Copy, Debug, PartialEq, Eq)]
pub enum Lookup {
    /// Among all that are listed, from the front.
    All,
    /// Among those of its own level: the rows whose cuts have as many events.
    Level,
}

fn listed(rows: &[Row], cut: Cut, code: u64) -> bool {
    rows.iter().any(|row| row.code == code && row.cut == cut)
}

/// Lists the pairs in the front of the rows, and says how many there are, or none where they are
/// more than the rows.
fn explore(steps: &Steps, formula: &Formula, rows: &mut [Row], lookup: Lookup) -> Option<usize> {
    *rows.first_mut()? = Row { cut: [0; 8], code: formula.start(), from: 0, thread: 255 };
    let mut len = 1;
    let mut next_level = 0;
    let mut i = 0;
    while i < len {
        if i == next_level {
            next_level = len;
        }
        let first = match lookup {
            Lookup::All => 0,
            Lookup::Level => next_level,
        };
        for thread in 0..steps.threads() {
            let Some(event) = steps.next(rows[i].cut, thread) else { continue };
            let mut cut = rows[i].cut;
            cut[thread as usize] += 1;
            let code = formula.step(rows[i].code, event);
            if listed(&rows[first..len], cut, code) {
                continue;
            }
            *rows.get_mut(len)? = Row { cut, code, from: i, thread };
            len += 1;
        }
        i += 1;
    }
    Some(len)
}

pub fn judge(
    steps: &Steps,
    formula: &Formula,
    rows: &mut [Row],
    run: &mut [u8],
    lookup: Lookup,
) -> Answer {
    let Some(pairs) = explore(steps, formula, rows, lookup) else {
        return Answer::Refused(22);
    };
    let full = |cut: Cut| cut.iter().map(|&n| n as usize).sum::<usize>() == steps.events;
    match rows[..pairs].iter().position(|row| formula.bad(row.code) && full(row.cut)) {
        Some(row) => {
            trace_back(rows, row, &mut run[..steps.events]);
            Answer::Found { pairs }
        }
        None => Answer::None { pairs },
    }
}

/// Writes the threads that lead to a row.
fn trace_back(rows: &[Row], mut row: usize, run: &mut [u8]) {
    for thread in run.iter_mut().rev() {
        *thread = rows[row].thread;
        row = rows[row].from;
    }
}

/// How many cuts the pairs have.
pub fn cuts(steps: &Steps, formula: &Formula, rows: &mut [Row]) -> usize {
    let pairs = explore(steps, formula, rows, Lookup::Level).unwrap_or(rows.len());
    rows[..pairs].iter().map(|row| row.cut).collect::<HashSet<_>>().len()
}
