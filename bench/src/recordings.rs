//! The recordings that are measured.

use std::fmt::Write;

pub struct Recording {
    pub name: String,
    pub text: String,
    pub events: usize,
    /// How many search rows are lent.
    pub rows: usize,
}

/// The rule of the drawn recordings: label 5 is never passed.
const NEVER: &str = "(not (mark 5))";

/// The state after the next draw, which is its upper 16 bits.
const fn next(state: u32) -> u32 {
    state.wrapping_mul(1664525).wrapping_add(1013904223)
}

const _: () = assert!(next(1) >> 16 == 15496);

/// Numbers from a seed.
struct Draws(u32);

impl Draws {
    fn below(&mut self, n: u32) -> u32 {
        self.0 = next(self.0);
        (self.0 >> 16) % n
    }
}

fn opening(threads: u32, variables: usize) -> String {
    format!("(open {threads} ({}))\n", vec!["0"; variables].join(" "))
}

/// A recording drawn from a seed: each event takes four draws, of its thread, what it does, a
/// variable and a value.
pub fn drawn(seed: u32, threads: u32, variables: usize, events: usize, rows: usize) -> Recording {
    let mut draws = Draws(seed);
    let mut values = vec![0; variables];
    let mut holder = None;
    let mut text = opening(threads, variables);
    for _ in 0..events {
        let thread = draws.below(threads);
        let choice = draws.below(4);
        let variable = draws.below(variables as u32) as usize;
        let value = draws.below(16);
        let line = match (choice, holder) {
            (1, _) => format!("(read {thread} {variable} {})", values[variable]),
            (2, _) => {
                values[variable] = value;
                format!("(write {thread} {variable} {value})")
            }
            (3, Some(by)) if by == thread => {
                holder = None;
                format!("(release {thread} 0)")
            }
            (3, None) => {
                holder = Some(thread);
                format!("(acquire {thread} 0)")
            }
            _ => format!("(internal {thread} 0 0)"),
        };
        text.push_str(&line);
        text.push('\n');
    }
    writeln!(text, "(rule {NEVER})").expect("a string");
    Recording { name: format!("seed {seed}"), text, events, rows }
}

/// Threads of internal events with label 0, as many for each thread as listed. Nothing orders them,
/// so every cut can be reached.
pub fn apart(counts: &[usize], rows: usize) -> Recording {
    marked(counts, NEVER, |_, _| 0, rows)
}

/// Threads of internal events with the labels given by thread and place.
pub fn marked(
    counts: &[usize],
    rule: &str,
    label: impl Fn(usize, usize) -> usize,
    rows: usize,
) -> Recording {
    let mut text = opening(counts.len() as u32, 0);
    for (thread, &count) in counts.iter().enumerate() {
        for place in 0..count {
            writeln!(text, "(internal {thread} {} 0)", label(thread, place)).expect("a string");
        }
    }
    writeln!(text, "(rule {rule})").expect("a string");
    let name = counts.iter().map(usize::to_string).collect::<Vec<_>>().join("+");
    Recording { name, text, events: counts.iter().sum(), rows }
}
