//! The library against a plain Rust program: the same recordings, the same search, the same answers.

mod clock;
mod library;
mod measure;
mod plain;
mod recordings;

use measure::{Measured, Times, measure};
use recordings::{Recording, apart, drawn, marked};
use std::time::Duration;

/// The most rows that a judge takes.
const MOST: usize = 65536;

/// The library keeps its tables of a call on the stack.
const STACK: usize = 16 << 20;

/// A rule with several codes to a cut: what it says depends on the order of the marks.
const MARKS: &str = "(implies (mark 5) (or (before (mark 1)) (since (not (mark 2)) (mark 3))))";

fn micros(time: Duration) -> f64 {
    time.as_secs_f64() * 1e6
}

fn ratio(library: Duration, plain: Duration) -> f64 {
    micros(library) / micros(plain)
}

/// The sum over a set, of the times that `pick` picks.
fn sum(set: &[(Recording, Measured)], pick: impl Fn(&Measured) -> Duration) -> Duration {
    set.iter().map(|(_, m)| pick(m)).sum()
}

/// The largest ratio in a set, with its recording.
fn worst(set: &[(Recording, Measured)], pick: impl Fn(&Measured) -> (Duration, Duration)) -> String {
    let by = |m: &Measured| {
        let (library, plain) = pick(m);
        ratio(library, plain)
    };
    let (recording, m) = set.iter().max_by(|a, b| by(&a.1).total_cmp(&by(&b.1))).expect("a recording");
    format!("{:.2} ({}, {} pairs)", by(m), recording.name, m.pairs)
}

fn line(set: &[(Recording, Measured)], what: &str, of: impl Fn(&Times) -> Duration) {
    let all = sum(set, |m| of(&m.all));
    let level = sum(set, |m| of(&m.level));
    let library = sum(set, |m| of(&m.library));
    println!(
        "| {what} | {:.0} | {:.0} | {:.0} | {:.2} | {} | {:.2} | {} |",
        micros(all),
        micros(level),
        micros(library),
        ratio(library, all),
        worst(set, |m| (of(&m.library), of(&m.all))),
        ratio(library, level),
        worst(set, |m| (of(&m.library), of(&m.level))),
    );
}

/// Measures a set of drawn recordings, and prints its sums and worst cases.
fn report_set(title: &str, recordings: Vec<Recording>) {
    let many = recordings.len();
    let set: Vec<_> = recordings.into_iter().filter_map(|r| measure(&r).map(|m| (r, m))).collect();
    let pairs: usize = set.iter().map(|(_, m)| m.pairs).sum();
    let largest = set.iter().map(|(_, m)| m.pairs).max().unwrap_or(0);
    println!("\n## {title}\n");
    println!(
        "{many} recordings, of which {} have more pairs than rows and are left out; {pairs} pairs, {largest} at most. Microseconds, summed over the set.\n",
        many - set.len(),
    );
    println!("| time of | plain, all rows | plain, own level | library | library / all rows | worst | library / own level | worst |");
    println!("|---|---|---|---|---|---|---|---|");
    line(&set, "judge", |t| t.judge);
    line(&set, "text to verdict", |t| t.whole);
}

/// Measures recordings of growing size, and prints each.
fn report_growth(title: &str, recordings: Vec<Recording>) {
    println!("\n## {title}\n");
    println!("Microseconds of the judge.\n");
    println!("| events | pairs | cuts | verdict | plain, all rows | plain, own level | library | library / all rows | library / own level |");
    println!("|---|---|---|---|---|---|---|---|---|");
    for recording in recordings {
        let Some(m) = measure(&recording) else {
            println!("| {} | more than {} | | | | | | | |", recording.name, recording.rows);
            continue;
        };
        println!(
            "| {} | {} | {} | {} | {:.0} | {:.0} | {:.0} | {:.2} | {:.2} |",
            recording.name,
            m.pairs,
            m.cuts,
            if m.found { "found" } else { "none" },
            micros(m.all.judge),
            micros(m.level.judge),
            micros(m.library.judge),
            ratio(m.library.judge, m.all.judge),
            ratio(m.library.judge, m.level.judge),
        );
    }
}

fn four() {
    let drawn = (1..=50).map(|seed| drawn(seed, 4, 3, 40, 16384)).collect();
    report_set("four: 4 threads, 3 variables, 40 events, seeds 1 to 50, 16384 rows", drawn);
}

fn eight() {
    let drawn = (1..=50).map(|seed| drawn(seed, 8, 3, 20, MOST)).collect();
    report_set("eight: 8 threads, 3 variables, 20 events, seeds 1 to 50, 65536 rows", drawn);
}

fn growth_three() {
    let counts = [[1; 3], [4; 3], [9; 3], [15; 3], [19; 3], [31, 31, 15], [31; 3], [63, 31, 31]];
    report_growth(
        "growth-three: 3 threads of internal events, 65536 rows",
        counts.iter().map(|counts| apart(counts, MOST)).collect(),
    );
}

fn growth_eight() {
    let counts = [[2, 2, 2, 2, 1, 1, 1, 1], [2; 8], [3, 3, 2, 2, 2, 2, 2, 2], [3, 3, 3, 3, 2, 2, 2, 2], [3; 8]];
    report_growth(
        "growth-eight: 8 threads of internal events, 65536 rows",
        counts.iter().map(|counts| apart(counts, MOST)).collect(),
    );
}

fn growth_codes() {
    let label = |thread: usize, place: usize| [[3, 1, 5], [0, 2, 0], [1, 3, 2]][thread][place % 3];
    report_growth(
        &format!("growth-codes: 3 threads of marks, several codes to a cut, 65536 rows, rule {MARKS}"),
        [5, 8, 11, 14, 17].iter().map(|&n| marked(&[n; 3], MARKS, label, MOST)).collect(),
    );
}

fn run() {
    let sets: [(&str, fn()); 5] = [
        ("four", four),
        ("eight", eight),
        ("growth-three", growth_three),
        ("growth-eight", growth_eight),
        ("growth-codes", growth_codes),
    ];
    let named: Vec<String> = std::env::args().skip(1).collect();
    for (name, set) in sets {
        if named.is_empty() || named.iter().any(|n| name.starts_with(n.as_str())) {
            set();
        }
    }
}

fn main() {
    println!("Times are processor times, each the best of 5 or more calls. Every call makes its rows anew and clears them, on both sides; the judge's time has neither that nor reading and noting in it.");
    let worker = std::thread::Builder::new().stack_size(STACK).spawn(run).expect("a thread");
    worker.join().expect("no panic");
}
