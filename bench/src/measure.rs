//! Times of one recording, of the plain program and of the library.

use crate::clock::processor_time;
use crate::library;
use crate::plain::{self, Answer, Lookup};
use crate::recordings::Recording;
use std::hint::black_box;
use std::time::{Duration, Instant};

/// A measurement is repeated so often at least, and until so much time has gone by.
const ROUNDS: usize = 5;
const ENOUGH: Duration = Duration::from_millis(20);

/// The best time of a call: from the text to the verdict, and of the judge within it.
#[derive(Clone, Copy, Default)]
pub struct Times {
    pub whole: Duration,
    pub judge: Duration,
}

pub struct Measured {
    pub pairs: usize,
    pub cuts: usize,
    pub found: bool,
    pub all: Times,
    pub level: Times,
    pub library: Times,
}

type Call<'a> = &'a dyn Fn(&mut [u8]) -> Answer;

fn timed(call: Call, run: &mut [u8]) -> (Duration, Answer) {
    let start = processor_time();
    let answer = black_box(call(run));
    (processor_time() - start, answer)
}

/// Asserts that all three say the same, and gives the answer and the times that it took them.
fn agreed(recording: &Recording, calls: [Call; 3]) -> (Answer, [Duration; 3]) {
    let said = calls.map(|call| {
        let mut run = vec![9; recording.events + 1];
        let (time, answer) = timed(call, &mut run);
        (time, answer, run)
    });
    for other in &said[1..] {
        assert_eq!((other.1, &other.2), (said[0].1, &said[0].2), "{}\n{}", recording.name, recording.text);
    }
    (said[0].1, said.map(|(time, ..)| time))
}

/// The times of all three, or none where the pairs are more than the rows. The three take turns, so
/// that what else the machine does falls on all alike. A call with a thread list that is too short is
/// refused just ahead of the judge, with all else done; so the judge is what is left of the whole.
pub fn measure(recording: &Recording) -> Option<Measured> {
    let text = black_box(recording.text.as_str());
    let rows = recording.rows;
    let calls: [Call; 3] = [
        &|run| plain::predict(text, rows, run, Lookup::All),
        &|run| plain::predict(text, rows, run, Lookup::Level),
        &|run| library::predict(text, rows, run),
    ];
    let (answer, mut whole) = agreed(recording, calls);
    let (pairs, found) = match answer {
        Answer::None { pairs } => (pairs, false),
        Answer::Found { pairs } => (pairs, true),
        Answer::Refused(22) => return None,
        Answer::Refused(number) => panic!("{}: refused with {number}", recording.name),
    };
    let mut run = vec![0; recording.events];
    let mut front = [Duration::MAX; 3];
    let start = Instant::now();
    let mut round = 1;
    while round < ROUNDS || start.elapsed() < ENOUGH {
        for (i, call) in calls.into_iter().enumerate() {
            whole[i] = whole[i].min(timed(call, &mut run).0);
            let (time, answer) = timed(call, &mut []);
            assert_eq!(answer, Answer::Refused(21), "{}", recording.name);
            front[i] = front[i].min(time);
        }
        round += 1;
    }
    let times = |i: usize| Times { whole: whole[i], judge: whole[i].saturating_sub(front[i]) };
    let cuts = plain::count_cuts(text, rows);
    Some(Measured { pairs, cuts, found, all: times(0), level: times(1), library: times(2) })
}
