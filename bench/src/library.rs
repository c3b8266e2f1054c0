//! The library, by its C function.

/// As `Answer` of the crate `linked`.
#[repr(C)]
struct Raw {
    outcome: u8,
    number: u8,
    line: usize,
    column: usize,
    pairs: usize,
    events: usize,
}

unsafe extern "C" {
    fn linked_predict(
        text: *const u8,
        text_len: usize,
        rows: usize,
        threads: *mut u8,
        threads_len: usize,
    ) -> Raw;
}

use crate::plain::Answer;

/// From the text of a recording to the verdict, over so many rows.
pub fn predict(text: &str, rows: usize, run: &mut [u8]) -> Answer {
    // SAFETY: the function asks nothing of its caller, and both slices live through the call.
    let raw = unsafe { linked_predict(text.as_ptr(), text.len(), rows, run.as_mut_ptr(), run.len()) };
    match raw.outcome {
        0 => Answer::None { pairs: raw.pairs },
        1 => Answer::Found { pairs: raw.pairs },
        2 => Answer::Refused(raw.number),
        _ => panic!("out of memory"),
    }
}
