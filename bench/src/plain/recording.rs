//! Recordings, read from their text.

#[derive(Clone, Copy, Debug, PartialEq, Eq)]
pub enum Kind {
    Internal,
    Read,
    Write,
    Acquire,
    Release,
}

#[derive(Clone, Copy, Debug)]
pub struct Event {
    pub thread: u8,
    pub kind: Kind,
    pub subject: u8,
    pub value: i32,
}

#[derive(Debug)]
pub struct Recording<'a> {
    pub threads: usize,
    pub starts: Vec<i32>,
    pub events: Vec<Event>,
    /// The formula of the last line.
    pub rule: &'a str,
}

impl<'a> Recording<'a> {
    pub fn read(text: &'a str) -> Self {
        let mut lines = text.lines();
        let (threads, starts) = read_open(lines.next().expect("an opening"));
        let mut events = Vec::new();
        for line in lines {
            let inner = line.strip_prefix('(').and_then(|l| l.strip_suffix(')')).expect("a line");
            match inner.split_once(' ').expect("a word") {
                ("rule", rule) => return Recording { threads, starts, events, rule },
                (word, rest) => events.push(read_event(word, rest)),
            }
        }
        panic!("no rule");
    }
}

fn read_open(line: &str) -> (usize, Vec<i32>) {
    let rest = line.strip_prefix("(open ").and_then(|l| l.strip_suffix("))")).expect("an opening");
    let (threads, starts) = rest.split_once(" (").expect("starting values");
    let starts = starts.split_whitespace().map(|v| v.parse().expect("a value")).collect();
    (threads.parse().expect("a thread count"), starts)
}

fn read_event(word: &str, rest: &str) -> Event {
    let kind = match word {
        "internal" => Kind::Internal,
        "read" => Kind::Read,
        "write" => Kind::Write,
        "acquire" => Kind::Acquire,
        "release" => Kind::Release,
        _ => panic!("no such event: {word}"),
    };
    let mut numbers = rest.split(' ');
    let mut number = || numbers.next().map(|n| n.parse::<i32>().expect("a number"));
    let thread = number().expect("a thread") as u8;
    let subject = number().expect("a subject") as u8;
    let value = number().unwrap_or(0);
    Event { thread, kind, subject, value }
}
