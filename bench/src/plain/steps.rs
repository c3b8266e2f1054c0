//! Which event may follow a cut, by look-ups in tables that are made once for a recording.

use super::recording::{Event, Kind, Recording};

/// How many of each thread's first events are in.
pub type Cut = [u8; 8];

/// Variables are the objects 0 to 31, and locks 32 to 47.
const OBJECTS: usize = 48;

/// What an event is to the groups of its variable or lock.
#[derive(Clone, Copy, Debug)]
enum Role {
    /// A write or an acquire begins a group of this object.
    Lead(usize),
    /// A read or a release belongs to a group that was begun, or to the starting group.
    Take(usize),
    Apart,
}

fn role(event: Event) -> Role {
    let subject = event.subject as usize;
    match event.kind {
        Kind::Internal => Role::Apart,
        Kind::Read => Role::Take(subject),
        Kind::Write => Role::Lead(subject),
        Kind::Acquire => Role::Lead(32 + subject),
        Kind::Release => Role::Take(32 + subject),
    }
}

/// One event of a thread, with what has to be looked up of it.
#[derive(Clone, Copy, Debug)]
struct Step {
    event: Event,
    role: Role,
    /// Thread and place of the event that feeds it.
    source: Option<(u8, u8)>,
}

#[derive(Debug)]
pub struct Steps {
    /// By thread, its events in order.
    threads: Vec<Vec<Step>>,
    /// By thread and count: of each object, how many reads and releases the thread's first events
    /// feed, less how many of them are reads and releases.
    waiting: Vec<Vec<[i16; OBJECTS]>>,
    /// Of each object, the size of its starting group.
    starting: [i16; OBJECTS],
    pub events: usize,
}

impl Steps {
    pub fn new(recording: &Recording) -> Self {
        let mut threads = vec![Vec::new(); recording.threads];
        let mut latest = [None; OBJECTS];
        for &event in &recording.events {
            let steps: &mut Vec<Step> = &mut threads[event.thread as usize];
            let role = role(event);
            let source = match role {
                Role::Take(object) => latest[object],
                Role::Lead(_) | Role::Apart => None,
            };
            steps.push(Step { event, role, source });
            if let Role::Lead(object) = role {
                latest[object] = Some((event.thread, steps.len() as u8));
            }
        }
        let (waiting, starting) = sums(&threads);
        Steps { threads, waiting, starting, events: recording.events.len() }
    }

    pub fn threads(&self) -> u8 {
        self.threads.len() as u8
    }

    /// The next event of the thread, where it may follow the cut.
    pub fn next(&self, cut: Cut, thread: u8) -> Option<Event> {
        let step = self.threads[thread as usize].get(cut[thread as usize] as usize)?;
        if let Some((thread, place)) = step.source && cut[thread as usize] < place {
            return None;
        }
        match step.role {
            Role::Lead(object) if self.open(cut, object) => None,
            _ => Some(step.event),
        }
    }

    /// Whether a group of the object is open: a read or a release of it waits.
    fn open(&self, cut: Cut, object: usize) -> bool {
        let waits: i16 = self.waiting.iter().zip(cut).map(|(rows, n)| rows[n as usize][object]).sum();
        self.starting[object] + waits != 0
    }
}

/// The running sums of each thread, and the sizes of the starting groups.
fn sums(threads: &[Vec<Step>]) -> (Vec<Vec<[i16; OBJECTS]>>, [i16; OBJECTS]) {
    let mut starting = [0; OBJECTS];
    let mut waiting: Vec<_> = threads.iter().map(|steps| vec![[0; OBJECTS]; steps.len() + 1]).collect();
    for (thread, steps) in threads.iter().enumerate() {
        for (i, step) in steps.iter().enumerate() {
            let Role::Take(object) = step.role else { continue };
            waiting[thread][i + 1][object] -= 1;
            match step.source {
                Some((t, place)) => waiting[t as usize][place as usize][object] += 1,
                None => starting[object] += 1,
            }
        }
    }
    for rows in &mut waiting {
        for i in 1..rows.len() {
            for object in 0..OBJECTS {
                rows[i][object] += rows[i - 1][object];
            }
        }
    }
    (waiting, starting)
}
