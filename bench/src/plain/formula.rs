//! Rules in past-time temporal logic, stepped event by event.

use super::recording::{Event, Kind};

/// Set by the first event.
const LATER: u64 = 1 << 60;

/// Set once the whole formula was false after an event.
const BAD: u64 = 1 << 61;

/// A subformula; its parts are named by their numbers.
#[derive(Clone, Copy, Debug)]
enum Node {
    Eq(u8, i32),
    Lt(u8, i32),
    Gt(u8, i32),
    Mark(u8),
    By(u8),
    Not(u8),
    Before(u8),
    Once(u8),
    Always(u8),
    And(u8, u8),
    Or(u8, u8),
    Implies(u8, u8),
    Since(u8, u8),
}

/// The subformulas in the order of their words, and the code ahead of the first event. Bit i of a
/// code is the truth of subformula i after the latest event.
#[derive(Debug)]
pub struct Formula {
    nodes: Vec<Node>,
    start: u64,
}

impl Formula {
    pub fn read(text: &str, starts: &[i32]) -> Self {
        let mut nodes = Vec::new();
        let spaced = text.replace('(', " ").replace(')', " ");
        read_node(&mut spaced.split_whitespace(), &mut nodes);
        let holds = |node: &Node| match *node {
            Node::Eq(x, c) => starts[x as usize] == c,
            Node::Lt(x, c) => starts[x as usize] < c,
            Node::Gt(x, c) => starts[x as usize] > c,
            _ => false,
        };
        let start = (0..).zip(&nodes).filter(|(_, node)| holds(node)).map(|(i, _)| 1 << i).sum();
        Formula { nodes, start }
    }

    pub fn start(&self) -> u64 {
        self.start
    }

    pub fn bad(&self, code: u64) -> bool {
        code & BAD != 0
    }

    /// The code after an event. Parts stand behind what they are parts of, so the pass goes backward.
    pub fn step(&self, code: u64, event: Event) -> u64 {
        let mut next = 0u64;
        for (i, node) in self.nodes.iter().enumerate().rev() {
            next |= (holds(*node, code >> i & 1 != 0, code, next, event) as u64) << i;
        }
        let bad = if next & 1 == 0 { BAD } else { code & BAD };
        next | LATER | bad
    }
}

/// Whether a subformula is true after the event; `own` is its truth ahead of it.
fn holds(node: Node, own: bool, code: u64, next: u64, event: Event) -> bool {
    let later = code & LATER != 0;
    let was = |f: u8| code >> f & 1 != 0;
    let is = |f: u8| next >> f & 1 != 0;
    let writes = |x: u8| event.kind == Kind::Write && event.subject == x;
    match node {
        Node::Eq(x, c) => if writes(x) { event.value == c } else { own },
        Node::Lt(x, c) => if writes(x) { event.value < c } else { own },
        Node::Gt(x, c) => if writes(x) { event.value > c } else { own },
        Node::Mark(k) => event.kind == Kind::Internal && event.subject == k,
        Node::By(t) => event.thread == t,
        Node::Not(f) => !is(f),
        Node::Before(f) => later && was(f),
        Node::Once(f) => is(f) || later && own,
        Node::Always(f) => is(f) && (!later || own),
        Node::And(f, g) => is(f) && is(g),
        Node::Or(f, g) => is(f) || is(g),
        Node::Implies(f, g) => !is(f) || is(g),
        Node::Since(f, g) => is(g) || is(f) && later && own,
    }
}

/// Reads one formula, puts its nodes behind those read so far, and answers its number.
fn read_node<'a>(words: &mut impl Iterator<Item = &'a str>, nodes: &mut Vec<Node>) -> u8 {
    let at = nodes.len();
    nodes.push(Node::By(0)); // its place, until its parts are read
    let word = words.next().expect("a word");
    let node = match word {
        "eq" => Node::Eq(number(words) as u8, number(words)),
        "lt" => Node::Lt(number(words) as u8, number(words)),
        "gt" => Node::Gt(number(words) as u8, number(words)),
        "mark" => Node::Mark(number(words) as u8),
        "by" => Node::By(number(words) as u8),
        "not" => Node::Not(read_node(words, nodes)),
        "before" => Node::Before(read_node(words, nodes)),
        "once" => Node::Once(read_node(words, nodes)),
        "always" => Node::Always(read_node(words, nodes)),
        "and" => Node::And(read_node(words, nodes), read_node(words, nodes)),
        "or" => Node::Or(read_node(words, nodes), read_node(words, nodes)),
        "implies" => Node::Implies(read_node(words, nodes), read_node(words, nodes)),
        "since" => Node::Since(read_node(words, nodes), read_node(words, nodes)),
        _ => panic!("no such operator: {word}"),
    };
    nodes[at] = node;
    at as u8
}

fn number<'a>(words: &mut impl Iterator<Item = &'a str>) -> i32 {
    words.next().and_then(|w| w.parse().ok()).expect("a number")
}
