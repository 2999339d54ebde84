//! Listings: the source's own, line by line, and ours, byte by byte, against the plain
//! reading's.

use crate::{
    coverage::Coverage,
    numbers::Random,
    report::{conclude, Asked, Report},
    search::{
        file, graphs,
        roots::KINDS,
        trace::{Case, Plan},
    },
};
use monster::{BVOperator::*, Node};
use ours::Queue;
use plain::{listing, Refusal};
use std::{collections::BTreeSet, fmt, rc::Rc};

const GRAPHS: u64 = 50_000;
const SEED: u64 = 9;
const LONGEST: usize = 4_000;

/// Each with its number.
const ANSWERS: [(u64, &str); 10] = [
    (0, "listed"),
    (1, "refused 1, Size"),
    (2, "refused 2, Trailer"),
    (3, "refused 3, Span"),
    (4, "refused 4, Record"),
    (5, "refused 5, Order"),
    (13, "refused 13, Cycle"),
    (6, "refused 6, Root"),
    (7, "refused 7, FixedRoot"),
    (14, "refused 14, Short"),
];

/// The lengths of buffers: the listing's, one byte less, none, and more.
const ROOMS: [&str; 4] = ["exact", "one byte less", "no byte", "more"];

struct Listings {
    rust: Report,
    ours: Report,
    waiting: Queue<(Question, Answer)>,
    counts: Counts,
    answers: [[u64; ROOMS.len()]; ANSWERS.len()],
}

/// The listing of a file into a buffer.
struct Question {
    file: Rc<Vec<u8>>,
    buffer: Vec<u8>,
}

/// 0 and the length, or a refusal's number and the id it names or 0; and the buffer.
type Answer = ([u64; 2], Vec<u8>);

impl fmt::Debug for Question {
    fn fmt(&self, f: &mut fmt::Formatter) -> fmt::Result {
        write!(f, "file {:?}, buffer {:?}", self.file, self.buffer)
    }
}

impl Asked for Question {
    fn size(&self) -> Vec<u64> {
        vec![self.file.len() as u64, self.buffer.len() as u64]
    }
}

/// How often what matters to a listing occurred.
#[derive(Default)]
struct Counts {
    lines: [u64; KINDS.len()],
    unsorted: u64,
    shared: u64,
    unused: u64,
    right_before_left: u64,
    longest: u64,
}

/// `listing`, or `listing GRAPHS SEED` for other graphs.
pub fn compare() -> bool {
    let number = |place: usize| std::env::args().nth(place).map(|text| text.parse());
    let graphs = number(2).map_or(GRAPHS, |n| n.expect("the number of graphs"));
    let seed = number(3).map_or(SEED, |n| n.expect("the seed"));

    let mut all = Listings {
        rust: Report::new("the Rust"),
        ours: Report::new("ours"),
        waiting: Queue::default(),
        counts: Counts::default(),
        answers: Default::default(),
    };
    let mut random = Random::new(seed);
    for _ in 0..graphs {
        all.judge(graphs::plan(&mut random));
    }
    longest().into_iter().for_each(|plan| all.judge(plan));
    for (_, file) in plain::limits::cases() {
        all.ask(file);
    }
    all.answer();
    let mut coverage = Coverage::default();
    all.counts.print(&mut coverage);
    all.print(&mut coverage);
    println!("{graphs} graphs");
    conclude("listing", &[all.rust, all.ours]) & coverage.conclude()
}

impl Listings {
    /// A constant root other than 1 is refused: then the source is not asked.
    fn judge(&mut self, plan: Plan) {
        let case = Case {
            plan: Rc::new(plan),
            words: Vec::new(),
            budget: 0,
        };
        self.ask(case.file());
        let Ok(paper) = listing::text(&case.file()) else {
            return;
        };
        let rust = monster::listing(&case.plan.nodes, case.plan.root);
        let lines: Vec<&str> = paper.split_inclusive('\n').collect();
        let rust: Vec<String> = rust.into_iter().map(|line| line + "\n").collect();
        self.rust
            .compare(&case, rust.iter().map(String::as_str).collect(), lines);
        self.counts.count(&case.plan, &case.file());
    }

    /// Into buffers of all lengths that matter; where there is no listing, of any.
    fn ask(&mut self, file: Vec<u8>) {
        let text = listing::text(&file);
        let length = text.as_ref().map_or(9, String::len);
        let more = length + 1 + file.len() % 20;
        self.waiting.lend_file(&file);
        let file = Rc::new(file);
        for (place, room) in [length, length - 1, 0, more].into_iter().enumerate() {
            let buffer = lent(room);
            let answer = paper(&text, &buffer);
            let of = ANSWERS
                .iter()
                .position(|(number, _)| *number == answer.0[0]);
            self.answers[of.expect("an answer of a listing")][place] += 1;
            let file = file.clone();
            let question = Question { file, buffer };
            let buffer = question.buffer.clone();
            self.waiting.list((question, answer), &buffer);
        }
        if self.waiting.is_full() {
            self.answer();
        }
    }

    fn answer(&mut self) {
        self.waiting.answer(|(question, paper), ours| {
            let (numbers, packed) = ours.split_at(2);
            let bytes = packed.iter().flat_map(|number| number.to_le_bytes());
            let buffer = bytes.take(question.buffer.len()).collect();
            let numbers = numbers.try_into().expect("two numbers");
            self.ours.compare(&question, (numbers, buffer), paper);
        });
    }

    /// A file is listed or refused whatever the buffer is, but for 14.
    fn print(&self, coverage: &mut Coverage) {
        for ((number, name), counts) in ANSWERS.iter().zip(self.answers) {
            for (room, count) in ROOMS.iter().zip(counts) {
                let short = matches!(*room, "one byte less" | "no byte");
                let possible = match number {
                    0 => !short,
                    14 => short,
                    _ => true,
                };
                coverage.line(
                    &format!("{name}, room {room}"),
                    &[(count, "files")],
                    possible,
                );
            }
        }
    }
}

/// Bytes that a listing must overwrite up to its end, and a refusal must leave.
fn lent(room: usize) -> Vec<u8> {
    (0..room).map(|place| 128 | place as u8).collect()
}

fn paper(text: &Result<String, Refusal>, buffer: &[u8]) -> Answer {
    let mut buffer = buffer.to_vec();
    let written = text.as_ref().map_err(|refusal| *refusal);
    let numbers = match written.and_then(|text| listing::write(text, &mut buffer)) {
        Ok(length) => [0, length as u64],
        Err(refusal) => [refusal.number().into(), refusal.id().unwrap_or(0) as u64],
    };
    (numbers, buffer)
}

/// Chains of 4,000 nodes: of Not, of an operator to its left and to its right, and of
/// one over the same operand twice; with their ids upward and downward.
fn longest() -> Vec<Plan> {
    let links: [fn(usize) -> Node; 4] = [
        Node::Not,
        |below| Node::Binary(Sub, below, 0),
        |below| Node::Binary(Remu, 0, below),
        |below| Node::Binary(Add, below, below),
    ];
    let chain = |link: fn(usize) -> Node| {
        let above = (1..LONGEST).map(|id| link(id - 1));
        let nodes: Vec<Node> = [Node::Input(5)].into_iter().chain(above).collect();
        let ids: Vec<usize> = (0..LONGEST).rev().collect();
        let plan = Plan::new(nodes, LONGEST - 1);
        let downward = graphs::under_new_ids(&plan, &ids);
        [plan, downward]
    };
    links.into_iter().flat_map(chain).collect()
}

impl Counts {
    fn count(&mut self, plan: &Plan, file: &[u8]) {
        let graph = plain::file::check(file).expect("it is listed");
        let ids = listing::listed(&graph);
        for id in &ids {
            self.lines[file::kind(&plan.nodes[*id]) as usize] += 1;
        }
        let one = |found: bool| u64::from(found);
        self.unsorted += one(!ids.is_sorted());
        self.shared += one(shared(plan, &ids));
        self.unused += one(ids.len() < plan.nodes.len());
        self.right_before_left += one(right_before_left(plan, &ids));
        self.longest += one(ids.len() == LONGEST);
    }

    fn print(&self, coverage: &mut Coverage) {
        for (name, count) in KINDS.iter().zip(self.lines) {
            coverage.line(&format!("lines, {name}"), &[(count, "lines")], true);
        }
        let mut graphs = |name: &str, count: u64| coverage.line(name, &[(count, "graphs")], true);
        graphs("listed in another order than the ids'", self.unsorted);
        graphs("with a node that two listed ones use", self.shared);
        graphs("with nodes that are not listed", self.unused);
        graphs(
            "with a right operand listed before the left",
            self.right_before_left,
        );
        graphs("with 4,000 lines", self.longest);
    }
}

/// Whether a listed node is used more than once by listed ones.
fn shared(plan: &Plan, ids: &[usize]) -> bool {
    let mut seen = BTreeSet::new();
    let operands = ids.iter().flat_map(|id| match plan.nodes[*id] {
        Node::Constant(_) | Node::Input(_) => vec![],
        Node::Not(operand) => vec![operand],
        Node::Binary(_, left, right) => vec![left, right],
    });
    operands.fold(false, |found, operand| !seen.insert(operand) || found)
}

/// An operator whose right operand another node brought earlier than its left one.
fn right_before_left(plan: &Plan, ids: &[usize]) -> bool {
    let mut places = vec![0; plan.nodes.len()];
    for (place, id) in ids.iter().enumerate() {
        places[*id] = place;
    }
    ids.iter().any(|id| match plan.nodes[*id] {
        Node::Binary(_, left, right) => places[right] < places[left],
        _ => false,
    })
}
