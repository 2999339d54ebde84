//! Every operation of BitVector against the original bitvec.rs.

use crate::{
    numbers::{corners, Random},
    report::{conclude, Asked, Report},
};
use monster::BitVector;
use ours::Queue;

const RANDOM_PAIRS: u32 = 1_000_000;
const RANDOM_TEXTS: u32 = 100_000;
const SEED: u64 = 1;

type Original = fn(BitVector, BitVector) -> Option<u64>;

/// An operation's place is its number.
const OPERATIONS: [(&str, Original); 27] = [
    ("ones", |_, _| Some(BitVector::ones().0)),
    ("ctz", |a, _| Some(a.ctz().into())),
    ("odd", |a, _| Some(a.odd().into())),
    ("lsb", |a, _| Some(a.lsb())),
    ("modinverse", |a, _| a.modinverse().map(|inverse| inverse.0)),
    ("addo", |a, b| Some(a.addo(b).into())),
    ("mulo", |a, b| Some(a.mulo(b).into())),
    ("neg", |a, _| Some((-a).0)),
    ("add", |a, b| Some((a + b).0)),
    ("sub", |a, b| Some((a - b).0)),
    ("mul", |a, b| Some((a * b).0)),
    ("div", |a, b| Some((a / b).0)),
    ("rem", |a, b| Some((a % b).0)),
    ("bitor", |a, b| Some((a | b).0)),
    ("bitand", |a, b| Some((a & b).0)),
    ("bitxor", |a, b| Some((a ^ b).0)),
    ("shl", |a, b| Some((a << b.0 as u32).0)),
    ("shr", |a, b| Some((a >> b.0 as u32).0)),
    ("not", |a, _| Some((!a).0)),
    ("lt", |a, b| Some((a < b).into())),
    ("le", |a, b| Some((a <= b).into())),
    ("eq", |a, b| Some((a == b).into())),
    // The operators' values, as propagate_assignment works them out.
    ("Sltu", |a, b| Some(if a < b { 1 } else { 0 })),
    ("Equals", |a, b| Some(if a == b { 1 } else { 0 })),
    ("Not", |a, _| Some(if a == BitVector(0) { 1 } else { 0 })),
    ("text length", |a, _| Some(text(a).len() as u64)),
    ("text byte", |a, b| {
        text(a).get(b.0 as usize).copied().map(u64::from)
    }),
];

const TEXT_LENGTH: u64 = 25;
const TEXT_BYTE: u64 = 26;
const UNKNOWN: [u64; 3] = [27, 1 << 32, u64::MAX];

fn text(a: BitVector) -> Vec<u8> {
    format!("{a:?}").into_bytes()
}

/// The original's answer: 1 and a value, or 0 and 0 for none.
fn original(op: u64, a: u64, b: u64) -> [u64; 2] {
    let known = OPERATIONS.get(op as usize);
    let value = known.and_then(|(_, operation)| operation(BitVector(a), BitVector(b)));
    value.map_or([0, 0], |value| [1, value])
}

#[derive(Debug)]
struct Pair(u64, u64);

impl Asked for Pair {
    fn size(&self) -> Vec<u64> {
        vec![self.0.max(self.1), self.0, self.1]
    }
}

/// A report for each operation, and one for the numbers that are none. An
/// operation's number and its arguments wait for their answer.
struct Reports {
    reports: Vec<Report>,
    waiting: Queue<[u64; 3]>,
}

impl Reports {
    fn new() -> Reports {
        let names = OPERATIONS.iter().map(|(name, _)| *name);
        Reports {
            reports: names.chain(["unknown"]).map(Report::new).collect(),
            waiting: Queue::default(),
        }
    }

    fn ask(&mut self, op: u64, a: u64, b: u64) {
        self.waiting.bitvec([op, a, b], op, a, b);
        if self.waiting.is_full() {
            self.compare();
        }
    }

    fn compare(&mut self) {
        self.waiting.answer(|[op, a, b], ours| {
            let place = (op as usize).min(OPERATIONS.len());
            self.reports[place].compare(&Pair(a, b), ours, &original(op, a, b));
        });
    }

    fn ask_pair(&mut self, a: u64, b: u64) {
        for op in (0..OPERATIONS.len() as u64).chain(UNKNOWN) {
            self.ask(op, a, b);
        }
    }

    /// The length, every byte, and that there is none behind the last.
    fn ask_text(&mut self, a: u64) {
        self.ask(TEXT_LENGTH, a, 0);
        for place in 0..=text(BitVector(a)).len() as u64 {
            self.ask(TEXT_BYTE, a, place);
        }
    }
}

pub fn compare() -> bool {
    let mut all = Reports::new();
    let corners = corners();
    for a in &corners {
        corners.iter().for_each(|b| all.ask_pair(*a, *b));
        all.ask_text(*a);
    }
    let mut random = Random::new(SEED);
    for _ in 0..RANDOM_PAIRS {
        let a = random.number();
        all.ask_pair(a, random.related(a));
    }
    for _ in 0..RANDOM_TEXTS {
        all.ask_text(random.number());
    }
    all.compare();
    conclude("bitvec", &all.reports)
}
