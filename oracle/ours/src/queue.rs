//! Questions that wait until a block of them is full: the bridge takes as long for
//! one as for a thousand.

use crate::{
    library,
    message::{self, packed, push},
};
use std::collections::BTreeMap;

/// How many numbers a block holds, about.
const BLOCK: usize = 1 << 17;

/// Each question waits with what its asker wants to know when it is answered.
pub struct Queue<T> {
    block: Vec<u64>,
    /// By its function what is lent last: every block lends it anew.
    lent: BTreeMap<u64, Vec<u64>>,
    asked: Vec<(T, usize)>,
}

impl<T> Default for Queue<T> {
    fn default() -> Queue<T> {
        Queue {
            block: Vec::new(),
            lent: BTreeMap::new(),
            asked: Vec::new(),
        }
    }
}

impl<T> Queue<T> {
    pub fn lend_file(&mut self, file: &[u8]) {
        let length = [file.len() as u64];
        self.lend(message::FILE, &[&length, &packed(file)]);
    }

    pub fn lend_words(&mut self, words: &[u64]) {
        self.lend(message::WORDS, &[words]);
    }

    pub fn lend_values(&mut self, values: &[u64]) {
        self.lend(message::VALUES, &[values]);
    }

    fn lend(&mut self, function: u64, parts: &[&[u64]]) {
        let lent = self.lent.entry(function).or_default();
        lent.clear();
        push(lent, function, parts);
        self.block.extend_from_slice(lent);
    }

    pub fn bitvec(&mut self, asker: T, op: u64, a: u64, b: u64) {
        self.ask(asker, message::BITVEC, &[&[op, a, b]], 0);
    }

    pub fn check(&mut self, asker: T) {
        self.ask(asker, message::CHECK, &[], 0);
    }

    /// Rule, operator, side, s, t and the place among the words.
    pub fn rule(&mut self, asker: T, asked: [u64; 6]) {
        self.ask(asker, message::RULE, &[&asked], 0);
    }

    /// Node, target and the place among the words.
    pub fn step(&mut self, asker: T, asked: [u64; 3]) {
        self.ask(asker, message::STEP, &[&asked], 0);
    }

    /// The answer has the values behind it, as the search leaves them.
    pub fn solve(&mut self, asker: T, budget: u32, values: &[u64]) {
        let parts = [&[budget.into()], values];
        self.ask(asker, message::SOLVE, &parts, values.len());
    }

    /// The answer has the buffer behind it, as the listing leaves it, eight bytes to a
    /// number.
    pub fn list(&mut self, asker: T, buffer: &[u8]) {
        let (length, bytes) = ([buffer.len() as u64], packed(buffer));
        self.ask(asker, message::LIST, &[&length, &bytes], bytes.len());
    }

    fn ask(&mut self, asker: T, function: u64, parts: &[&[u64]], lent: usize) {
        push(&mut self.block, function, parts);
        self.asked.push((asker, message::width(function) + lent));
    }

    pub fn is_full(&self) -> bool {
        self.block.len() >= BLOCK
    }

    /// Each asker with its answer, in the order of the questions.
    pub fn answer(&mut self, mut each: impl FnMut(T, &[u64])) {
        let answers = library::answer(&mut self.block);
        let mut rest = answers.as_slice();
        for (asker, width) in self.asked.drain(..) {
            let (answer, after) = rest.split_at(width);
            each(asker, answer);
            rest = after;
        }
        assert!(rest.is_empty(), "every answer belongs to a question");
        self.block = self.lent.values().flatten().copied().collect();
    }
}
