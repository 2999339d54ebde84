//! One question to a rule.

use crate::report::Asked;
use monster::{BVOperator, OperandSide};
use std::fmt;

#[derive(Clone, Copy, Debug, PartialEq, Eq)]
pub enum Rule {
    Table,
    Inverse,
    Consistent,
    Unary,
}

/// How many words a question can lend.
pub const WORDS: usize = 8;

#[derive(Clone, Copy)]
pub struct Question {
    pub rule: Rule,
    pub op: BVOperator,
    pub side: OperandSide,
    pub s: u64,
    pub t: u64,
    pub at: usize,
    pub length: usize,
    pub lent: [u64; WORDS],
}

/// A value is 0, the value and the place after its words; a refusal is its
/// number, 0 and the place asked at; the table says 1, then 0 or 1, and that place.
pub type Answer = [u64; 3];

impl Question {
    pub fn words(&self) -> &[u64] {
        &self.lent[..self.length]
    }

    /// The kinds of document 01 stand in the order of the operators.
    pub fn kind(&self) -> u64 {
        2 + self.op as u64
    }

    pub fn refused(&self, number: u64) -> Answer {
        [number, 0, self.at as u64]
    }
}

impl fmt::Debug for Question {
    fn fmt(&self, f: &mut fmt::Formatter) -> fmt::Result {
        let Question {
            rule,
            op,
            side,
            s,
            t,
            at,
            ..
        } = self;
        write!(
            f,
            "{rule:?} {op:?} {side:?}, s {s}, t {t}, at {at} of {:?}",
            self.words()
        )
    }
}

impl Asked for Question {
    fn size(&self) -> Vec<u64> {
        let left = self.length.saturating_sub(self.at) as u64;
        vec![self.s.max(self.t), self.s, self.t, left, self.at as u64]
    }
}
