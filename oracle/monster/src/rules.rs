//! The Rust's rules, one value at a time.

use crate::{
    monster,
    panics::{caught, Place, Stop},
    BVOperator, BitVector, OperandSide,
};

/// A value with the place after its words, or why there is none.
#[derive(Clone, Debug, PartialEq, Eq)]
pub enum Answer {
    Value { value: u64, at: usize },
    Dry,
    Panicked(Place),
}

pub fn table(op: BVOperator, side: OperandSide, s: u64, t: u64) -> bool {
    monster::is_invertible(op, BitVector(s), BitVector(t), side)
}

/// Asked where the table says yes: elsewhere the search never asks.
pub fn inverse(
    op: BVOperator,
    side: OperandSide,
    s: u64,
    t: u64,
    words: &[u64],
    at: usize,
) -> Answer {
    drawn(words, at, || {
        monster::compute_inverse_value(op, BitVector(s), BitVector(t), side)
    })
}

pub fn consistent(op: BVOperator, side: OperandSide, t: u64, words: &[u64], at: usize) -> Answer {
    drawn(words, at, || {
        monster::compute_consistent_value(op, BitVector(t), side)
    })
}

/// The rule of the only unary operator, which takes no word.
pub fn unary(t: u64) -> u64 {
    monster::compute_inverse_value_for_unary_op(BVOperator::Not, BitVector(t)).0
}

fn drawn(words: &[u64], at: usize, rule: impl FnOnce() -> BitVector) -> Answer {
    words::lend(words, at);
    match caught(rule) {
        Ok(value) => {
            words::finish();
            Answer::Value {
                value: value.0,
                at: words::finished(),
            }
        }
        Err(Stop::Dry) => Answer::Dry,
        Err(Stop::Panicked(place)) => Answer::Panicked(place),
    }
}
