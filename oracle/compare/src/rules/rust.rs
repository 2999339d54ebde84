//! The original Rust's rules.

use super::question::{Answer, Question, Rule};
use monster::{BVOperator, Known, OperandSide, Place};

pub enum Rust {
    Answers(Answer),
    Panics(Place),
    /// Where document 01 refuses with 10 or 11: the search never asks there.
    NotAsked,
}

pub fn answer(question: &Question) -> Rust {
    let Question {
        op, side, s, t, at, ..
    } = *question;
    let words = question.words();
    let binary = op != BVOperator::Not;
    match question.rule {
        Rule::Table => {
            let yes = monster::table(op, side, s, t);
            Rust::Answers([1, yes.into(), at as u64])
        }
        Rule::Inverse if binary && monster::table(op, side, s, t) => {
            drawn(question, monster::inverse(op, side, s, t, words, at))
        }
        Rule::Consistent if binary => drawn(question, monster::consistent(op, side, t, words, at)),
        Rule::Unary if !binary => Rust::Answers([0, monster::unary(t), at as u64]),
        _ => Rust::NotAsked,
    }
}

fn drawn(question: &Question, answer: monster::Answer) -> Rust {
    match answer {
        monster::Answer::Value { value, at } => Rust::Answers([0, value, at as u64]),
        monster::Answer::Dry => Rust::Answers(question.refused(12)),
        monster::Answer::Panicked(place) => Rust::Panics(place),
    }
}

/// The place where the Rust is to panic at this question, if any.
pub fn panics(question: &Question) -> Option<Known> {
    use {BVOperator::*, OperandSide::*, Rule::*};
    let Question { s, t, .. } = *question;
    match (question.rule, question.op, question.side) {
        (Inverse, Mul, _) if s == 0 && t == 0 => Some(Known::InverseMul),
        (Inverse, Remu, Lhs) if s > u64::MAX - t => Some(Known::InverseRemu),
        (Consistent, Divu, Rhs) if t == 0 => Some(Known::ConsistentDivu),
        _ => None,
    }
}
