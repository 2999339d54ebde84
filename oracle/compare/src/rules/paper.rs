//! The plain reading of document 01.

use super::question::{Answer, Question, Rule};
use monster::{BVOperator, OperandSide};
use plain::{
    operators::Operator,
    rules::{consistent, inverse, reachable, unary, Side},
    Refusal,
};

pub fn answer(question: &Question) -> Answer {
    let Question { s, t, at, .. } = *question;
    let words = question.words();
    let (op, side) = (operator(question.op), side(question.side));
    match question.rule {
        Rule::Table => [1, reachable(op, side, s, t).into(), at as u64],
        Rule::Inverse => drawn(question, inverse(op, side, s, t, words, at)),
        Rule::Consistent => drawn(question, consistent(op, side, t, words, at)),
        Rule::Unary => drawn(question, unary(op, t).map(|value| (value, at))),
    }
}

fn drawn(question: &Question, answer: Result<(u64, usize), Refusal>) -> Answer {
    match answer {
        Ok((value, after)) => [0, value, after as u64],
        Err(refusal) => question.refused(refusal.number().into()),
    }
}

fn side(side: OperandSide) -> Side {
    match side {
        OperandSide::Lhs => Side::Lhs,
        OperandSide::Rhs => Side::Rhs,
    }
}

fn operator(op: BVOperator) -> Operator {
    match op {
        BVOperator::Add => Operator::Add,
        BVOperator::Sub => Operator::Sub,
        BVOperator::Mul => Operator::Mul,
        BVOperator::Divu => Operator::Divu,
        BVOperator::Sltu => Operator::Sltu,
        BVOperator::Remu => Operator::Remu,
        BVOperator::Not => Operator::Not,
        BVOperator::Equals => Operator::Equals,
        BVOperator::BitwiseAnd => Operator::BitwiseAnd,
    }
}
