//! The rows of document 01's tables, and how often each was compared.

use super::question::{Answer, Question, Rule, Rule::*};
use crate::coverage::Coverage;
use monster::{
    BVOperator::{self, *},
    OperandSide::{self, *},
};
use Ends::*;

const M: u64 = u64::MAX;
const BOTH: [OperandSide; 2] = [Lhs, Rhs];
const LHS: [OperandSide; 1] = [Lhs];
const RHS: [OperandSide; 1] = [Rhs];

/// What a row answers.
enum Ends {
    /// A value that takes no word.
    Value,
    /// A value that takes words, so that they can also run out.
    Drawn,
    /// A value from this range, which can discard words.
    Range(fn(u64, u64) -> (u64, u64)),
    /// A value from a range whose size divides 2^64: it never discards one.
    Even,
    /// This refusal.
    Refused(u64),
}

type Case = fn(u64, u64) -> bool;

/// Of a rule, operator and side the first row whose case holds for s and t.
type Row = (
    Rule,
    BVOperator,
    &'static [OperandSide],
    &'static str,
    Case,
    Ends,
);

const ANY: Case = |_, _| true;

/// In the paper's order; each "no" of the table is a row too.
#[rustfmt::skip]
const ROWS: &[Row] = &[
    (Table, Add, &BOTH, "yes: always", ANY, Value),
    (Table, Sub, &BOTH, "yes: always", ANY, Value),
    (Table, Mul, &BOTH, "yes: s = t = 0", |s, t| s == 0 && t == 0, Value),
    (Table, Mul, &BOTH, "yes: (-s or s) and t = t", |s, t| (s.wrapping_neg() | s) & t == t, Value),
    (Table, Mul, &BOTH, "no", ANY, Value),
    (Table, Divu, &LHS, "yes: s = 0, t = M", |s, t| s == 0 && t == M, Value),
    (Table, Divu, &LHS, "no: s = 0, t < M", |s, _| s == 0, Value),
    (Table, Divu, &LHS, "yes: t*s <= M", |s, t| t <= M / s, Value),
    (Table, Divu, &LHS, "no: t*s > M", ANY, Value),
    (Table, Divu, &RHS, "no: t = 0, s = M", |s, t| t == 0 && s == M, Value),
    (Table, Divu, &RHS, "yes: t = 0, s < M", |_, t| t == 0, Value),
    (Table, Divu, &RHS, "yes: t = M", |_, t| t == M, Value),
    (Table, Divu, &RHS, "yes: s >= t, not (a)", |s, t| s >= t && s / (s / t) == t, Value),
    (Table, Divu, &RHS, "yes: s >= t, kind (a)", |s, t| s >= t, Value),
    (Table, Divu, &RHS, "no: s < t", ANY, Value),
    (Table, Sltu, &LHS, "yes: t = 0", |_, t| t == 0, Value),
    (Table, Sltu, &LHS, "no: s = 0", |s, _| s == 0, Value),
    (Table, Sltu, &LHS, "yes: t = 1", |_, t| t == 1, Value),
    (Table, Sltu, &LHS, "yes: t > 1, kind (b)", ANY, Value),
    (Table, Sltu, &RHS, "yes: t = 0", |_, t| t == 0, Value),
    (Table, Sltu, &RHS, "no: s = M", |s, _| s == M, Value),
    (Table, Sltu, &RHS, "yes: t = 1", |_, t| t == 1, Value),
    (Table, Sltu, &RHS, "yes: t > 1, kind (b)", ANY, Value),
    (Table, Remu, &LHS, "no: s = 0, kind (c)", |s, _| s == 0, Value),
    (Table, Remu, &LHS, "no: s <= t", |s, t| s <= t, Value),
    (Table, Remu, &LHS, "yes: s > t", ANY, Value),
    (Table, Remu, &RHS, "yes: s = t", |s, t| s == t, Value),
    (Table, Remu, &RHS, "no: s < t", |s, t| s < t, Value),
    (Table, Remu, &RHS, "yes: s - t > t", |s, t| s - t > t, Value),
    (Table, Remu, &RHS, "no: s - t <= t", ANY, Value),
    (Table, Not, &BOTH, "yes: t <= 1", |_, t| t <= 1, Value),
    (Table, Not, &BOTH, "yes: t > 1, kind (b)", ANY, Value),
    (Table, Equals, &BOTH, "yes: t <= 1", |_, t| t <= 1, Value),
    (Table, Equals, &BOTH, "yes: t > 1, kind (b)", ANY, Value),
    (Table, BitwiseAnd, &BOTH, "yes: t and s = t", |s, t| t & s == t, Value),
    (Table, BitwiseAnd, &BOTH, "no", ANY, Value),
    (Inverse, Add, &BOTH, "t - s", ANY, Value),
    (Inverse, Sub, &LHS, "t + s", ANY, Value),
    (Inverse, Sub, &RHS, "s - t", ANY, Value),
    (Inverse, Mul, &BOTH, "s = t = 0", |s, t| s == 0 && t == 0, Drawn),
    (Inverse, Mul, &BOTH, "table says no", |s, t| s.trailing_zeros() > t.trailing_zeros(), Refused(11)),
    (Inverse, Mul, &BOTH, "c = 0", |s, _| s % 2 == 1, Drawn),
    (Inverse, Mul, &BOTH, "c > 0", ANY, Drawn),
    (Inverse, Divu, &LHS, "s = 0, t = M", |s, t| s == 0 && t == M, Even),
    (Inverse, Divu, &LHS, "table says no", |s, t| s == 0 || t > M / s, Refused(11)),
    (Inverse, Divu, &LHS, "t = M, s = 1", |s, t| t == M && s == 1, Value),
    (Inverse, Divu, &LHS, "t*s..t*s+s-1", |s, t| t * s <= M - (s - 1), Range(|s, t| (t * s, t * s + (s - 1)))),
    (Inverse, Divu, &LHS, "t*s..M", ANY, Range(|s, t| (t * s, M))),
    (Inverse, Divu, &RHS, "t = s = M", |s, t| t == M && s == M, Even),
    (Inverse, Divu, &RHS, "t = M", |_, t| t == M, Value),
    (Inverse, Divu, &RHS, "table says no", |s, t| if t == 0 { s == M } else { s < t }, Refused(11)),
    (Inverse, Divu, &RHS, "s/t, t = 0", |_, t| t == 0, Value),
    (Inverse, Divu, &RHS, "s/t, not (a)", |s, t| s / (s / t) == t, Value),
    (Inverse, Divu, &RHS, "s/t, kind (a)", ANY, Value),
    (Inverse, Sltu, &LHS, "t = 0: s..M", |_, t| t == 0, Range(|s, _| (s, M))),
    (Inverse, Sltu, &LHS, "table says no", |s, _| s == 0, Refused(11)),
    (Inverse, Sltu, &LHS, "0..s-1", ANY, Range(|s, _| (0, s - 1))),
    (Inverse, Sltu, &RHS, "t = 0: 0..s", |_, t| t == 0, Range(|s, _| (0, s))),
    (Inverse, Sltu, &RHS, "table says no", |s, _| s == M, Refused(11)),
    (Inverse, Sltu, &RHS, "s+1..M", ANY, Range(|s, _| (s + 1, M))),
    (Inverse, Remu, &LHS, "table says no", |s, t| s <= t, Refused(11)),
    (Inverse, Remu, &LHS, "empty range", |s, t| (M - t) / s == 0, Value),
    (Inverse, Remu, &LHS, "y*s + t", ANY, Range(|s, t| (1, (M - t) / s))),
    (Inverse, Remu, &RHS, "s = t", |s, t| s == t, Range(|_, t| (t, M))),
    (Inverse, Remu, &RHS, "table says no", |s, t| s < t || s - t <= t, Refused(11)),
    (Inverse, Remu, &RHS, "divisor draw", ANY, Drawn),
    (Inverse, Not, &BOTH, "binary rule of Not", ANY, Refused(10)),
    (Inverse, Equals, &BOTH, "t = 0", |_, t| t == 0, Drawn),
    (Inverse, Equals, &BOTH, "t > 0: s", ANY, Value),
    (Inverse, BitwiseAnd, &BOTH, "table says no", |s, t| t & s != t, Refused(11)),
    (Inverse, BitwiseAnd, &BOTH, "(word and not s) or t", ANY, Drawn),
    (Consistent, Add, &BOTH, "word", ANY, Drawn),
    (Consistent, Sub, &BOTH, "word", ANY, Drawn),
    (Consistent, Mul, &BOTH, "t = 0", |_, t| t == 0, Value),
    (Consistent, Mul, &BOTH, "two words", ANY, Drawn),
    (Consistent, Divu, &LHS, "t = 0: 0..M-1", |_, t| t == 0, Range(|_, _| (0, M - 1))),
    (Consistent, Divu, &LHS, "t = M: 0..M-1", |_, t| t == M, Range(|_, _| (0, M - 1))),
    (Consistent, Divu, &LHS, "y*t", ANY, Drawn),
    (Consistent, Divu, &RHS, "t = M: 0..1", |_, t| t == M, Even),
    (Consistent, Divu, &RHS, "t = 0: 1..M", |_, t| t == 0, Range(|_, _| (1, M))),
    (Consistent, Divu, &RHS, "0..M/t", ANY, Range(|_, t| (0, M / t))),
    (Consistent, Sltu, &LHS, "t = 0: 0..M", |_, t| t == 0, Even),
    (Consistent, Sltu, &LHS, "0..M-1", ANY, Range(|_, _| (0, M - 1))),
    (Consistent, Sltu, &RHS, "t = 0: 0..M", |_, t| t == 0, Even),
    (Consistent, Sltu, &RHS, "1..M-1", ANY, Range(|_, _| (1, M - 1))),
    (Consistent, Remu, &LHS, "t = M: M", |_, t| t == M, Value),
    (Consistent, Remu, &LHS, "t..M", ANY, Range(|_, t| (t, M))),
    (Consistent, Remu, &RHS, "t = M: 0", |_, t| t == M, Value),
    (Consistent, Remu, &RHS, "t+1..M", ANY, Range(|_, t| (t + 1, M))),
    (Consistent, Not, &BOTH, "binary rule of Not", ANY, Refused(10)),
    (Consistent, Equals, &BOTH, "word", ANY, Drawn),
    (Consistent, BitwiseAnd, &BOTH, "word or t", ANY, Drawn),
    (Unary, Add, &BOTH, "unary rule of a binary operator", ANY, Refused(10)),
    (Unary, Sub, &BOTH, "unary rule of a binary operator", ANY, Refused(10)),
    (Unary, Mul, &BOTH, "unary rule of a binary operator", ANY, Refused(10)),
    (Unary, Divu, &BOTH, "unary rule of a binary operator", ANY, Refused(10)),
    (Unary, Sltu, &BOTH, "unary rule of a binary operator", ANY, Refused(10)),
    (Unary, Remu, &BOTH, "unary rule of a binary operator", ANY, Refused(10)),
    (Unary, Not, &BOTH, "t = 0: 1", |_, t| t == 0, Value),
    (Unary, Not, &BOTH, "t > 0: 0", ANY, Value),
    (Unary, Equals, &BOTH, "unary rule of a binary operator", ANY, Refused(10)),
    (Unary, BitwiseAnd, &BOTH, "unary rule of a binary operator", ANY, Refused(10)),
];

/// How often a row was answered and refused, for each side.
#[derive(Clone, Copy, Default)]
struct Count {
    answered: u64,
    refused: u64,
    /// Of those answered, the ones after a discarded word, and after several; of those
    /// refused, the ones after any.
    after_one: u64,
    after_more: u64,
    dry_after: u64,
}

pub struct Rows(Vec<[Count; 2]>);

impl Rows {
    pub fn new() -> Rows {
        Rows(vec![Default::default(); ROWS.len()])
    }

    /// Counts the question, whose answer must be one that its row can give.
    pub fn count(&mut self, question: &Question, answer: Answer) {
        let place = place(question);
        let count = &mut self.0[place][question.side as usize];
        let discarded = discarded(question, answer);
        match fits(&ROWS[place], question, answer) {
            Some(true) => {
                count.answered += 1;
                count.after_one += u64::from(discarded == 1);
                count.after_more += u64::from(discarded > 1);
            }
            Some(false) => {
                count.refused += 1;
                count.dry_after += u64::from(discarded > 0);
            }
            None => panic!("{answer:?} in the row {}: {question:?}", ROWS[place].3),
        }
    }

    /// How many values were answered.
    pub fn values(&self) -> u64 {
        let values = ROWS.iter().zip(&self.0).filter(|(row, _)| row.0 != Table);
        values
            .map(|(_, [left, right])| left.answered + right.answered)
            .sum()
    }

    /// Each row is answered, and refused where it can be.
    pub fn print(&self, coverage: &mut Coverage) {
        for (row, counts) in ROWS.iter().zip(&self.0) {
            for side in row.2 {
                print(row, *side, counts[*side as usize], coverage);
            }
        }
    }
}

/// The place of a question's row.
pub fn place(question: &Question) -> usize {
    let place = ROWS.iter().position(|row| of(row, question));
    place.expect("every question has its row")
}

/// The first word that the range of a question discards, if it is of one that does.
pub fn first_discarded(question: &Question) -> Option<u64> {
    let Range(range) = ROWS[place(question)].5 else {
        return None;
    };
    let (first, last) = range(question.s, question.t);
    let size = u128::from(last - first) + 1;
    u64::try_from((1 << 64) / size * size).ok()
}

/// How many words the range of a question discarded: all but the last, or all.
pub fn discarded(question: &Question, answer: Answer) -> u64 {
    let at = question.at as u64;
    match (&ROWS[place(question)].5, answer) {
        (Range(_) | Even, [0, _, after]) => after - at - 1,
        (Range(_) | Even, _) => (question.length as u64).saturating_sub(at),
        _ => 0,
    }
}

fn of((rule, op, sides, _, case, _): &Row, question: &Question) -> bool {
    *rule == question.rule
        && *op == question.op
        && sides.contains(&question.side)
        && case(question.s, question.t)
}

/// Whether the row answers (true) or refuses (false) so, if it can.
fn fits((rule, _, _, name, _, ends): &Row, question: &Question, answer: Answer) -> Option<bool> {
    let at = question.at as u64;
    match (ends, answer) {
        (Value, [1, yes, _]) if *rule == Table => {
            (name.starts_with("yes") == (yes == 1)).then_some(true)
        }
        (Value, [0, _, after]) => (after == at).then_some(true),
        (Drawn | Range(_) | Even, [0, _, after]) => (after > at).then_some(true),
        (Drawn | Range(_) | Even, [12, _, _]) => Some(false),
        (Refused(number), [refusal, _, _]) => (*number == refusal).then_some(false),
        _ => None,
    }
}

fn print(row: &Row, side: OperandSide, count: Count, coverage: &mut Coverage) {
    let (rule, op, _, name, _, ends) = row;
    let name = format!("{rule:?} {op:?} {side:?}: {name}");
    let answered = (count.answered, "answered");
    let refused = (count.refused, "refused");
    match ends {
        Value => coverage.line(&name, &[answered], true),
        Drawn => coverage.line(&name, &[answered, refused], true),
        Range(_) | Even => {
            coverage.line(&name, &[answered, refused], true);
            let discarded = [
                (count.after_one, "after one"),
                (count.after_more, "after more"),
                (count.dry_after, "dry after"),
            ];
            let name = format!("{name}, discarded words");
            coverage.line(&name, &discarded, matches!(ends, Range(_)));
        }
        Refused(_) => coverage.line(&name, &[refused], true),
    }
}
