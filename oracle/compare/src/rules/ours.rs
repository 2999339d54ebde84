//! The proved rules.

use super::question::{Answer, Question};
use ours::Queue;

/// Document 01's kinds of operators lie from 2 to 10.
const UNKNOWN_OPERATORS: [u64; 6] = [0, 1, 11, 255, (1 << 32) + 2, u64::MAX];
const UNKNOWN_RULES: [u64; 3] = [4, 1 << 32, u64::MAX];
const UNKNOWN_SIDES: [u64; 3] = [2, 1 << 32, u64::MAX];

pub fn ask(question: Question, waiting: &mut Queue<Question>) {
    waiting.lend_words(question.words());
    waiting.rule(question, numbers(&question));
}

/// Rule, operator, side, s, t and the place among the words.
pub fn numbers(question: &Question) -> [u64; 6] {
    let Question { s, t, at, .. } = *question;
    let (rule, side) = (question.rule as u64, question.side as u64);
    [rule, question.kind(), side, s, t, at as u64]
}

/// Rules, operators and sides that there are not, beside some that there are.
pub fn unknown() -> Vec<[u64; 6]> {
    let mut all = Vec::new();
    for known in 0..4 {
        for rule in UNKNOWN_RULES {
            all.push([rule, 2 + known, known % 2, 5, 3, known]);
        }
        for op in UNKNOWN_OPERATORS {
            all.push([known, op, known % 2, 5, 3, known]);
        }
        for op in 2..11 {
            all.extend(UNKNOWN_SIDES.map(|side| [known, op, side, 5, 3, known]));
        }
    }
    all
}

/// What is answered to each of them.
pub fn unknown_answer([.., at]: [u64; 6]) -> Answer {
    [99, 0, at]
}
