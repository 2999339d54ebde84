//! What the words can bring about within a row, and how often they did.

use super::question::{Answer, Question, Rule, Rule::*};
use crate::coverage::Coverage;
use monster::{
    BVOperator::{self, *},
    OperandSide::*,
};

/// A question whose answer took words, or ran dry on some.
struct Drawn<'a> {
    question: &'a Question,
    value: Option<u64>,
    taken: &'a [u64],
}

impl Drawn<'_> {
    fn of(&self, rule: Rule, op: BVOperator) -> bool {
        self.question.rule == rule && self.question.op == op
    }

    fn answered(&self, rule: Rule, op: BVOperator) -> bool {
        self.of(rule, op) && self.value.is_some()
    }

    fn dry(&self, rule: Rule, op: BVOperator) -> bool {
        self.of(rule, op) && self.value.is_none()
    }

    /// The last two words of a consistent Mul, low first.
    fn pair(&self) -> u128 {
        let [.., low, high] = *self.taken else {
            return 0;
        };
        u128::from(high) << 64 | u128::from(low)
    }

    /// Whether the pair has more trailing zeros than t.
    fn shifted(&self) -> bool {
        self.pair().trailing_zeros() > self.question.t.trailing_zeros()
    }

    /// D and k of a divisor draw, and t.
    fn divisor(&self) -> Option<(u64, u64, u64)> {
        let Question { side, s, t, .. } = *self.question;
        let drawn = self.answered(Inverse, Remu) && side == Rhs && s != t;
        drawn.then(|| (s - t, 1 + self.taken[0] % 4096, t))
    }

    /// Of a consistent Divu Lhs, the row y·t: the others are ranges.
    fn product(&self) -> bool {
        let Question { side, t, .. } = *self.question;
        side == Lhs && !matches!(t, 0 | u64::MAX)
    }

    fn equal(&self) -> bool {
        self.question.s == self.question.t && self.question.side == Rhs
    }
}

type Draw = (&'static str, fn(&Drawn) -> bool);

const DRAWS: [Draw; 15] = [
    ("inverse Mul: product and word share a top bit", |d| {
        d.answered(Inverse, Mul) && shared_top_bit(d.question, d.taken[0])
    }),
    ("inverse Equals: a word equals s", |d| {
        d.answered(Inverse, Equals) && d.taken.len() > 1
    }),
    ("inverse Equals: dry after words", |d| {
        d.dry(Inverse, Equals)
    }),
    ("inverse Remu Rhs: t read as 0", |d| {
        d.answered(Inverse, Remu) && d.equal() && d.value == Some(0)
    }),
    ("inverse Remu Rhs: above t", |d| {
        d.answered(Inverse, Remu) && d.equal() && d.value > Some(d.question.t)
    }),
    ("divisor draw: k divides D, D/k > t", |d| {
        d.divisor().is_some_and(|(d, k, t)| d % k == 0 && d / k > t)
    }),
    ("divisor draw: k divides D, D/k <= t", |d| {
        d.divisor()
            .is_some_and(|(d, k, t)| d % k == 0 && d / k <= t)
    }),
    ("divisor draw: k does not divide D", |d| {
        d.divisor().is_some_and(|(d, k, _)| d % k != 0)
    }),
    ("consistent Mul: low word 0", |d| {
        d.answered(Consistent, Mul) && d.pair() as u64 == 0
    }),
    ("consistent Mul: shifted", |d| {
        d.answered(Consistent, Mul) && d.shifted()
    }),
    ("consistent Mul: not shifted", |d| {
        d.answered(Consistent, Mul) && !d.shifted()
    }),
    ("consistent Mul: redrawn", |d| {
        d.answered(Consistent, Mul) && d.taken.len() > 2
    }),
    ("consistent Mul: dry after words", |d| {
        d.dry(Consistent, Mul)
    }),
    ("consistent Divu Lhs: redrawn", |d| {
        d.answered(Consistent, Divu) && d.product() && d.taken.len() > 1
    }),
    ("consistent Divu Lhs: dry after words", |d| {
        d.dry(Consistent, Divu) && d.product()
    }),
];

/// The word is or-ed to the product: both can have one of the top c bits.
fn shared_top_bit(question: &Question, word: u64) -> bool {
    let c = question.s.trailing_zeros();
    let odd = question.s.unbounded_shr(c);
    let inverse = monster::BitVector(odd)
        .modinverse()
        .map_or(0, |inverse| inverse.0);
    let product = question.t.unbounded_shr(c).wrapping_mul(inverse);
    product & word & !u64::MAX.unbounded_shr(c) != 0
}

pub struct Draws([u64; DRAWS.len()]);

impl Draws {
    pub fn new() -> Draws {
        Draws([0; DRAWS.len()])
    }

    pub fn count(&mut self, question: &Question, answer: Answer) {
        let Some(drawn) = drawn(question, answer) else {
            return;
        };
        for (count, (_, occurs)) in self.0.iter_mut().zip(DRAWS) {
            *count += u64::from(occurs(&drawn));
        }
    }

    pub fn print(&self, coverage: &mut Coverage) {
        for (count, (name, _)) in self.0.iter().zip(DRAWS) {
            coverage.line(name, &[(*count, "times")], true);
        }
    }
}

fn drawn<'a>(question: &'a Question, answer: Answer) -> Option<Drawn<'a>> {
    let rest = question.words().get(question.at..)?;
    let (value, taken) = match answer {
        [0, value, after] => (Some(value), &rest[..after as usize - question.at]),
        [12, _, _] => (None, rest),
        _ => return None,
    };
    (!taken.is_empty()).then_some(Drawn {
        question,
        value,
        taken,
    })
}
