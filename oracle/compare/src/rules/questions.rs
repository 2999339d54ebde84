//! The questions: a grid of corner numbers, then random pairs.

use super::{
    question::{Question, Rule, Rule::*, WORDS},
    rows,
};
use crate::numbers::{corners, Random};
use monster::{
    BVOperator::{self, *},
    OperandSide::{self, *},
};

const OPERATORS: [BVOperator; 9] = [Add, Sub, Mul, Divu, Sltu, Remu, Not, Equals, BitwiseAnd];
const SIDES: [OperandSide; 2] = [Lhs, Rhs];
const RULES: [Rule; 4] = [Table, Inverse, Consistent, Unary];
const RANDOM_PAIRS: u32 = 85_000;
const SEED: u64 = 2;

pub fn ask(answer: &mut impl FnMut(Question)) {
    let mut random = Random::new(SEED);
    let corners = corners();
    for s in &corners {
        for t in corners.iter().copied().chain(near(*s)) {
            ask_pair(*s, t, &mut random, answer);
        }
    }
    for _ in 0..RANDOM_PAIRS {
        let s = random.number();
        let t = random.related(s);
        ask_pair(s, t, &mut random, answer);
        ask_pair(t, s, &mut random, answer);
    }
}

/// s itself, its neighbours, its multiples and parts, and their neighbours.
fn near(s: u64) -> impl Iterator<Item = u64> {
    let parts = (1..8).map(move |k| s / k);
    let multiples = (1..8).map(move |k| s.wrapping_mul(k));
    let around = |n: u64| [n.wrapping_sub(1), n, n.wrapping_add(1)];
    parts
        .chain(multiples)
        .chain([u64::MAX - s])
        .flat_map(around)
}

/// Every rule, operator and side, the value rules with two lists of words.
fn ask_pair(s: u64, t: u64, random: &mut Random, answer: &mut impl FnMut(Question)) {
    for (rule, op) in RULES
        .into_iter()
        .flat_map(|rule| OPERATORS.map(|op| (rule, op)))
    {
        for side in SIDES {
            for _ in 0..1 + u8::from(matches!(rule, Inverse | Consistent)) {
                let (length, at) = room(random);
                let mut question = Question {
                    rule,
                    op,
                    side,
                    s,
                    t,
                    at,
                    length,
                    lent: [0; WORDS],
                };
                question.lent = words(&question, random);
                answer(question);
            }
        }
    }
}

/// How many words there are, and the place to start. Every fourth list has none
/// or one left there, some start behind the end.
fn room(random: &mut Random) -> (usize, usize) {
    let at = random.below(3) as usize;
    match random.below(12) {
        0 => (at, at),
        1 => (at + 1, at),
        2 => (at, at + random.below(2) as usize),
        _ => (at + 2 + random.below(4) as usize, at),
    }
}

/// Of a range most words are near the first one that it discards.
fn words(question: &Question, random: &mut Random) -> [u64; WORDS] {
    let discarded = rows::first_discarded(question);
    std::array::from_fn(|_| match discarded {
        Some(first) if random.below(3) > 0 => near_discarded(first, random),
        _ => word(question.s, question.t, random),
    })
}

/// The last one that is taken, the first and the last that are discarded, or one of them.
fn near_discarded(first: u64, random: &mut Random) -> u64 {
    match random.below(4) {
        0 => first - 1,
        1 => first,
        2 => u64::MAX,
        _ => first + random.below(first.wrapping_neg()),
    }
}

/// Words that matter to some draw: those that are redrawn, the coin's and the
/// divisor draw's corners, and any.
fn word(s: u64, t: u64, random: &mut Random) -> u64 {
    match random.below(12) {
        0..3 => 0,
        3 => s,
        4 => t,
        5 => s.wrapping_sub(t),
        6 => (random.word() & !4095) + random.below(12),
        7 => random.below(4098),
        8 => u64::MAX - random.below(3),
        _ => random.number(),
    }
}
