//! The runs on one graph: word lists of corners, cut short, and budgets of all sizes.

use super::{
    odd::Odd,
    ours::Depth,
    trace::{Case, Outcome, Plan},
};
use crate::numbers::Random;
use monster::Node;
use std::rc::Rc;

/// Whom a case is put to.
pub trait Judge {
    /// The outcome by the paper, none if it refuses the case.
    fn judge(&mut self, case: &Rc<Case>, depth: Depth) -> Option<Outcome>;

    fn judge_odd(&mut self, odd: Odd);
}

/// A long list first; then cut where a run with it stopped, or before; then
/// another budget, and something that is refused.
pub fn ask(plan: Plan, random: &mut Random, judge: &mut impl Judge) {
    let start = plan
        .nodes
        .iter()
        .filter(|node| !matches!(node, Node::Constant(_)))
        .count();
    let budget = budget(random);
    let whole = Rc::new(Case {
        plan: Rc::new(plan),
        words: words(start, budget, random),
        budget,
    });
    let outcome = judge.judge(&whole, Depth::Whole);
    if random.below(4) == 0 {
        judge.judge_odd(Odd::changed(&whole, random));
    }
    if let Some(outcome) = outcome {
        ask_parts(&whole, start, &outcome, random, judge);
    }
}

fn ask_parts(
    whole: &Case,
    start: usize,
    outcome: &Outcome,
    random: &mut Random,
    judge: &mut impl Judge,
) {
    for length in lengths(start, outcome, random) {
        let mut part = whole.clone();
        part.words.truncate(length);
        judge.judge(&Rc::new(part), Depth::End);
    }
    if outcome.steps > 0 {
        let mut part = whole.clone();
        part.budget = random.below(outcome.steps) as u32;
        judge.judge(&Rc::new(part), Depth::End);
    }
}

fn budget(random: &mut Random) -> u32 {
    let budget = match random.below(40) {
        0 => 0,
        1 => 1,
        2 => 2,
        3..10 => random.below(10),
        39 => random.below(3_000),
        _ => random.below(80),
    };
    budget as u32
}

/// Enough for most budgets, now and then hardly any.
fn words(start: usize, budget: u32, random: &mut Random) -> Vec<u64> {
    let more = match random.below(8) {
        0 => random.below(9) as usize,
        _ => 5 * budget as usize + 8,
    };
    let style = random.below(7);
    let two = [random.number(), random.number()];
    (0..start + more)
        .map(|_| word(style, two, random))
        .collect()
}

/// Any words, M and small ones, corners, those near the choosing word's bound, one of
/// two (which brings redraws), the last of all (which ranges discard), or a mixture.
fn word(style: u64, two: [u64; 2], random: &mut Random) -> u64 {
    match style {
        0 => random.word(),
        1 => random.below(4).wrapping_sub(1),
        2 => random.number(),
        3 => choosing(random),
        4 => two[random.below(2) as usize],
        5 => last(random),
        _ => {
            let style = random.below(6);
            word(style, two, random)
        }
    }
}

/// M, or far or near below it, as likely at every distance.
fn last(random: &mut Random) -> u64 {
    let distance = random.below(64);
    u64::MAX - (random.word() >> distance) / 2
}

fn choosing(random: &mut Random) -> u64 {
    (8_106_479_329_266_891 + random.below(4)) * 2048 + random.below(2048)
}

/// Every length between the start and what was used, or two of them.
fn lengths(start: usize, outcome: &Outcome, random: &mut Random) -> Vec<usize> {
    let used = outcome.words as usize;
    if used - start <= 12 && random.below(4) == 0 {
        return (start..used).collect();
    }
    let some = (used - start).min(2);
    (0..some)
        .map(|_| start + random.below((used - start) as u64) as usize)
        .collect()
}
