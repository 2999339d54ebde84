//! The plain reading's answers, in the numbers of the static library.

use super::{
    log::{steps_before, words_before, Step},
    trace::Case,
};
use plain::{
    rules::Side,
    search::{Choice, How, Outcome, Run},
    Refusal,
};

/// A whole run, with the values as it leaves them.
pub fn result(run: &Run) -> Vec<u64> {
    let Run {
        rounds,
        lost,
        steps,
        words,
        ..
    } = *run;
    let numbers = [0, run.result as u64, rounds, lost, steps, words as u64];
    [&numbers, run.values.as_slice()].concat()
}

/// The run again with a budget that is used up after so many rounds, and before
/// any further step: the numbers before the values.
pub fn spent_after(case: &Case, run: &Run, rounds: usize) -> [u64; 6] {
    let lost = run.log.rounds[..rounds].iter().filter(|round| round.lost);
    let (lost, steps) = (lost.count(), steps_before(run, rounds));
    let words = words_before(case, run, steps);
    [0, Outcome::Spent as usize, rounds, lost, steps, words].map(|number| number as u64)
}

/// A refusal names an id or 0, and leaves the values as they were lent.
pub fn refused(refusal: Refusal, lent: &[u64]) -> Vec<u64> {
    let id = refusal.id().unwrap_or(0) as u64;
    [&[refusal.number().into(), id, 0, 0, 0, 0], lent].concat()
}

/// A step; one that runs dry says how many words were taken.
pub fn step(run: &Run, step: &Step) -> Vec<u64> {
    match step.choice {
        Some(choice) => completed(choice).to_vec(),
        None => vec![12, run.words as u64, 0, 0, 0, 0],
    }
}

fn completed(choice: &Choice) -> [u64; 6] {
    let how = match choice.how {
        How::Not => 0,
        How::Inverse => 1,
        How::Consistent => 2,
    };
    let right = choice.side == Some(Side::Rhs);
    let (operand, words) = (choice.operand as u64, choice.words as u64);
    [0, operand, choice.value, words, how, right.into()]
}
