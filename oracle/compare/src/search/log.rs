//! Where the plain reading's run stands before a round and before a step.

use super::trace::Case;
use monster::Node;
use plain::search::{Choice, Outcome, Run};

pub fn values_before(run: &Run, round: usize) -> &[u64] {
    match round.checked_sub(1) {
        Some(last) => &run.log.rounds[last].values,
        None => &run.log.start,
    }
}

pub fn steps_before(run: &Run, round: usize) -> usize {
    match round.checked_sub(1) {
        Some(last) => run.log.rounds[last].steps as usize,
        None => 0,
    }
}

/// The start takes a word for each node that is no constant.
pub fn words_before(case: &Case, run: &Run, step: usize) -> usize {
    let constant = |node: &&Node| matches!(node, Node::Constant(_));
    match step.checked_sub(1) {
        Some(last) => run.log.choices[last].words,
        None => case.plan.nodes.len() - case.plan.nodes.iter().filter(constant).count(),
    }
}

/// A step that can be asked for alone.
pub struct Step<'a> {
    pub values: &'a [u64],
    pub node: usize,
    pub target: u64,
    /// The place among the words.
    pub at: usize,
    /// None where the words ran out: then as many were taken as in the whole run.
    pub choice: Option<&'a Choice>,
}

/// The steps of a round, the last one of which is not completed.
pub fn steps<'a>(case: &Case, run: &'a Run, round: usize) -> Vec<Step<'a>> {
    let last = round == run.log.rounds.len();
    let end = match last {
        true => run.log.choices.len(),
        false => steps_before(run, round + 1),
    };
    let completed = (steps_before(run, round)..end).map(|step| completed(case, run, round, step));
    let dry = (last && run.result == Outcome::Dry).then(|| dry(case, run));
    completed.chain(dry).collect()
}

fn completed<'a>(case: &Case, run: &'a Run, round: usize, step: usize) -> Step<'a> {
    let choice = &run.log.choices[step];
    Step {
        values: values_before(run, round),
        node: choice.node,
        target: choice.target,
        at: words_before(case, run, step),
        choice: Some(choice),
    }
}

/// The step that ran dry: below the last one, or a round's first.
fn dry<'a>(case: &Case, run: &'a Run) -> Step<'a> {
    let (rounds, steps) = (run.log.rounds.len(), run.log.choices.len());
    let (node, target) = match run.log.choices.last() {
        Some(last) if steps > steps_before(run, rounds) => (last.operand, last.value),
        _ => (case.plan.root, 1),
    };
    Step {
        values: values_before(run, rounds),
        node,
        target,
        at: words_before(case, run, steps),
        choice: None,
    }
}
