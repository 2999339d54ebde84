//! The original Rust's search.

use super::trace::{Case, Choice, Ending, How, Outcome, Plan, Trace};
use monster::{End, Graph, Node, OperandSide, Run};

/// Operators that the start may recompute: beyond, the graph is left out, since
/// propagation follows every path.
const MOST: u64 = 100_000;

/// None where its propagation explodes, or an input has fewer than 64 bits.
pub fn run(case: &Case) -> Option<Run> {
    if !case.plan.is_wide() {
        return None;
    }
    let graph = Graph::new(&case.plan.nodes, case.plan.root);
    (graph.start_cost() <= MOST).then(|| monster::run(&graph, &case.words, case.budget))
}

pub fn trace(run: &Run) -> Trace {
    Trace {
        states: run.states.clone(),
        choices: run.choices.iter().map(choice).collect(),
        outcome: outcome(run),
    }
}

fn outcome(run: &Run) -> Option<Outcome> {
    Some(Outcome {
        ending: ending(&run.end)?,
        rounds: run.rounds() as u64,
        lost: 0, // the Rust panics where a round is lost
        steps: run.steps() as u64,
        words: run.words as u64,
    })
}

fn ending(end: &End) -> Option<Ending> {
    match end {
        End::Solved => Some(Ending::Solved),
        End::Spent => Some(Ending::Spent),
        End::Dry => Some(Ending::Dry),
        End::Panicked(_) => None,
    }
}

fn choice(choice: &monster::Choice) -> Choice {
    Choice {
        node: choice.node,
        side: choice.side,
        value: choice.value,
        how: match choice.how {
            monster::How::Unary => How::Not,
            monster::How::Inverse => How::Inverse,
            monster::How::Consistent | monster::How::Unreachable => How::Consistent,
        },
        words: choice.words,
    }
}

/// The result in the static library's numbers, none where the Rust panicked.
pub fn result(run: &Run) -> Option<Vec<u64>> {
    let Outcome {
        ending,
        rounds,
        lost,
        steps,
        words,
    } = outcome(run)?;
    let numbers = [0, ending as u64, rounds, lost, steps, words];
    Some([&numbers, run.values()].concat())
}

/// A step in the static library's numbers, none where the Rust did not come so far.
pub fn step(plan: &Plan, run: &Run, step: usize) -> Option<Vec<u64>> {
    let choice = run.choices.get(step)?;
    let operand = match (plan.nodes[choice.node], choice.side) {
        (Node::Binary(_, _, right), Some(OperandSide::Rhs)) => right,
        (Node::Binary(_, left, _), _) | (Node::Not(left), _) => left,
        _ => return None,
    };
    let how = match choice.how {
        monster::How::Unary => 0,
        monster::How::Inverse => 1,
        monster::How::Consistent | monster::How::Unreachable => 2,
    };
    let right = choice.side == Some(OperandSide::Rhs);
    let (operand, words) = (operand as u64, choice.words as u64);
    Some(vec![0, operand, choice.value, words, how, right.into()])
}
