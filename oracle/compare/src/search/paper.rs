//! The plain reading of document 01.

use super::trace::{Case, Choice, Ending, How, Outcome, Trace};
use monster::OperandSide;
use plain::{
    rules::Side,
    search::{self, Run},
    Refusal,
};

pub fn run(case: &Case) -> Result<Run, Refusal> {
    let room = case.plan.nodes.len();
    search::solve(&case.file(), &case.words, case.budget, room)
}

pub fn trace(run: &Run) -> Trace {
    let rounds = run.log.rounds.iter().map(|round| &round.values);
    let states = std::iter::once(&run.log.start).chain(rounds);
    Trace {
        states: states.map(|values| values.to_vec()).collect(),
        choices: run.log.choices.iter().map(choice).collect(),
        outcome: Some(outcome(run)),
    }
}

pub fn outcome(run: &Run) -> Outcome {
    Outcome {
        ending: match run.result {
            search::Outcome::Solved => Ending::Solved,
            search::Outcome::Spent => Ending::Spent,
            search::Outcome::Dry => Ending::Dry,
        },
        rounds: run.rounds,
        lost: run.lost,
        steps: run.steps,
        words: run.words as u64,
    }
}

fn choice(choice: &search::Choice) -> Choice {
    Choice {
        node: choice.node,
        side: choice.side.map(side),
        value: choice.value,
        how: match choice.how {
            search::How::Not => How::Not,
            search::How::Inverse => How::Inverse,
            search::How::Consistent => How::Consistent,
        },
        words: choice.words,
    }
}

fn side(side: Side) -> OperandSide {
    match side {
        Side::Lhs => OperandSide::Lhs,
        Side::Rhs => OperandSide::Rhs,
    }
}
