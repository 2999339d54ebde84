//! What the proved search is asked, with the answers of the plain reading and,
//! where it comes so far, of the Rust.

use super::{
    answers,
    log::{values_before, Step},
    odd::Odd,
    rust,
    trace::Case,
};
use crate::report::Asked;
use monster::Node;
use plain::{
    search::{Outcome, Run},
    Refusal,
};
use std::rc::Rc;

/// A case, and what the others make of it.
pub struct Seen<'a> {
    pub case: &'a Rc<Case>,
    pub paper: &'a Run,
    pub rust: Option<&'a monster::Run>,
}

#[derive(Debug)]
pub enum Part {
    /// The whole run.
    Result,
    /// The run up to the end of so many rounds.
    Rounds(usize),
    /// One step.
    Step(usize),
}

#[derive(Debug)]
pub enum Question {
    Part(Part, Rc<Case>),
    Odd(Rc<Odd>),
}

impl Asked for Question {
    fn size(&self) -> Vec<u64> {
        match self {
            Question::Part(Part::Result, case) => case.size(),
            Question::Part(Part::Rounds(place) | Part::Step(place), case) => {
                [case.size(), vec![*place as u64]].concat()
            }
            Question::Odd(odd) => odd.size(),
        }
    }
}

pub struct Answers {
    pub paper: Vec<u64>,
    pub rust: Option<Vec<u64>>,
}

pub fn result(seen: &Seen) -> Answers {
    Answers {
        paper: answers::result(seen.paper),
        rust: seen.rust.and_then(rust::result),
    }
}

/// With the budget that is used up at the end of so many rounds. A root that is a
/// leaf needs no step, and nothing follows a solution: there it is the whole run.
pub fn rounds(seen: &Seen, rounds: usize) -> Answers {
    let run = seen.paper;
    let solved = run.result == Outcome::Solved && rounds == run.log.rounds.len();
    if solved || leaf(seen.case) {
        return result(seen);
    }
    let spent = answers::spent_after(seen.case, run, rounds);
    let values = |rust: &monster::Run| rust.states.get(rounds).cloned();
    Answers {
        paper: [&spent, values_before(run, rounds)].concat(),
        rust: seen
            .rust
            .and_then(values)
            .map(|values| [&spent, values.as_slice()].concat()),
    }
}

fn leaf(case: &Case) -> bool {
    let root = &case.plan.nodes[case.plan.root];
    matches!(root, Node::Constant(_) | Node::Input(_))
}

pub fn step(seen: &Seen, place: usize, step: &Step) -> Answers {
    let rust = |run: &monster::Run| rust::step(&seen.case.plan, run, place);
    Answers {
        paper: answers::step(seen.paper, step),
        rust: seen.rust.and_then(rust),
    }
}

/// What is refused leaves the values as they were lent.
pub fn odd(paper: Result<Run, Refusal>, lent: &[u64]) -> Answers {
    Answers {
        paper: match paper {
            Ok(run) => answers::result(&run),
            Err(refusal) => answers::refused(refusal, lent),
        },
        rust: None,
    }
}
