//! Where the Rust panics, and that the paper's run shows why.

use super::trace::Case;
use crate::{coverage::Coverage, report::Report};
use monster::{BVOperator::*, End, Known, Node, Place, Run};
use plain::{
    rules::Side,
    search::{self, Choice, Outcome},
};

/// How often the Rust panicked at each of the known places.
#[derive(Default)]
pub struct Places([u64; Known::ALL.len()]);

impl Places {
    pub fn count(&mut self, end: &End) {
        if let End::Panicked(place) = end {
            let known = place.known().into_iter();
            known.for_each(|known| self.0[known as usize] += 1);
        }
    }

    pub fn print(&self, coverage: &mut Coverage) {
        for known in Known::ALL {
            let count = (self.0[known as usize], "times");
            coverage.line(&format!("panics, {}", known.place()), &[count], true);
        }
    }
}

pub struct Panics {
    pub report: Report,
    pub places: Places,
}

impl Panics {
    pub fn new() -> Panics {
        Panics {
            report: Report::new("Rust's panics"),
            places: Places::default(),
        }
    }

    /// The place is a known one, and its condition holds where the Rust stopped.
    pub fn compare(&mut self, case: &Case, rust: &Run, place: &Place, paper: &search::Run) {
        let known = place.known();
        let shown = known.is_some_and(|known| shows(known, case, rust, paper));
        let expected = if shown { &place.0 } else { "no panic" };
        self.report.compare(case, place.0.as_str(), expected);
        self.places.count(&rust.end);
    }
}

/// Whether the paper's run shows the condition of a known place after as many
/// rounds and steps as the Rust completed.
fn shows(known: Known, case: &Case, rust: &Run, paper: &search::Run) -> bool {
    if known == Known::Constant {
        let round = paper.log.rounds.get(rust.rounds());
        return round.is_some_and(|round| round.lost && round.steps == rust.steps() as u64);
    }
    match paper.log.choices.get(rust.steps()) {
        Some(choice) => condition(known, case.plan.nodes[choice.node], choice, rust.values()),
        // The paper ran dry in the step in which the Rust panicked before that.
        None => paper.result == Outcome::Dry && paper.steps == rust.steps() as u64,
    }
}

fn condition(known: Known, node: Node, choice: &Choice, values: &[u64]) -> bool {
    let Node::Binary(op, left, right) = node else {
        return false;
    };
    let t = choice.target;
    match (op, choice.side) {
        (Mul, Some(Side::Lhs)) => known == Known::InverseMul && values[right] == 0 && t == 0,
        (Mul, Some(Side::Rhs)) => known == Known::InverseMul && values[left] == 0 && t == 0,
        (Remu, Some(Side::Lhs)) => known == Known::InverseRemu && values[right] > u64::MAX - t,
        (Divu, Some(Side::Rhs)) => known == Known::ConsistentDivu && t == 0,
        _ => false,
    }
}
