//! Puts a case to all sides, and keeps count.

use super::{
    discards::Discards,
    odd::Odd,
    ours::{Depth, Ours},
    panics::Panics,
    paper,
    questions::Seen,
    roots::{place, Roots, ENDS},
    runs::Judge,
    rust,
    sides::Sides,
    trace::{Case, Outcome, Trace},
    widths::Widths,
    widths_at_roots::WidthsAtRoots,
};
use crate::{
    coverage::Coverage,
    report::{conclude, Report},
};
use monster::{End, Run};
use plain::search;
use std::rc::Rc;

pub struct Compared {
    ours: Ours,
    rust: Reports,
    panics: Panics,
    sides: Sides,
    roots: Roots,
    /// Those of graphs with inputs of fewer than 64 bits, which the Rust is not asked of.
    narrow: Roots,
    widths: Widths,
    widths_at_roots: WidthsAtRoots,
    unfinished: u64,
    discards: Discards,
    left_out: u64,
}

impl Judge for Compared {
    fn judge(&mut self, case: &Rc<Case>, depth: Depth) -> Option<Outcome> {
        let paper = match paper::run(case) {
            Ok(paper) => paper,
            Err(refusal) => {
                self.widths_at_roots.count_refused(&case.plan, refusal);
                self.judge_odd(Odd::new(case));
                return None;
            }
        };
        let rust = rust::run(case);
        match &rust {
            Some(rust) => self.compare_rust(case, rust, &paper),
            None if case.plan.is_wide() => self.left_out += 1,
            None => self.narrow.count(&case.plan, paper.result as usize),
        }
        self.widths.count(case, &paper);
        self.widths_at_roots.count(&case.plan);
        let seen = Seen {
            case,
            paper: &paper,
            rust: rust.as_ref(),
        };
        self.ours.ask(&seen, depth);
        Some(paper::outcome(&paper))
    }

    fn judge_odd(&mut self, odd: Odd) {
        self.ours.ask_odd(odd);
    }
}

impl Compared {
    pub fn new() -> Compared {
        Compared {
            ours: Ours::new(),
            rust: Reports::new(["Rust's choices", "Rust's values", "Rust's results"]),
            panics: Panics::new(),
            sides: Sides::new(),
            roots: Roots::new(),
            narrow: Roots::new(),
            widths: Widths::default(),
            widths_at_roots: WidthsAtRoots::new(),
            unfinished: 0,
            discards: Discards::default(),
            left_out: 0,
        }
    }

    fn compare_rust(&mut self, case: &Case, rust: &Run, paper: &search::Run) {
        self.rust
            .compare(case, rust::trace(rust), paper::trace(paper));
        if let End::Panicked(place) = &rust.end {
            self.panics.compare(case, rust, place, paper);
        }
        self.unfinished += u64::from(rust.end == End::Dry && rust.unfinished > 0);
        self.discards.count(rust);
        self.sides.count(&case.plan, rust);
        self.roots.count(&case.plan, place(&rust.end));
    }

    /// Prints all figures; whether nothing differs and nothing is missing.
    pub fn conclude(self, graphs: &str) -> bool {
        let mut coverage = Coverage::default();
        let ours = self.ours.conclude(&mut coverage);
        self.sides.print(&mut coverage);
        self.roots.print("with the Rust", ENDS.len(), &mut coverage);
        self.narrow.print("narrow", 3, &mut coverage);
        self.widths.print(&mut coverage);
        self.widths_at_roots.print(&mut coverage);
        self.panics.places.print(&mut coverage);
        self.discards.print(&mut coverage);
        let mut runs = |name: &str, count: u64| coverage.line(name, &[(count, "runs")], true);
        runs("dry within a value that took words", self.unfinished);
        runs("left out, the Rust's propagation explodes", self.left_out);
        println!("{graphs}");
        let rust = [self.rust.choices, self.rust.states, self.rust.outcomes];
        let reports = ours.into_iter().chain(rust).chain([self.panics.report]);
        conclude("search", &reports.collect::<Vec<_>>()) & coverage.conclude()
    }
}

/// The Rust against the paper.
struct Reports {
    choices: Report,
    states: Report,
    outcomes: Report,
}

impl Reports {
    fn new(names: [&'static str; 3]) -> Reports {
        let [choices, states, outcomes] = names.map(Report::new);
        Reports {
            choices,
            states,
            outcomes,
        }
    }

    /// Without an outcome, all that came before the panic.
    fn compare(&mut self, case: &Case, found: Trace, mut paper: Trace) {
        if found.outcome.is_some() {
            self.outcomes.compare(case, found.outcome, paper.outcome);
        } else {
            paper.choices.truncate(found.choices.len());
            paper.states.truncate(found.states.len());
        }
        self.choices.compare(case, found.choices, paper.choices);
        self.states.compare(case, found.states, paper.states);
    }
}
