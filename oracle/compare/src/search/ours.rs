//! The proved search: results, the values after every round, every step, and
//! refusals.

use super::{
    cells::{cell, Cells},
    log::{self, steps_before, values_before, Step},
    odd::Odd,
    questions::{self, Answers, Part, Question, Seen},
    refusals::Refusals,
    roots::{place, ENDS},
};
use crate::{coverage::Coverage, report::Report};
use ours::Queue;
use plain::file::check;
use std::rc::Rc;

/// How much of a run is asked for, beside its result.
#[derive(Clone, Copy, PartialEq)]
pub enum Depth {
    /// Every step, and the values after every round.
    Whole,
    /// The steps after the last completed round: those before are another run's.
    End,
}

/// Steps that a run is asked for again to see the values after its rounds. Of a
/// longer run only every second round is asked for, or every third, and so on.
const AGAIN: usize = 2_000;

const REPORTS: [&str; 5] = [
    "our results",
    "our rounds",
    "our steps",
    "our refusals",
    "ours, Rust's",
];

pub struct Ours {
    waiting: Queue<(Question, Answers)>,
    /// Results, rounds, steps and refusals against the paper, and all against the Rust.
    reports: [Report; 5],
    with_paper: Cells,
    with_rust: Cells,
    /// Of those with the Rust, the ones of graphs that are not sorted.
    unsorted: Cells,
    /// Of those with the paper, the ones of graphs with inputs of fewer than 64 bits.
    narrow: Cells,
    refusals: Refusals,
}

impl Ours {
    pub fn new() -> Ours {
        Ours {
            waiting: Queue::default(),
            reports: REPORTS.map(Report::new),
            with_paper: Cells::default(),
            with_rust: Cells::default(),
            unsorted: Cells::default(),
            narrow: Cells::default(),
            refusals: Refusals::default(),
        }
    }

    pub fn ask(&mut self, seen: &Seen, depth: Depth) {
        let (case, rounds) = (seen.case, seen.paper.log.rounds.len());
        self.waiting.lend_file(&case.file());
        self.waiting.lend_words(&case.words);
        self.ask_run(seen, Part::Result, case.budget);
        if depth == Depth::Whole {
            self.ask_rounds(seen);
        }
        let first = if depth == Depth::Whole { 0 } else { rounds };
        (first..=rounds).for_each(|round| self.ask_steps(seen, round));
    }

    /// The budgets at which rounds end give the values after them; 0 gives the start.
    fn ask_rounds(&mut self, seen: &Seen) {
        let steps = |rounds: usize| steps_before(seen.paper, rounds);
        let all = 0..=seen.paper.log.rounds.len();
        let again: usize = all.clone().map(steps).sum();
        for rounds in all.step_by(1 + again / AGAIN) {
            self.ask_run(seen, Part::Rounds(rounds), steps(rounds) as u32);
        }
    }

    fn ask_run(&mut self, seen: &Seen, part: Part, budget: u32) {
        let answers = match part {
            Part::Rounds(rounds) => questions::rounds(seen, rounds),
            _ => questions::result(seen),
        };
        let waiting = (Question::Part(part, seen.case.clone()), answers);
        let values = lent(seen.case.plan.nodes.len());
        self.waiting.solve(waiting, budget, &values);
    }

    fn ask_steps(&mut self, seen: &Seen, round: usize) {
        self.waiting.lend_values(values_before(seen.paper, round));
        let before = steps_before(seen.paper, round);
        for (place, step) in log::steps(seen.case, seen.paper, round).iter().enumerate() {
            self.ask_step(seen, before + place, step);
        }
        self.answer_if_full();
    }

    fn ask_step(&mut self, seen: &Seen, place: usize, step: &Step) {
        let answers = questions::step(seen, place, step);
        self.count(seen, step, &answers);
        let question = Question::Part(Part::Step(place), seen.case.clone());
        let asked = [step.node as u64, step.target, step.at as u64];
        self.waiting.step((question, answers), asked);
    }

    fn count(&mut self, seen: &Seen, step: &Step, answers: &Answers) {
        let Some(cell) = cell(&seen.case.plan, step) else {
            return;
        };
        self.with_paper.count(cell, seen.paper.result as usize);
        if !seen.case.plan.is_wide() {
            self.narrow.count(cell, seen.paper.result as usize);
        }
        if let (Some(rust), Some(_)) = (seen.rust, &answers.rust) {
            self.with_rust.count(cell, place(&rust.end));
            if !seen.case.plan.is_sorted() {
                self.unsorted.count(cell, place(&rust.end));
            }
        }
    }

    /// A search and, where the file is refused, a step, which looks at it first.
    pub fn ask_odd(&mut self, odd: Odd) {
        let values = lent(odd.room);
        let odd = Rc::new(odd);
        let paper = odd.run();
        if let Err(refusal) = paper {
            self.refusals.count(refusal);
        }
        self.waiting.lend_file(&odd.file);
        self.waiting.lend_words(&odd.words);
        self.waiting.lend_values(&values);
        let waiting = (Question::Odd(odd.clone()), questions::odd(paper, &values));
        self.waiting.solve(waiting, odd.budget, &values);
        if let Err(refusal) = check(&odd.file) {
            let waiting = (Question::Odd(odd), questions::odd(Err(refusal), &[]));
            self.waiting.step(waiting, [0, 1, 0]);
        }
        self.answer_if_full();
    }

    fn answer_if_full(&mut self) {
        if self.waiting.is_full() {
            self.answer();
        }
    }

    fn answer(&mut self) {
        let [results, rounds, steps, refusals, with_rust] = &mut self.reports;
        self.waiting.answer(|(question, answers), ours| {
            let with_paper = match question {
                Question::Part(Part::Result, _) => &mut *results,
                Question::Part(Part::Rounds(_), _) => &mut *rounds,
                Question::Part(Part::Step(_), _) => &mut *steps,
                Question::Odd(_) => &mut *refusals,
            };
            with_paper.compare(&question, ours, &answers.paper);
            if let Some(rust) = answers.rust {
                with_rust.compare(&question, ours, &rust);
            }
        });
    }

    /// Of a search of ours three endings can be; where it is held to the Rust, the
    /// Rust may also panic later.
    pub fn conclude(mut self, coverage: &mut Coverage) -> [Report; 5] {
        self.answer();
        self.with_paper.print("with the paper", 3, coverage);
        self.with_rust.print("with the Rust", ENDS.len(), coverage);
        self.unsorted
            .print("with the Rust, unsorted", ENDS.len(), coverage);
        self.narrow.print("with the paper, narrow", 3, coverage);
        self.refusals.print(coverage);
        self.reports
    }
}

/// Values that a search must overwrite and a refusal must leave.
fn lent(count: usize) -> Vec<u64> {
    (0..count as u64).map(|place| !place << 8).collect()
}
