//! Small searches for the list: the Rust's answers, and the plain reading's where the
//! Rust panics or the search is refused.

use super::{
    entry::{Entry, Mark, LENT},
    shown::{by_refusal, by_run, Shown},
};
use crate::{
    coverage::Coverage,
    numbers::Random,
    search::{
        answers,
        cells::{cell, Cells},
        graphs, log,
        odd::Odd,
        ours::Depth,
        panics::Places,
        paper,
        questions::{self, Seen},
        refusals::Refusals,
        roots::{place, Roots, ENDS},
        runs::{self, Judge},
        rust,
        trace::{Case, Outcome, Plan},
        widths::Widths,
    },
};
use monster::{BVOperator::*, End, Node};
use plain::search::Run;
use std::rc::Rc;

const SEED: u64 = 5;
const MOST_NODES: usize = 6;
const MOST_WORDS: usize = 16;
const MOST_BYTES: usize = 144;

pub struct Searches {
    entries: Vec<Entry>,
    most: usize,
    shown: Shown,
    cells: Cells,
    /// Those of graphs that are not sorted.
    unsorted: Cells,
    /// Those of graphs with inputs of fewer than 64 bits.
    narrow: Cells,
    roots: Roots,
    narrow_roots: Roots,
    widths: Widths,
    refusals: Refusals,
    places: Places,
}

/// So many of them, the example of document 01 first.
pub fn collect(most: usize, coverage: &mut Coverage) -> Vec<Entry> {
    let mut all = Searches {
        entries: Vec::new(),
        most,
        shown: Shown::new(),
        cells: Cells::default(),
        unsorted: Cells::default(),
        narrow: Cells::default(),
        roots: Roots::new(),
        narrow_roots: Roots::new(),
        widths: Widths::default(),
        refusals: Refusals::default(),
        places: Places::default(),
    };
    for budget in [100_000, 1] {
        all.judge(&Rc::new(example(budget)), Depth::Whole);
    }
    let mut random = Random::new(SEED);
    while all.entries.len() < most {
        let plan = graphs::plan(&mut random);
        runs::ask(plan, &mut random, &mut all);
    }
    all.print(coverage);
    all.entries
}

fn example(budget: u32) -> Case {
    let nodes = vec![
        Node::Input(40),
        Node::Constant(3),
        Node::Binary(Add, 0, 1),
        Node::Constant(10),
        Node::Binary(Equals, 2, 3),
    ];
    Case {
        plan: Rc::new(Plan::new(nodes, 4)),
        words: vec![0; 7],
        budget,
    }
}

impl Judge for Searches {
    fn judge(&mut self, case: &Rc<Case>, _: Depth) -> Option<Outcome> {
        let Ok(run) = paper::run(case) else {
            self.judge_odd(Odd::new(case));
            return None;
        };
        self.take(&Rc::new(shortened(case, &run)));
        Some(paper::outcome(&run))
    }

    fn judge_odd(&mut self, odd: Odd) {
        let Err(refusal) = odd.run() else {
            return;
        };
        if self.is_full() || !small(&odd) || odd.is_version_2() {
            return;
        }
        if !self.shown.wants(&by_refusal(refusal)) {
            return;
        }
        self.refusals.count(refusal);
        let answer = answers::refused(refusal, &vec![LENT; odd.room]);
        let entry = Entry::search(Mark::Refused, odd.file, odd.words, odd.budget, &answer);
        self.entries.push(entry);
    }
}

impl Searches {
    fn is_full(&self) -> bool {
        self.entries.len() == self.most
    }

    /// Takes the case if it is small and shows something.
    fn take(&mut self, case: &Rc<Case>) {
        let small = case.plan.nodes.len() <= MOST_NODES && case.words.len() <= MOST_WORDS;
        if self.is_full() || !small {
            return;
        }
        let (Ok(paper), rust) = (paper::run(case), rust::run(case)) else {
            return;
        };
        if rust.is_none() && case.plan.is_wide() {
            return;
        }
        let seen = Seen {
            case,
            paper: &paper,
            rust: rust.as_ref(),
        };
        if self.shown.wants(&by_run(&seen)) {
            self.count(&seen);
            self.entries.push(entry(&seen));
        }
    }

    fn count(&mut self, seen: &Seen) {
        let plan = &seen.case.plan;
        for round in 0..=seen.paper.log.rounds.len() {
            for step in log::steps(seen.case, seen.paper, round) {
                if let Some(cell) = cell(plan, &step) {
                    self.cells.count(cell, seen.paper.result as usize);
                    if !plan.is_sorted() {
                        self.unsorted.count(cell, seen.paper.result as usize);
                    }
                    if !plan.is_wide() {
                        self.narrow.count(cell, seen.paper.result as usize);
                    }
                }
            }
        }
        match seen.rust {
            Some(rust) => {
                self.roots.count(plan, place(&rust.end));
                self.places.count(&rust.end);
            }
            None => self.narrow_roots.count(plan, seen.paper.result as usize),
        }
        self.widths.count(seen.case, seen.paper);
    }

    fn print(&self, coverage: &mut Coverage) {
        self.cells.print("steps", 3, coverage);
        self.unsorted.print("steps, unsorted", 3, coverage);
        self.narrow.print("steps, narrow", 3, coverage);
        self.roots.print("the Rust's", ENDS.len(), coverage);
        self.narrow_roots.print("narrow", 3, coverage);
        self.widths.print(coverage);
        self.refusals.print(coverage);
        self.places.print(coverage);
    }
}

fn small(odd: &Odd) -> bool {
    odd.file.len() <= MOST_BYTES && odd.words.len() <= MOST_WORDS && odd.room <= MOST_WORDS
}

/// Without the words that are not taken, but for one or two now and then.
fn shortened(case: &Case, run: &Run) -> Case {
    let mut short = case.clone();
    if run.result != plain::search::Outcome::Dry {
        short.words.truncate(run.words + run.words % 3);
    }
    short
}

fn entry(seen: &Seen) -> Entry {
    let answers = questions::result(seen);
    let mark = match seen.rust.map(|rust| &rust.end) {
        Some(End::Panicked(place)) => Mark::Panics(place.known().expect("a known place")),
        Some(_) => Mark::TheRust,
        None => Mark::Narrow,
    };
    let answer = answers.rust.unwrap_or(answers.paper.clone());
    assert_eq!(
        answer, answers.paper,
        "the Rust and the plain reading differ"
    );
    let case = seen.case;
    Entry::search(mark, case.file(), case.words.clone(), case.budget, &answer)
}
