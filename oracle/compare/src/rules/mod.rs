//! Every rule of document 01, one value at a time: ours and the Rust's against
//! the plain reading. Counted by the rows of the paper's tables.

pub mod draws;
pub mod ours;
pub mod paper;
pub mod question;
pub mod questions;
pub mod rows;
pub mod rust;

use crate::{
    coverage::Coverage,
    report::{conclude, Asked, Report},
};
use ::ours::Queue;
use draws::Draws;
use monster::{Known, Place};
use question::Question;
use rows::Rows;
use rust::Rust;

/// All known places but the search's own: no single rule reaches a constant.
const PLACES: [Known; 3] = [Known::InverseMul, Known::InverseRemu, Known::ConsistentDivu];

struct Comparison {
    ours: Report,
    rust: Report,
    panics: Report,
    rows: Rows,
    draws: Draws,
    places: [u64; PLACES.len()],
}

pub fn compare() -> bool {
    let mut all = Comparison {
        ours: Report::new("ours"),
        rust: Report::new("the Rust"),
        panics: Report::new("its panics"),
        rows: Rows::new(),
        draws: Draws::new(),
        places: [0; PLACES.len()],
    };
    let mut waiting = Queue::default();
    questions::ask(&mut |question| {
        ours::ask(question, &mut waiting);
        if waiting.is_full() {
            waiting.answer(|question, ours| all.compare(&question, ours));
        }
    });
    waiting.answer(|question, ours| all.compare(&question, ours));
    let mut coverage = Coverage::default();
    all.print(&mut coverage);
    conclude("rules", &[all.ours, unknown(), all.rust, all.panics]) & coverage.conclude()
}

impl Asked for [u64; 6] {
    fn size(&self) -> Vec<u64> {
        self.to_vec()
    }
}

/// What is asked of no rule, no operator or no side.
fn unknown() -> Report {
    let mut report = Report::new("unknown");
    let mut waiting = Queue::default();
    waiting.lend_words(&[0; 8]);
    for asked in ours::unknown() {
        waiting.rule(asked, asked);
    }
    waiting.answer(|asked, ours| report.compare(&asked, ours, &ours::unknown_answer(asked)));
    report
}

impl Comparison {
    fn compare(&mut self, question: &Question, ours: &[u64]) {
        let paper = paper::answer(question);
        self.ours.compare(question, ours, &paper);
        match rust::answer(question) {
            Rust::Answers(rust) => self.rust.compare(question, rust, paper),
            Rust::Panics(place) => self.panicked(question, &place),
            Rust::NotAsked => {}
        }
        self.rows.count(question, paper);
        self.draws.count(question, paper);
    }

    /// A panic must be the known one at this question.
    fn panicked(&mut self, question: &Question, place: &Place) {
        let known = rust::panics(question);
        let expected = known.map_or("no panic", Known::place);
        self.panics.compare(question, place.0.as_str(), expected);
        if let Some(place) = PLACES.iter().position(|place| Some(*place) == known) {
            self.places[place] += 1;
        }
    }

    /// Every row, every draw and every known place must have occurred.
    fn print(&self, coverage: &mut Coverage) {
        self.rows.print(coverage);
        self.draws.print(coverage);
        for (known, count) in PLACES.iter().zip(self.places) {
            coverage.line(
                &format!("panics, {}", known.place()),
                &[(count, "times")],
                true,
            );
        }
        println!("{} single values", self.rows.values());
    }
}
