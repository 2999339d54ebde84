//! Graph files at and one off every limit, and damaged ones: our check against
//! the plain reading's.

use crate::{
    coverage::Coverage,
    report::{conclude, Asked, Report},
};
use ours::Queue;
use plain::file::check;
use std::fmt;

/// Each with its number.
const ANSWERS: [(u64, &str); 9] = [
    (0, "accepted"),
    (1, "refused 1, Size"),
    (2, "refused 2, Trailer"),
    (3, "refused 3, Span"),
    (4, "refused 4, Record"),
    (5, "refused 5, Order"),
    (13, "refused 13, Cycle"),
    (6, "refused 6, Root"),
    (7, "refused 7, FixedRoot"),
];

struct Case {
    name: String,
    file: Vec<u8>,
}

impl fmt::Debug for Case {
    fn fmt(&self, f: &mut fmt::Formatter) -> fmt::Result {
        write!(f, "{}, {} bytes", self.name, self.file.len())
    }
}

impl Asked for Case {
    fn size(&self) -> Vec<u64> {
        vec![self.file.len() as u64]
    }
}

struct Files {
    report: Report,
    counts: [u64; ANSWERS.len()],
}

pub fn compare() -> bool {
    let mut files = Files {
        report: Report::new("ours"),
        counts: [0; ANSWERS.len()],
    };
    let mut waiting = Queue::default();
    for (name, file) in plain::limits::cases() {
        waiting.lend_file(&file);
        waiting.check(Case { name, file });
        if waiting.is_full() {
            waiting.answer(|case, ours| files.compare(&case, ours));
        }
    }
    waiting.answer(|case, ours| files.compare(&case, ours));
    let mut coverage = Coverage::default();
    files.print(&mut coverage);
    conclude("files", &[files.report]) & coverage.conclude()
}

impl Files {
    fn compare(&mut self, case: &Case, ours: &[u64]) {
        let paper = paper(&case.file);
        self.report.compare(case, ours, &paper);
        let place = ANSWERS.iter().position(|(number, _)| *number == paper[0]);
        self.counts[place.expect("an answer of a check")] += 1;
    }

    /// Every answer must have occurred.
    fn print(&self, coverage: &mut Coverage) {
        for ((_, name), count) in ANSWERS.iter().zip(self.counts) {
            coverage.line(name, &[(count, "files")], true);
        }
    }
}

/// 0, the number of nodes and the root; or the refusal, the id it names or 0, and 0.
fn paper(file: &[u8]) -> [u64; 3] {
    match check(file) {
        Ok(graph) => [0, graph.count as u64, graph.root as u64],
        Err(refusal) => [refusal.number().into(), refusal.id().unwrap_or(0) as u64, 0],
    }
}
