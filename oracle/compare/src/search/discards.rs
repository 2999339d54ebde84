//! How often the ranges of the search discarded words.

use super::roots::{place, ENDS};
use crate::coverage::Coverage;
use monster::{End, Run};

/// The original's line that asks for a range, and whether words can be discarded there:
/// not where the size divides 2^64.
const RANGES: [(u32, &str, bool); 19] = [
    (201, "inverse Sltu Lhs, s..M", true),
    (204, "inverse Sltu Lhs, 0..s-1", true),
    (210, "inverse Sltu Rhs, 0..s", true),
    (214, "inverse Sltu Rhs, s+1..M", true),
    (228, "inverse Divu Lhs, t*s..M", true),
    (231, "inverse Divu Lhs, t*s..t*s+s-1", true),
    (240, "inverse Divu Rhs, 0..1", false),
    (251, "inverse Remu Lhs, 1..(M-t)/s", true),
    (267, "inverse Remu Rhs, t..M", true),
    (325, "consistent Divu Lhs, 0..M-1", true),
    (330, "consistent Divu Lhs, y", false),
    (339, "consistent Divu Rhs, 0..1", false),
    (342, "consistent Divu Rhs, 0..M/t", true),
    (351, "consistent Sltu Lhs, 0..M", false),
    (354, "consistent Sltu Lhs, 0..M-1", true),
    (360, "consistent Sltu Rhs, 0..M", false),
    (363, "consistent Sltu Rhs, 1..M-1", true),
    (372, "consistent Remu Lhs, t..M", true),
    (380, "consistent Remu Rhs, t+1..M", true),
];

#[derive(Clone, Copy, Default)]
struct Count {
    words: u64,
    /// Runs that ran dry within the range, after it had discarded words.
    dry: u64,
}

#[derive(Default)]
pub struct Discards {
    counts: [Count; RANGES.len()],
    /// Runs in which words were discarded, by ending.
    runs: [u64; ENDS.len()],
}

impl Discards {
    pub fn count(&mut self, run: &Run) {
        let Some(last) = run.discarded.last() else {
            return;
        };
        self.runs[place(&run.end)] += 1;
        run.discarded
            .iter()
            .for_each(|line| self.of(*line).words += 1);
        if run.end == End::Dry && run.discarded_unfinished > 0 {
            self.of(*last).dry += 1;
        }
    }

    fn of(&mut self, line: u32) -> &mut Count {
        let place = RANGES.iter().position(|range| range.0 == line);
        &mut self.counts[place.expect("a line that asks for a range")]
    }

    pub fn print(&self, coverage: &mut Coverage) {
        for (count, (_, name, possible)) in self.counts.iter().zip(RANGES) {
            let counts = [(count.words, "words"), (count.dry, "dry within")];
            coverage.line(&format!("discarded, {name}"), &counts, possible);
        }
        let runs: Vec<(u64, &str)> = self.runs.into_iter().zip(ENDS).collect();
        coverage.line("discarded, runs", &runs, true);
    }
}
