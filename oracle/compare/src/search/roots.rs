//! How often each kind of root came to each ending.

use super::{file, trace::Plan};
use crate::coverage::Coverage;
use monster::End;

/// By their numbers in the graph file.
pub const KINDS: [&str; 11] = [
    "Constant",
    "Input",
    "Add",
    "Sub",
    "Mul",
    "Divu",
    "Sltu",
    "Remu",
    "Not",
    "Equals",
    "BitwiseAnd",
];
const LEAVES: usize = 2;

pub const ENDS: [&str; 4] = ["solved", "spent", "dry", "panicked"];

/// The place of an ending among ENDS.
pub fn place(end: &End) -> usize {
    match end {
        End::Solved => 0,
        End::Spent => 1,
        End::Dry => 2,
        End::Panicked(_) => 3,
    }
}

pub struct Roots([[u64; ENDS.len()]; KINDS.len()]);

impl Roots {
    pub fn new() -> Roots {
        Roots(Default::default())
    }

    /// The place of the ending among ENDS.
    pub fn count(&mut self, plan: &Plan, end: usize) {
        let kind = file::kind(&plan.nodes[plan.root]) as usize;
        self.0[kind][end] += 1;
    }

    /// A leaf as root is solved at once or after one round; other roots end in every
    /// way. The first so many endings can occur.
    pub fn print(&self, of: &str, ends: usize, coverage: &mut Coverage) {
        for (kind, counts) in self.0.iter().enumerate() {
            let name = format!("{of}, root {}", KINDS[kind]);
            let counts: Vec<(u64, &str)> = counts.iter().copied().zip(ENDS).take(ends).collect();
            if kind < LEAVES {
                coverage.line(&name, &counts[..1], true);
                coverage.line(&name, &counts[1..], false);
            } else {
                coverage.line(&name, &counts, true);
            }
        }
    }
}
