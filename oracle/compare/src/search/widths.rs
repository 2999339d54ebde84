//! How often inputs of each width were compared, and what their width brought about.

use super::{
    roots::ENDS,
    trace::{Case, Plan},
};
use crate::coverage::Coverage;
use monster::Node;
use plain::search::{Round, Run};

/// By the byte in the record; 0 and 64 mean the same.
const WIDTHS: usize = 65;

#[derive(Clone, Copy, Default)]
struct Count {
    inputs: u64,
    /// Whose starting word was above 2^width.
    cut: u64,
    /// To which a round brought 2^width or more.
    lost: u64,
}

pub struct Widths {
    counts: [Count; WIDTHS],
    /// Runs with a round that is lost for a width, by ending.
    runs: [u64; 3],
}

impl Default for Widths {
    fn default() -> Widths {
        Widths {
            counts: [Count::default(); WIDTHS],
            runs: [0; 3],
        }
    }
}

impl Widths {
    pub fn count(&mut self, case: &Case, run: &Run) {
        let plan = &case.plan;
        let drawn = |id: &usize| !matches!(plan.nodes[*id], Node::Constant(_));
        let starts = (0..plan.nodes.len()).filter(drawn).zip(&case.words);
        for (id, word) in starts {
            if let Some(width) = width(plan, id) {
                self.counts[width].inputs += 1;
                self.counts[width].cut += u64::from(run.log.start[id] != *word);
            }
        }
        let lost = lost(plan, run);
        lost.iter().for_each(|width| self.counts[*width].lost += 1);
        self.runs[run.result as usize] += u64::from(!lost.is_empty());
    }

    /// Every width occurs; one under 64 cuts words and loses rounds.
    pub fn print(&self, coverage: &mut Coverage) {
        for (width, count) in self.counts.iter().enumerate() {
            let name = format!("width {width}");
            let effects = [(count.cut, "words cut"), (count.lost, "rounds lost")];
            coverage.line(&name, &[(count.inputs, "inputs")], true);
            coverage.line(&name, &effects, !matches!(width, 0 | 64));
        }
        let runs: Vec<(u64, &str)> = self.runs.into_iter().zip(ENDS).collect();
        coverage.line("with a round lost for a width", &runs, true);
    }
}

/// The width bytes of all inputs.
pub fn inputs(plan: &Plan) -> impl Iterator<Item = usize> + '_ {
    (0..plan.nodes.len()).filter_map(|id| width(plan, id))
}

/// The width byte of an input.
fn width(plan: &Plan, id: usize) -> Option<usize> {
    let input = matches!(plan.nodes[id], Node::Input(_));
    input.then_some(plan.widths[id].into())
}

/// The widths that rounds were lost for: the others end at a constant.
pub fn lost(plan: &Plan, run: &Run) -> Vec<usize> {
    let lost = |round: &Round| round.lost.then(|| width(plan, round.leaf)).flatten();
    run.log.rounds.iter().filter_map(lost).collect()
}
