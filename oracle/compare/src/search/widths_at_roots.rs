//! How often each width was compared at each kind of root.

use super::{file, roots::KINDS, trace::Plan, widths};
use crate::coverage::Coverage;
use monster::Node;
use plain::Refusal;
use std::collections::BTreeSet;

/// The least width that is refused: "4 also for a width above 64".
pub const TOO_WIDE: usize = 65;

/// By the byte in the record: runs of graphs with such an input, but for the last one
/// files that are refused for it. Of a root that is an input its own width counts alone.
pub struct WidthsAtRoots([[u64; KINDS.len()]; TOO_WIDE + 1]);

impl WidthsAtRoots {
    pub fn new() -> WidthsAtRoots {
        WidthsAtRoots([[0; KINDS.len()]; TOO_WIDE + 1])
    }

    pub fn count(&mut self, plan: &Plan) {
        let distinct: BTreeSet<usize> = match plan.nodes[plan.root] {
            Node::Input(_) => [plan.widths[plan.root].into()].into(),
            _ => widths::inputs(plan).collect(),
        };
        let kind = file::kind(&plan.nodes[plan.root]) as usize;
        distinct.iter().for_each(|width| self.0[*width][kind] += 1);
    }

    /// The refusal must name the input that is too wide.
    pub fn count_refused(&mut self, plan: &Plan, refusal: Refusal) {
        let root = &plan.nodes[plan.root];
        let Refusal::Record(id) = refusal else {
            return;
        };
        let counts = !matches!(root, Node::Input(_)) || id == plan.root;
        if counts && usize::from(plan.widths[id]) == TOO_WIDE {
            self.0[TOO_WIDE][file::kind(root) as usize] += 1;
        }
    }

    /// Every width occurs at every kind of root.
    pub fn print(&self, coverage: &mut Coverage) {
        for (width, counts) in self.0.iter().enumerate() {
            let name = match width {
                TOO_WIDE => format!("width {width}, refused 4, at roots"),
                _ => format!("width {width}, runs, at roots"),
            };
            let counts: Vec<(u64, &str)> = counts.iter().copied().zip(KINDS).collect();
            coverage.line(&name, &counts, true);
        }
    }
}
