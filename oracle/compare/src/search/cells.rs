//! How often each operator, side and kind of value was compared, by ending.

use super::{graphs::BINARY, log::Step, roots::ENDS, trace::Plan};
use crate::coverage::Coverage;
use monster::{
    BVOperator::{self, *},
    Node,
    OperandSide::{self, *},
};
use plain::{rules::Side, search::How};

const SIDES: [OperandSide; 2] = [Lhs, Rhs];
const INVERSE: usize = 0;
const CONSISTENT: usize = 1;
const TABLE_NO: usize = 2;
const KINDS: [&str; 3] = ["inverse", "consistent", "table no"];

/// Operator, side and kind of value; Not has neither of these.
pub type Cell = [usize; 3];

/// The cell of a completed step.
pub fn cell(plan: &Plan, step: &Step) -> Option<Cell> {
    let choice = step.choice?;
    let (op, side, other) = match (plan.nodes[choice.node], choice.side) {
        (Node::Binary(op, _, right), Some(Side::Lhs)) => (op, Lhs, right),
        (Node::Binary(op, left, _), Some(Side::Rhs)) => (op, Rhs, left),
        _ => return Some([Not as usize, 0, 0]),
    };
    let yes = monster::table(op, side, step.values[other], step.target);
    let kind = match choice.how {
        How::Inverse => INVERSE,
        _ if yes => CONSISTENT,
        _ => TABLE_NO,
    };
    Some([op as usize, side as usize, kind])
}

type Count = [u64; ENDS.len()];

#[derive(Default)]
pub struct Cells([[[Count; KINDS.len()]; SIDES.len()]; BINARY.len() + 1]);

impl Cells {
    pub fn count(&mut self, [op, side, kind]: Cell, end: usize) {
        self.0[op][side][kind][end] += 1;
    }

    /// No cell is empty but those that must be. The first so many endings can occur.
    pub fn print(&self, of: &str, ends: usize, coverage: &mut Coverage) {
        let mut line = |name: &str, count: &Count, possible: bool| {
            let counts: Vec<(u64, &str)> = count.iter().copied().zip(ENDS).collect();
            coverage.line(&format!("{of}, {name}"), &counts[..ends], possible);
        };
        line("Not", &self.0[Not as usize][0][0], true);
        for op in BINARY {
            for side in SIDES {
                for (kind, count) in self.0[op as usize][side as usize].iter().enumerate() {
                    let name = format!("{op:?} {side:?} {}", KINDS[kind]);
                    line(&name, count, !impossible(op, kind));
                }
            }
        }
    }
}

/// The table always says yes for these.
fn impossible(op: BVOperator, kind: usize) -> bool {
    matches!(op, Add | Sub | Equals) && kind == TABLE_NO
}
