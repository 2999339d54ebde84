//! Why each step went to its side, and how often.

use super::trace::Plan;
use crate::coverage::Coverage;
use monster::{
    BVOperator::{self, *},
    Choice, Node,
    OperandSide::{self, *},
    Run,
};
use std::fmt;

/// Operators whose table can say no, and so make a sibling essential.
const SIBLINGS: [BVOperator; 5] = [Mul, Divu, Sltu, Remu, BitwiseAnd];

#[derive(Clone, Copy, Debug, PartialEq)]
enum Why {
    BothConstant,
    LeftConstant,
    RightConstant,
    /// The operand on this side, since the table of the sibling says no.
    Essential(OperandSide, BVOperator),
    Coin(OperandSide),
}

impl fmt::Display for Why {
    fn fmt(&self, f: &mut fmt::Formatter) -> fmt::Result {
        match self {
            Why::BothConstant => write!(f, "right: both are constant"),
            Why::LeftConstant => write!(f, "right: left is constant"),
            Why::RightConstant => write!(f, "left: right is constant"),
            Why::Essential(side, sibling) => {
                write!(f, "{side:?}: essential beside {sibling:?}")
            }
            Why::Coin(side) => write!(f, "{side:?}: coin"),
        }
    }
}

fn all() -> Vec<Why> {
    let essential = SIBLINGS.map(|q| [Why::Essential(Lhs, q), Why::Essential(Rhs, q)]);
    let constant = [Why::BothConstant, Why::LeftConstant, Why::RightConstant];
    let coin = [Why::Coin(Lhs), Why::Coin(Rhs)];
    [&constant, essential.as_flattened(), &coin].concat()
}

pub struct Sides(Vec<(Why, u64)>);

impl Sides {
    pub fn new() -> Sides {
        Sides(all().into_iter().map(|why| (why, 0)).collect())
    }

    /// A round's first step is at the root, with target 1.
    pub fn count(&mut self, plan: &Plan, run: &Run) {
        let (mut round, mut target) = (0, 1);
        for (place, choice) in run.choices.iter().enumerate() {
            if choice.node == plan.root {
                round += usize::from(place > 0);
                target = 1;
            }
            if let Some(why) = why(plan, &run.states[round], choice, target) {
                let one = self.0.iter_mut().find(|(one, _)| *one == why);
                one.expect("one of them").1 += 1;
            }
            target = choice.value;
        }
    }

    pub fn print(&self, coverage: &mut Coverage) {
        for (why, count) in &self.0 {
            coverage.line(&format!("goes {why}"), &[(*count, "times")], true);
        }
    }
}

fn why(plan: &Plan, values: &[u64], choice: &Choice, target: u64) -> Option<Why> {
    let Node::Binary(_, left, right) = plan.nodes[choice.node] else {
        return None;
    };
    let constant = |id: usize| matches!(plan.nodes[id], Node::Constant(_));
    Some(match (constant(left), constant(right)) {
        (true, true) => Why::BothConstant,
        (true, false) => Why::LeftConstant,
        (false, true) => Why::RightConstant,
        (false, false) => {
            let left_first = essential(plan, values, left, right, Lhs, target);
            left_first
                .or_else(|| essential(plan, values, right, left, Rhs, target))
                .unwrap_or(Why::Coin(choice.side?))
        }
    })
}

/// p, on this side, is essential when the sibling's own table says no.
fn essential(
    plan: &Plan,
    values: &[u64],
    p: usize,
    sibling: usize,
    side: OperandSide,
    target: u64,
) -> Option<Why> {
    let Node::Binary(q, _, _) = plan.nodes[sibling] else {
        return None;
    };
    let no = !monster::table(q, side.other(), values[p], target);
    no.then_some(Why::Essential(side, q))
}
