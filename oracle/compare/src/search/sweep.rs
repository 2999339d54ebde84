//! Small graphs with an input of every width, from 0 to the first that is refused, at
//! every kind of root.

use super::{
    graphs::{with_new_ids, BINARY},
    trace::Plan,
    widths_at_roots::TOO_WIDE,
};
use crate::numbers::Random;
use monster::Node;

const ROOT: usize = 2;

/// With the input on both sides of the root, beside a constant and beside an input of
/// 64 bits.
pub fn plans(random: &mut Random) -> Vec<Plan> {
    let mut plans = Vec::new();
    for width in 0..=TOO_WIDE {
        for sides in [[0, 1], [1, 0]] {
            for root in roots(sides) {
                let constant = Node::Constant(random.number());
                for beside in [constant, Node::Input(1)] {
                    plans.push(plan(width as u8, beside, root, random));
                }
            }
        }
    }
    plans
}

/// One of each kind, over nodes 0 and 1.
fn roots([left, right]: [usize; 2]) -> impl Iterator<Item = Node> {
    let binary = BINARY.map(|op| Node::Binary(op, left, right));
    [Node::Constant(1), Node::Input(0), Node::Not(0)]
        .into_iter()
        .chain(binary)
}

fn plan(width: u8, beside: Node, root: Node, random: &mut Random) -> Plan {
    let mut plan = Plan::new(vec![Node::Input(0), beside, root], ROOT);
    let input = match root {
        Node::Input(_) => ROOT,
        _ => 0,
    };
    plan.widths[input] = width;
    with_new_ids(&plan, random)
}
