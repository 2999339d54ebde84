//! The graph file of document 01.

use super::trace::Plan;
use monster::{BVOperator, Node};

pub fn encode(plan: &Plan, note: &[u8]) -> Vec<u8> {
    let mut file = note.to_vec();
    for (node, width) in plan.nodes.iter().zip(&plan.widths) {
        file.extend(record(node, *width));
    }
    let distance = 16 * plan.nodes.len() as u32;
    for field in [distance, plan.root as u32, 1, 0] {
        file.extend(field.to_le_bytes());
    }
    file
}

/// The kind in byte 0, then from byte 4 two words of four bytes or, from byte
/// 8, one of eight; an input's width in byte 4.
fn record(node: &Node, width: u8) -> [u8; 16] {
    let (low, high) = match *node {
        Node::Constant(held) => (0, held),
        Node::Input(held) => (width.into(), held),
        Node::Not(operand) => (operand, 0),
        Node::Binary(_, left, right) => (left, right as u64),
    };
    let first = kind(node) | (low as u64) << 32;
    (u128::from(first) | u128::from(high) << 64).to_le_bytes()
}

/// The kinds of operators stand in their order.
pub fn kind(node: &Node) -> u64 {
    match node {
        Node::Constant(_) => 0,
        Node::Input(_) => 1,
        Node::Not(_) => 2 + BVOperator::Not as u64,
        Node::Binary(op, _, _) => 2 + *op as u64,
    }
}
