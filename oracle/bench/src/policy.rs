//! Builds a graph, node upon node, and knows the goals that make searches long.

use monster::{
    BVOperator::{self, *},
    Node,
};

/// Adding, subtracting and masking, in turn: none of them makes the Rust panic.
const MIXED: [BVOperator; 3] = [Add, Sub, BitwiseAnd];

#[derive(Clone, Default)]
pub struct Policy {
    pub nodes: Vec<Node>,
}

impl Policy {
    fn push(&mut self, node: Node) -> usize {
        self.nodes.push(node);
        self.nodes.len() - 1
    }

    pub fn input(&mut self) -> usize {
        self.push(Node::Input(self.nodes.len() as u64))
    }

    pub fn constant(&mut self, value: u64) -> usize {
        self.push(Node::Constant(value))
    }

    pub fn not(&mut self, operand: usize) -> usize {
        self.push(Node::Not(operand))
    }

    pub fn operator(&mut self, op: BVOperator, left: usize, right: usize) -> usize {
        self.push(Node::Binary(op, left, right))
    }

    /// An operator over a node and a constant.
    pub fn with(&mut self, op: BVOperator, left: usize, value: u64) -> usize {
        let constant = self.constant(value);
        self.operator(op, left, constant)
    }

    /// One of several operators, in turn.
    pub fn mixed(&mut self, turn: usize, left: usize, right: usize) -> usize {
        self.operator(MIXED[turn % MIXED.len()], left, right)
    }

    /// A value that the top can take.
    pub fn equals(&mut self, top: usize, value: u64) -> usize {
        self.with(Equals, top, value)
    }

    /// An even number that is to be 1: every round fails, whatever the top is.
    pub fn never(&mut self, top: usize) -> usize {
        let even = self.with(BitwiseAnd, top, !1);
        self.equals(even, 1)
    }

    /// Equal slots for different attempts.
    pub fn collision(&mut self, slots: [usize; 2], attempts: [usize; 2]) -> usize {
        let one_slot = self.operator(Equals, slots[0], slots[1]);
        let one_attempt = self.operator(Equals, attempts[0], attempts[1]);
        let two_attempts = self.not(one_attempt);
        self.operator(BitwiseAnd, one_slot, two_attempts)
    }
}
