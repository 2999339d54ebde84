//! Random graphs of many shapes, small ones above all.

use super::{
    paper,
    trace::{Case, Plan},
};
use crate::numbers::Random;
use monster::{
    BVOperator::{self, *},
    Node,
};
use plain::cycles::new_ids;
use std::rc::Rc;

pub const BINARY: [BVOperator; 8] = [Add, Sub, Mul, Divu, Sltu, Remu, Equals, BitwiseAnd];

/// A graph with its root, most with new ids, half of them with inputs of fewer bits.
/// Nearly all are accepted; a constant root other than 1 is not.
pub fn plan(random: &mut Random) -> Plan {
    let mut builder = Builder::new(random);
    builder.shape();
    if builder.random.below(3) > 0 {
        builder.goal();
    }
    let root = builder.root();
    if builder.narrow {
        builder.narrow_one();
    }
    let (nodes, widths) = (builder.nodes, builder.widths);
    let plan = Plan {
        nodes,
        root,
        widths,
    };
    with_new_ids(&plan, random)
}

/// A third of them stay as they are.
pub fn with_new_ids(plan: &Plan, random: &mut Random) -> Plan {
    let ids = new_ids(plan.nodes.len(), |most| random.below(most as u64) as usize);
    under_new_ids(plan, &ids)
}

pub fn under_new_ids(plan: &Plan, ids: &[usize]) -> Plan {
    let mut moved = plan.clone();
    for (id, node) in plan.nodes.iter().enumerate() {
        moved.nodes[ids[id]] = renamed(*node, |operand| ids[operand]);
        moved.widths[ids[id]] = plan.widths[id];
    }
    moved.root = ids[plan.root];
    moved
}

struct Builder<'a> {
    nodes: Vec<Node>,
    widths: Vec<u8>,
    /// Whether inputs may have fewer than 64 bits.
    narrow: bool,
    random: &'a mut Random,
    palette: Vec<BVOperator>,
    constants: u64,
}

impl Builder<'_> {
    /// Of all operators or of few; of many constants, few or none.
    fn new(random: &mut Random) -> Builder<'_> {
        let palette = match random.below(2) {
            0 => BINARY.to_vec(),
            _ => (0..=random.below(3))
                .map(|_| BINARY[random.below(8) as usize])
                .collect(),
        };
        let constants = [0, 2, 5][random.below(3) as usize];
        let narrow = random.below(2) == 0;
        Builder {
            nodes: Vec::new(),
            widths: Vec::new(),
            narrow,
            random,
            palette,
            constants,
        }
    }

    fn push(&mut self, node: Node) -> usize {
        self.nodes.push(node);
        self.widths.push(0);
        self.nodes.len() - 1
    }

    fn constant(&mut self) -> usize {
        let value = match self.random.below(3) {
            0 => self.random.below(4),
            _ => self.random.number(),
        };
        self.push(Node::Constant(value))
    }

    /// Labels repeat often.
    fn input(&mut self) -> usize {
        let label = match self.random.below(2) {
            0 => self.random.below(3),
            _ => self.random.number(),
        };
        let width = self.width();
        let id = self.push(Node::Input(label));
        self.widths[id] = width;
        id
    }

    /// Few bits, any number of them, or 64 written in both ways.
    fn width(&mut self) -> u8 {
        let width = match self.random.below(4) {
            0 => 64,
            1 if self.narrow => 1 + self.random.below(8),
            2 if self.narrow => 1 + self.random.below(63),
            _ => 0,
        };
        width as u8
    }

    /// Some input, if there is one, gets fewer bits, so that one of them has.
    fn narrow_one(&mut self) {
        let input = |id: &usize| matches!(self.nodes[*id], Node::Input(_));
        if let Some(id) = (0..self.nodes.len()).find(input) {
            self.widths[id] = 1 + self.random.below(63) as u8;
        }
    }

    fn leaf(&mut self) -> usize {
        match self.random.below(10) < self.constants {
            true => self.constant(),
            false => self.input(),
        }
    }

    fn any(&mut self) -> usize {
        self.random.below(self.nodes.len() as u64) as usize
    }

    fn binary(&mut self, left: usize, right: usize) -> usize {
        let op = self.palette[self.random.below(self.palette.len() as u64) as usize];
        self.push(Node::Binary(op, left, right))
    }

    /// Now and then a Not comes between.
    fn operator(&mut self, left: usize, right: usize) -> usize {
        let left = match self.random.below(8) {
            0 => self.push(Node::Not(left)),
            _ => left,
        };
        match self.random.below(2) {
            0 => self.binary(left, right),
            _ => self.binary(right, left),
        }
    }

    /// Mostly few, sometimes some, rarely many.
    fn size(&mut self) -> u64 {
        match self.random.below(2_000) {
            0 => self.random.below(1_200),
            1..10 => self.random.below(200),
            10..200 => self.random.below(40),
            _ => self.random.below(7),
        }
    }

    fn shape(&mut self) {
        match self.random.below(16) {
            0 => self.leaves(),
            1 => self.nots(),
            2 => self.ladder(),
            3..6 => self.chain(),
            6..10 => self.tree(),
            10..12 => self.collision(),
            _ => self.shared(),
        };
    }

    fn leaves(&mut self) -> usize {
        for _ in 0..self.random.below(3) {
            self.leaf();
        }
        self.leaf()
    }

    fn nots(&mut self) -> usize {
        self.shared();
        let mut top = self.any();
        for _ in 0..=self.size() {
            top = self.push(Node::Not(top));
        }
        top
    }

    /// Each operator over the one below it, twice.
    fn ladder(&mut self) -> usize {
        let mut top = self.leaf();
        for _ in 0..=self.random.below(16) {
            top = self.binary(top, top);
        }
        top
    }

    /// Each operator over the one below it and a leaf.
    fn chain(&mut self) -> usize {
        let mut top = self.leaf();
        for _ in 0..=self.size() {
            let leaf = self.leaf();
            top = self.operator(top, leaf);
        }
        top
    }

    /// Each node used once.
    fn tree(&mut self) -> usize {
        let mut open: Vec<usize> = (0..2 + self.size()).map(|_| self.leaf()).collect();
        while open.len() > 1 {
            let left = open.swap_remove(self.random.below(open.len() as u64) as usize);
            let right = open.swap_remove(self.random.below(open.len() as u64) as usize);
            open.push(self.operator(left, right));
        }
        open[0]
    }

    /// Operands taken from all nodes so far.
    fn shared(&mut self) -> usize {
        for _ in 0..=self.random.below(4) {
            self.leaf();
        }
        for _ in 0..=self.size() {
            let (left, right) = (self.any(), self.any());
            self.operator(left, right);
        }
        self.nodes.len() - 1
    }

    /// Two copies of a policy, with equal slots and different attempts.
    fn collision(&mut self) -> usize {
        let slot = self.shared();
        let count = self.nodes.len();
        let attempt = self.any();
        for id in 0..count {
            let copy = renamed(self.nodes[id], |operand| operand + count);
            let width = self.widths[id];
            let id = self.push(copy);
            self.widths[id] = width;
        }
        let slots = self.push(Node::Binary(Equals, slot, slot + count));
        let attempts = self.push(Node::Binary(Equals, attempt, attempt + count));
        let differ = self.push(Node::Not(attempts));
        self.push(Node::Binary(BitwiseAnd, slots, differ))
    }

    /// A comparison on top, with a value that the top can have, a constant or
    /// another node: it makes 1 likelier.
    fn goal(&mut self) {
        let top = self.nodes.len() - 1;
        let other = match self.random.below(4) {
            0 => self.constant(),
            1 => self.any(),
            _ => self.value_of(top),
        };
        self.palette = vec![Equals, Sltu];
        self.operator(top, other);
    }

    /// A constant that the node is for some inputs.
    fn value_of(&mut self, top: usize) -> usize {
        let (nodes, widths) = (self.nodes.clone(), self.widths.clone());
        let words = nodes.iter().map(|_| self.random.number()).collect();
        let start = Case {
            plan: Rc::new(Plan {
                nodes,
                root: top,
                widths,
            }),
            words,
            budget: 0,
        };
        match paper::run(&start) {
            Ok(run) => self.push(Node::Constant(run.log.start[top])),
            Err(_) => self.constant(),
        }
    }

    /// The top, or any node; a constant there is mostly made 1.
    fn root(&mut self) -> usize {
        let root = match self.random.below(6) {
            0 => self.any(),
            _ => self.nodes.len() - 1,
        };
        if matches!(self.nodes[root], Node::Constant(_)) && self.random.below(10) > 0 {
            self.nodes[root] = Node::Constant(1);
        }
        root
    }
}

/// The node with other ids for its operands.
fn renamed(node: Node, id: impl Fn(usize) -> usize) -> Node {
    match node {
        Node::Constant(_) | Node::Input(_) => node,
        Node::Not(operand) => Node::Not(id(operand)),
        Node::Binary(op, left, right) => Node::Binary(op, id(left), id(right)),
    }
}
