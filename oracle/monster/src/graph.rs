//! A graph as monster.rs sees it: the Formula view over plain lists.

use crate::{BVOperator, BitVector, Formula, Symbol, SymbolId};
use std::{iter, ops, slice};

#[derive(Clone, Copy, Debug, PartialEq)]
pub enum Node {
    Constant(u64),
    Input(u64),
    Not(SymbolId),
    Binary(BVOperator, SymbolId, SymbolId),
}

impl Node {
    pub(crate) fn symbol(&self) -> Symbol {
        match self {
            Node::Constant(value) => Symbol::Constant(BitVector(*value)),
            Node::Input(label) => Symbol::Input(label.to_string()),
            Node::Not(_) => Symbol::Operator(BVOperator::Not),
            Node::Binary(op, _, _) => Symbol::Operator(*op),
        }
    }
}

pub struct Graph {
    root: SymbolId,
    nodes: Vec<Node>,
    symbols: Vec<Symbol>,
    users: Vec<Vec<SymbolId>>,
}

impl Graph {
    pub fn new(nodes: &[Node], root: SymbolId) -> Graph {
        Graph {
            root,
            nodes: nodes.to_vec(),
            symbols: nodes.iter().map(Node::symbol).collect(),
            users: users(nodes),
        }
    }

    /// How many words the start takes.
    pub fn start_words(&self) -> usize {
        let constant = |node: &&Node| matches!(node, Node::Constant(_));
        self.nodes.len() - self.nodes.iter().filter(constant).count()
    }

    /// How many operators the start recomputes: propagation follows every path
    /// from a leaf, which is exponential where nodes are shared.
    pub fn start_cost(&self) -> u64 {
        let mut above = vec![None; self.nodes.len()];
        let leaf = |id: &SymbolId| self.is_operand(*id);
        let costs = self
            .symbol_ids()
            .filter(leaf)
            .map(|id| self.cost(id, &mut above));
        costs.fold(0, u64::saturating_add)
    }

    fn cost(&self, id: SymbolId, above: &mut [Option<u64>]) -> u64 {
        if let Some(known) = above[id] {
            return known;
        }
        let one = |user: &SymbolId| self.cost(*user, above).saturating_add(1);
        let cost = self.users[id].iter().map(one).fold(0, u64::saturating_add);
        above[id] = Some(cost);
        cost
    }
}

/// Each operator once for each of its operands, right one first: the source
/// inserts the edges in this order, and its walk goes from the last to the first.
fn users(nodes: &[Node]) -> Vec<Vec<SymbolId>> {
    let mut users = vec![Vec::new(); nodes.len()];
    for (id, node) in nodes.iter().enumerate() {
        match node {
            Node::Constant(_) | Node::Input(_) => {}
            Node::Not(operand) => users[*operand].push(id),
            Node::Binary(_, left, right) => {
                users[*right].push(id);
                users[*left].push(id);
            }
        }
    }
    users
}

impl ops::Index<SymbolId> for Graph {
    type Output = Symbol;

    fn index(&self, id: SymbolId) -> &Symbol {
        &self.symbols[id]
    }
}

impl ops::Index<SymbolId> for &Graph {
    type Output = Symbol;

    fn index(&self, id: SymbolId) -> &Symbol {
        &self.symbols[id]
    }
}

/// For a reference, since the iterator over users borrows the graph.
impl<'a> Formula for &'a Graph {
    type DependencyIter = iter::Rev<iter::Copied<slice::Iter<'a, SymbolId>>>;
    type SymbolIdsIter = ops::Range<SymbolId>;

    fn root(&self) -> SymbolId {
        self.root
    }

    fn operands(&self, id: SymbolId) -> (SymbolId, Option<SymbolId>) {
        match self.nodes[id] {
            Node::Binary(_, left, right) => (left, Some(right)),
            _ => (self.operand(id), None),
        }
    }

    fn operand(&self, id: SymbolId) -> SymbolId {
        match self.nodes[id] {
            Node::Not(operand) => operand,
            _ => panic!("every unary operator must have an operand"),
        }
    }

    fn dependencies(&self, id: SymbolId) -> Self::DependencyIter {
        self.users[id].iter().copied().rev()
    }

    fn symbol_ids(&self) -> Self::SymbolIdsIter {
        0..self.nodes.len()
    }

    fn is_operand(&self, id: SymbolId) -> bool {
        !matches!(self[id], Symbol::Operator(_))
    }
}
