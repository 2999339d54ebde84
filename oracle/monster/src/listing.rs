//! The source's own listing of a graph: the build cuts `connect_operator`, `traverse`,
//! `Printer` and the operators' signs out of the original. Here is what they stand on.

use crate::{BVOperator, BitVector, Node, OperandSide, Symbol, SymbolId};
use log::debug;
use petgraph::{Direction, EdgeIndex, NodeIndex};
use std::{collections::HashMap, fmt};

include!(concat!(env!("OUT_DIR"), "/listing.rs"));

type SymbolicValue = NodeIndex;
type DataFlowGraph = petgraph::Graph<Symbol>;

struct SymbolicState {
    data_flow: DataFlowGraph,
}

impl SymbolicState {
    fn new(nodes: &[Node]) -> SymbolicState {
        let mut state = SymbolicState {
            data_flow: DataFlowGraph::new(),
        };
        for node in nodes {
            state.data_flow.add_node(node.symbol());
        }
        for (id, node) in nodes.iter().enumerate() {
            state.connect(NodeIndex::new(id), node);
        }
        state
    }

    fn connect(&mut self, op: SymbolicValue, node: &Node) {
        match *node {
            Node::Constant(_) | Node::Input(_) => {}
            Node::Not(operand) => {
                self.add_edge(NodeIndex::new(operand), op, OperandSide::Lhs);
            }
            Node::Binary(_, left, right) => {
                self.connect_operator(NodeIndex::new(left), NodeIndex::new(right), op);
            }
        }
    }

    /// The side is never read in a listing.
    fn add_edge(&mut self, from: SymbolicValue, to: SymbolicValue, _: OperandSide) -> EdgeIndex {
        self.data_flow.add_edge(from, to)
    }
}

struct FormulaView<'a> {
    data_flow: &'a DataFlowGraph,
    root: SymbolicValue,
}

impl FormulaView<'_> {
    fn root(&self) -> SymbolId {
        self.root.index()
    }
}

/// The lines, without line feeds. A graph with a cycle is never listed: the source's
/// walk would not end.
pub fn listing(nodes: &[Node], root: SymbolId) -> Vec<String> {
    let state = SymbolicState::new(nodes);
    let formula = FormulaView {
        data_flow: &state.data_flow,
        root: NodeIndex::new(root),
    };
    log::take();
    assert_eq!(formula.print_recursive(), root);
    log::take()
}
