//! What is asked of a search, and what document 01 lets be seen of it.

use super::file;
use crate::report::Asked;
use monster::{Node, OperandSide};
use std::rc::Rc;

#[derive(Clone, Debug)]
pub struct Plan {
    pub nodes: Vec<Node>,
    pub root: usize,
    /// The width byte of each input, 0 for other nodes: the Rust knows of none.
    pub widths: Vec<u8>,
}

impl Plan {
    /// With inputs as old files have them.
    pub fn new(nodes: Vec<Node>, root: usize) -> Plan {
        let widths = vec![0; nodes.len()];
        Plan {
            nodes,
            root,
            widths,
        }
    }

    /// Whether all inputs have 64 bits, so that the Rust can be asked too.
    pub fn is_wide(&self) -> bool {
        self.widths.iter().all(|width| matches!(width, 0 | 64))
    }

    /// Whether each operand stands below its node.
    pub fn is_sorted(&self) -> bool {
        let mut nodes = self.nodes.iter().enumerate();
        nodes.all(|(id, node)| match *node {
            Node::Constant(_) | Node::Input(_) => true,
            Node::Not(operand) => operand < id,
            Node::Binary(_, left, right) => left < id && right < id,
        })
    }
}

#[derive(Clone, Debug)]
pub struct Case {
    pub plan: Rc<Plan>,
    pub words: Vec<u64>,
    pub budget: u32,
}

impl Case {
    /// The graph file, behind notes of many lengths: a note has no effect.
    pub fn file(&self) -> Vec<u8> {
        let note = &[0xa5; 40][..self.words.len() % 40];
        file::encode(&self.plan, note)
    }
}

impl Asked for Case {
    fn size(&self) -> Vec<u64> {
        let nodes = self.plan.nodes.len() as u64;
        vec![nodes, self.words.len() as u64, self.budget.into()]
    }
}

#[derive(Clone, Copy, Debug, PartialEq, Eq)]
pub enum Ending {
    Solved,
    Spent,
    Dry,
}

#[derive(Clone, Copy, Debug, PartialEq, Eq)]
pub enum How {
    Not,
    Inverse,
    Consistent,
}

/// One completed step; Not has no side. `words` are taken by its end.
#[derive(Clone, Copy, Debug, PartialEq, Eq)]
pub struct Choice {
    pub node: usize,
    pub side: Option<OperandSide>,
    pub value: u64,
    pub how: How,
    pub words: usize,
}

#[derive(Clone, Copy, Debug, PartialEq, Eq)]
pub struct Outcome {
    pub ending: Ending,
    pub rounds: u64,
    pub lost: u64,
    pub steps: u64,
    pub words: u64,
}

/// The values after the start and after each completed round, every choice,
/// and the outcome (none where the Rust panicked).
pub struct Trace {
    pub states: Vec<Vec<u64>>,
    pub choices: Vec<Choice>,
    pub outcome: Option<Outcome>,
}
