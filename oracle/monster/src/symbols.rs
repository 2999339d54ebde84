//! The names of mod.rs that monster.rs imports, as much of each as it uses.

use crate::BitVector;
use std::{collections::HashMap, ops::Index};

pub type Assignment = HashMap<SymbolId, BitVector>;

pub trait Solver: Default + Sync + Sized {
    fn name() -> &'static str;

    fn solve_impl<F: Formula>(&self, formula: &F) -> Result<Option<Assignment>, SolverError>;
}

#[derive(Debug, Clone)]
pub enum SolverError {
    Timeout,
}

#[derive(Clone, Debug, Copy, Eq, Hash, PartialEq)]
pub enum OperandSide {
    Lhs,
    Rhs,
}

impl OperandSide {
    pub fn other(&self) -> Self {
        match self {
            OperandSide::Lhs => OperandSide::Rhs,
            OperandSide::Rhs => OperandSide::Lhs,
        }
    }
}

#[derive(Debug, Copy, Clone, Hash, Eq, PartialEq)]
pub enum BVOperator {
    Add,
    Sub,
    Mul,
    Divu,
    Sltu,
    Remu,
    Not,
    Equals,
    BitwiseAnd,
}

impl BVOperator {
    pub fn is_unary(&self) -> bool {
        *self == BVOperator::Not
    }
}

#[derive(Clone, Debug, Eq, Hash, PartialEq)]
pub enum Symbol {
    Constant(BitVector),
    Input(String),
    Operator(BVOperator),
}

pub type SymbolId = usize;

pub trait Formula: Index<SymbolId, Output = Symbol> {
    type DependencyIter: Iterator<Item = SymbolId>;
    type SymbolIdsIter: Iterator<Item = SymbolId>;

    fn root(&self) -> SymbolId;

    fn operands(&self, sym: SymbolId) -> (SymbolId, Option<SymbolId>);

    fn operand(&self, sym: SymbolId) -> SymbolId;

    fn dependencies(&self, sym: SymbolId) -> Self::DependencyIter;

    fn symbol_ids(&self) -> Self::SymbolIdsIter;

    fn is_operand(&self, sym: SymbolId) -> bool;
}
