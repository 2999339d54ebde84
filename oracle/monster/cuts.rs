//! The listing of the source: what is cut out of symbolic_state.rs and mod.rs, unedited,
//! and the lines that are written around it.

pub const ENGINE: &str = "../original/symbolic_state.rs";
pub const SOLVER: &str = "../original/mod.rs";

pub enum Piece {
    /// Of a file, from where the first text stands up to where the second does.
    Cut(&'static str, &'static str, &'static str),
    /// Of a file, from where the text stands to its end.
    Rest(&'static str, &'static str),
    Written(&'static str),
}

use Piece::{Cut, Rest, Written};

/// A cut that ends with a block's last method ends with the block's bracket too.
pub const LISTING: [Piece; 8] = [
    // The order in which an operator's operands become its edges,
    Written("impl SymbolicState {\n"),
    Cut(
        ENGINE,
        "    fn connect_operator(",
        "impl<'a, S: Solver> fmt::Display for SymbolicState<'a, S> {",
    ),
    // the walk through a formula,
    Written("impl<'a> FormulaView<'a> {\n"),
    Cut(
        ENGINE,
        "    pub fn print_recursive(",
        "    fn build_witness(",
    ),
    Cut(ENGINE, "    fn traverse<V, R>(", "struct Printer {}"),
    // the lines,
    Cut(ENGINE, "struct Printer {}", "struct WitnessBuilder<'a> {"),
    Rest(SOLVER, "pub trait FormulaVisitor<T>: Sized {"),
    // and the operators' signs.
    Cut(
        SOLVER,
        "impl fmt::Display for BVOperator {",
        "#[derive(Clone, Debug, Eq, Hash, PartialEq)]\npub enum Symbol {",
    ),
];
