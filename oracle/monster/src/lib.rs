//! The Monster solver's local search, as published, over a lent word list and a
//! step budget, with every choice and every state to be seen; and its listing.

mod clock;
mod graph;
mod listing;
mod panics;
mod release;
mod rules;
mod run;
mod steps;
mod symbols;
mod time;
mod watch;

#[path = "../../original/bitvec.rs"]
mod bitvec;

include!(concat!(env!("OUT_DIR"), "/modules.rs"));

pub use bitvec::BitVector;
pub use graph::{Graph, Node};
pub use listing::listing;
pub use panics::{Known, Place};
pub use release::refuse_other_builds;
pub use rules::{consistent, inverse, table, unary, Answer};
pub use run::{run, End, Run};
pub use symbols::{
    Assignment, BVOperator, Formula, OperandSide, Solver, SolverError, Symbol, SymbolId,
};
pub use time::{time, Timed};
pub use watch::{Choice, How};
