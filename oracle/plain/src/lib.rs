//! The plain reading: document 01 ("The retry solver, stated with its exact
//! rules") written down sentence by sentence, and from that paper alone. Where a
//! request of document 02 has landed, its sentences replace those of document 01.
//!
//! There is one file for each section of the document. Every function stands
//! under the sentence it renders. Nothing here is clever: a comparison is only
//! worth something if this side can be read beside the paper.
//!
//! "M is 2^64 − 1; values are 0..M."

// The cases stay as the paper writes them: "x/0", "not a multiple of 16".
#![allow(clippy::manual_checked_ops, clippy::manual_is_multiple_of)]

pub mod cycles;
pub mod examples;
pub mod file;
pub mod limits;
pub mod listing;
pub mod operators;
pub mod program;
pub mod refusals;
pub mod rules;
pub mod search;
pub mod widths;
pub mod words;

pub use refusals::Refusal;

/// "M is 2^64 − 1"
pub const M: u64 = u64::MAX;

#[cfg(test)]
mod claims;
#[cfg(test)]
mod marked;
