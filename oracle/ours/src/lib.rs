//! The proved crates, asked through their static library: linked, or behind the
//! bridge where the library is for another processor.

mod message;
mod queue;

#[cfg(linked)]
mod raw;

#[cfg_attr(linked, path = "linked.rs")]
#[cfg_attr(not(linked), path = "bridged.rs")]
mod library;

pub use library::{bitvec, solve};
pub use queue::Queue;

/// Whether the library is part of this program; else an emulator runs it, and the
/// time that it takes says nothing.
pub const LINKED: bool = cfg!(linked);

/// The answer of a search: 0, the end, rounds, lost rounds, steps and words; or a
/// refusal's number, the id it names or 0, and zeros.
pub type Result = [u64; 6];
