//! The judge is the release build of the Rust without overflow checks.

use crate::panics::caught;
use std::hint::black_box;

/// Ends the program where the Rust is not built as the documents say.
pub fn refuse_other_builds() {
    if cfg!(debug_assertions) || !addition_wraps() {
        eprintln!("the oracle is a release build with overflow checks off");
        std::process::exit(2);
    }
}

fn addition_wraps() -> bool {
    matches!(caught(|| black_box(u64::MAX) + black_box(1)), Ok(0))
}
