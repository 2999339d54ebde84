//! The step budget of the build that is timed. Nothing watches its steps, but the
//! search asks for the time before each of them.

use std::cell::Cell;

thread_local! {
    static ASKED: Cell<u64> = const { Cell::new(0) };
}

#[derive(Clone, Copy, PartialEq, PartialOrd)]
pub struct Duration(u64);

impl Duration {
    pub fn new(steps: u64, _: u32) -> Duration {
        Duration(steps)
    }
}

pub struct Instant;

impl Instant {
    pub fn now() -> Instant {
        ASKED.set(0);
        Instant
    }

    /// Above the budget exactly when the used steps are the budget.
    pub fn elapsed(&self) -> Duration {
        ASKED.set(ASKED.get() + 1);
        Duration(ASKED.get())
    }
}

/// How often the time was asked for since the search began.
pub fn asked() -> u64 {
    ASKED.get()
}
