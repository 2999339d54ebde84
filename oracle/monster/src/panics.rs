//! Runs a piece of the Rust and says how it ended, without a word on the terminal.

use std::{cell::Cell, cell::RefCell, panic, sync::Once};

/// Where the Rust panics: the original's file and line, and the message.
#[derive(Clone, Debug, PartialEq, Eq)]
pub struct Place(pub String);

/// The four places where the release build of the search is known to panic.
#[derive(Clone, Copy, Debug, PartialEq, Eq)]
pub enum Known {
    /// Inverse Mul with s = t = 0.
    InverseMul,
    /// Inverse Remu Lhs with s > M - t.
    InverseRemu,
    /// Consistent Divu Rhs with t = 0.
    ConsistentDivu,
    /// A round comes to a constant.
    Constant,
}

impl Known {
    pub const ALL: [Known; 4] = [
        Known::InverseMul,
        Known::InverseRemu,
        Known::ConsistentDivu,
        Known::Constant,
    ];

    pub fn place(self) -> &'static str {
        match self {
            Known::InverseMul => {
                "monster.rs:181: a modular inverse has to exist iff operator is invertible"
            }
            Known::InverseRemu => "monster.rs:251: Uniform::new_inclusive called with `low > high`",
            Known::ConsistentDivu => "monster.rs:342: attempt to divide by zero",
            Known::Constant => "monster.rs:459: only inputs can be assigned",
        }
    }
}

impl Place {
    /// Which of the known four it is.
    pub fn known(&self) -> Option<Known> {
        Known::ALL.into_iter().find(|known| known.place() == self.0)
    }
}

/// How a piece of the Rust ended, if it did not answer.
pub enum Stop {
    Dry,
    Panicked(Place),
}

thread_local! {
    static LISTENING: Cell<bool> = const { Cell::new(false) };
    static HEARD: RefCell<String> = const { RefCell::new(String::new()) };
}

/// Hears the panics of the Rust; any other is reported as usual.
fn install_hook() {
    let usual = panic::take_hook();
    panic::set_hook(Box::new(move |info| {
        if LISTENING.get() {
            HEARD.set(place(info));
        } else {
            usual(info);
        }
    }));
}

fn place(info: &panic::PanicHookInfo) -> String {
    let at = info.location().expect("every panic has a place");
    let file = at.file().rsplit('/').next().unwrap_or_default();
    let message = info.payload_as_str().unwrap_or("no message");
    format!("{file}:{}: {message}", at.line())
}

pub fn caught<R>(act: impl FnOnce() -> R) -> Result<R, Stop> {
    static HOOK: Once = Once::new();
    HOOK.call_once(install_hook);

    LISTENING.set(true);
    let answer = panic::catch_unwind(panic::AssertUnwindSafe(act));
    LISTENING.set(false);

    answer.map_err(|payload| match payload.is::<words::Dry>() {
        true => Stop::Dry,
        false => Stop::Panicked(Place(HEARD.take())),
    })
}
