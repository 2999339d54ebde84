//! What the patches in monster.rs report while it runs.

use crate::{BitVector, OperandSide, SymbolId};
use std::cell::RefCell;

/// How a step came to its value.
#[derive(Clone, Copy, Debug, PartialEq, Eq, Hash)]
pub enum How {
    /// The value of Not, which asks no table.
    Unary,
    /// The table said yes and the choosing word took the inverse value.
    Inverse,
    /// The table said yes and the choosing word took the consistent value.
    Consistent,
    /// The table said no, so the value is the consistent one.
    Unreachable,
}

/// A completed step: its node, the side it went to (none at Not), the value, and
/// the words taken by its end.
#[derive(Clone, Copy, Debug, PartialEq, Eq)]
pub struct Choice {
    pub node: SymbolId,
    pub side: Option<OperandSide>,
    pub value: u64,
    pub how: How,
    pub words: usize,
}

/// The values after the start and after each completed round, and all choices.
pub struct Seen {
    pub states: Vec<Vec<u64>>,
    pub choices: Vec<Choice>,
    how: How,
}

impl Seen {
    const NOTHING: Seen = Seen {
        states: Vec::new(),
        choices: Vec::new(),
        how: How::Unary,
    };
}

thread_local! {
    static SEEN: RefCell<Seen> = const { RefCell::new(Seen::NOTHING) };
}

fn with<R>(act: impl FnOnce(&mut Seen) -> R) -> R {
    SEEN.with(|seen| act(&mut seen.borrow_mut()))
}

/// Gives what was seen, and begins anew.
pub fn take() -> Seen {
    with(|seen| std::mem::replace(seen, Seen::NOTHING))
}

/// Each completed step is one choice.
pub fn steps() -> u64 {
    with(|seen| seen.choices.len() as u64)
}

pub fn started(ab: Vec<BitVector>) -> Vec<BitVector> {
    round(&ab);
    finished(ab)
}

pub fn round(ab: &[BitVector]) {
    with(|seen| seen.states.push(ab.iter().map(|value| value.0).collect()))
}

pub fn finished<T>(drawn: T) -> T {
    words::finish();
    drawn
}

pub fn table(says_yes: bool) -> bool {
    let how = if says_yes {
        How::Consistent
    } else {
        How::Unreachable
    };
    with(|seen| seen.how = how);
    says_yes
}

pub fn inverse(chosen: bool) -> bool {
    if chosen {
        with(|seen| seen.how = How::Inverse);
    }
    chosen
}

pub fn chose(node: SymbolId, side: OperandSide, value: BitVector) -> BitVector {
    with(|seen| {
        let how = seen.how;
        seen.choices.push(Choice {
            node,
            side: Some(side),
            value: value.0,
            how,
            words: words::finished(),
        })
    });
    value
}

pub fn passed(node: SymbolId, value: BitVector) -> BitVector {
    let how = How::Unary;
    with(|seen| {
        seen.choices.push(Choice {
            node,
            side: None,
            value: value.0,
            how,
            words: words::finished(),
        })
    });
    value
}
