//! The one word list that every random call of the Rust reads from its front.

use std::cell::RefCell;

/// What unwinds where the words run out.
pub struct Dry;

struct Lent {
    list: Vec<u64>,
    at: usize,
    finished: usize,
    /// The lines of the original whose ranges discarded a word.
    discarded: Vec<u32>,
    /// How many of them before the last finished value.
    discarded_finished: usize,
}

thread_local! {
    static LENT: RefCell<Lent> = const {
        RefCell::new(Lent {
            list: Vec::new(),
            at: 0,
            finished: 0,
            discarded: Vec::new(),
            discarded_finished: 0,
        })
    };
}

fn with<R>(act: impl FnOnce(&mut Lent) -> R) -> R {
    LENT.with(|lent| act(&mut lent.borrow_mut()))
}

/// Lends the list; the first word taken is the one at place `at`.
pub fn lend(words: &[u64], at: usize) {
    with(|lent| {
        lent.list.clear();
        lent.list.extend_from_slice(words);
        lent.at = at;
        lent.finished = at;
        lent.discarded.clear();
        lent.discarded_finished = 0;
    })
}

/// Takes one word. `resume_unwind` instead of a panic, since running dry is no
/// fault of the Rust and the panic hook is to hear of faults only.
pub fn take() -> u64 {
    let word = with(|lent| {
        let word = lent.list.get(lent.at).copied();
        lent.at += usize::from(word.is_some());
        word
    });
    word.unwrap_or_else(|| std::panic::resume_unwind(Box::new(Dry)))
}

/// The word taken last is discarded by a range that this line asks for: it is no value,
/// but part of one.
pub fn discard(line: u32) {
    with(|lent| lent.discarded.push(line))
}

/// The line of each discarded word, and how many of them an unfinished value discarded.
pub fn discarded() -> (Vec<u32>, usize) {
    with(|lent| {
        let unfinished = lent.discarded.len() - lent.discarded_finished;
        (lent.discarded.clone(), unfinished)
    })
}

/// All words taken so far belong to values that are drawn to their end.
pub fn finish() {
    with(|lent| {
        lent.finished = lent.at;
        lent.discarded_finished = lent.discarded.len();
    })
}

/// The place after the last finished value: what an unfinished one took does not count.
pub fn finished() -> usize {
    with(|lent| lent.finished)
}

/// How many words are taken, also by an unfinished value.
pub fn taken() -> usize {
    with(|lent| lent.at)
}

/// How many words an unfinished value took.
pub fn unfinished() -> usize {
    with(|lent| lent.at - lent.finished)
}
