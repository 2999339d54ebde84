//! The static library, linked into this program.

use crate::{
    message::{packed, BITVEC, CHECK, FILE, LIST, RULE, SOLVE, STEP, VALUES, WORDS},
    raw, Result,
};

/// What an unwritten entry of a lent buffer holds, so that it is not taken for an answer.
const UNWRITTEN: u64 = 0xdead_beef_dead_beef;

// SAFETY of all calls: a buffer is as long as is said, and is used during the call only.

pub fn bitvec(op: u64, a: u64, b: u64) -> [u64; 2] {
    let mut out = [UNWRITTEN; 2];
    unsafe { raw::bitvec_op(op, a, b, out.as_mut_ptr(), out.len()) };
    out
}

fn check(file: &[u8]) -> [u64; 3] {
    let mut out = [UNWRITTEN; 3];
    unsafe { raw::check_file(file.as_ptr(), file.len(), out.as_mut_ptr(), out.len()) };
    out
}

fn rule(asked: &[u64], words: &[u64]) -> [u64; 3] {
    let &[rule, op, side, s, t, at] = asked else {
        panic!("a rule has six arguments");
    };
    let (list, length) = (words.as_ptr(), words.len());
    let mut out = [UNWRITTEN; 3];
    let (place, room) = (out.as_mut_ptr(), out.len());
    unsafe { raw::rule_op(rule, op, side, s, t, list, length, at as usize, place, room) };
    out
}

fn step(asked: &[u64], lent: &Lent) -> [u64; 6] {
    let &[node, target, at] = asked else {
        panic!("a step has three arguments");
    };
    let mut out = [UNWRITTEN; 6];
    unsafe {
        raw::step_op(
            lent.file.as_ptr(),
            lent.file.len(),
            lent.words.as_ptr(),
            lent.words.len(),
            lent.values.as_ptr(),
            lent.values.len(),
            node as u32,
            target,
            at as usize,
            out.as_mut_ptr(),
            out.len(),
        )
    };
    out
}

pub fn solve(file: &[u8], words: &[u64], budget: u32, values: &mut [u64]) -> Result {
    let mut out = [UNWRITTEN; 6];
    unsafe {
        raw::solve_file(
            file.as_ptr(),
            file.len(),
            words.as_ptr(),
            words.len(),
            budget,
            values.as_mut_ptr(),
            values.len(),
            out.as_mut_ptr(),
            out.len(),
        )
    };
    out
}

fn list(file: &[u8], buffer: &mut [u8]) -> [u64; 2] {
    let mut out = [UNWRITTEN; 2];
    unsafe {
        raw::list_file(
            file.as_ptr(),
            file.len(),
            buffer.as_mut_ptr(),
            buffer.len(),
            out.as_mut_ptr(),
            out.len(),
        )
    };
    out
}

#[derive(Default)]
struct Lent<'a> {
    file: Vec<u8>,
    words: &'a [u64],
    values: &'a [u64],
}

/// The answers to a block of messages.
pub fn answer(block: &mut [u64]) -> Vec<u64> {
    let mut lent = Lent::default();
    let mut answers = Vec::new();
    let mut rest = block;
    while let [head, after @ ..] = rest {
        let (asked, after) = after.split_at_mut((*head >> 8) as usize);
        one(*head & 255, asked, &mut lent, &mut answers);
        rest = after;
    }
    answers
}

fn one<'a>(function: u64, asked: &'a mut [u64], lent: &mut Lent<'a>, answers: &mut Vec<u64>) {
    match (function, asked) {
        (FILE, [length, packed @ ..]) => lent.file = unpacked(packed, *length),
        (BITVEC, &mut [op, a, b]) => answers.extend(bitvec(op, a, b)),
        (CHECK, []) => answers.extend(check(&lent.file)),
        (WORDS, words) => lent.words = words,
        (RULE, asked) => answers.extend(rule(asked, lent.words)),
        (VALUES, values) => lent.values = values,
        (STEP, asked) => answers.extend(step(asked, lent)),
        (SOLVE, [budget, values @ ..]) => {
            answers.extend(solve(&lent.file, lent.words, *budget as u32, values));
            answers.extend_from_slice(values);
        }
        (LIST, [length, buffer @ ..]) => {
            let mut bytes = unpacked(buffer, 8 * buffer.len() as u64);
            answers.extend(list(&lent.file, &mut bytes[..*length as usize]));
            answers.extend(packed(&bytes));
        }
        _ => panic!("no such message"),
    }
}

fn unpacked(packed: &[u64], length: u64) -> Vec<u8> {
    let bytes = packed.iter().flat_map(|number| number.to_le_bytes());
    bytes.take(length as usize).collect()
}
