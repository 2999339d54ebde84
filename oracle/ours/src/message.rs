//! What is sent to the library: a block of messages. A message is one number, the
//! function's in its low byte and above it how many numbers follow, and these.

/// Lends a file: its length in bytes, and its bytes, eight to a number.
pub const FILE: u64 = 0;
/// An operation of BitVector: its number and both arguments.
pub const BITVEC: u64 = 1;
/// Checks the lent file.
pub const CHECK: u64 = 2;
/// Lends a list of words.
pub const WORDS: u64 = 3;
/// A rule, over the lent words: rule, operator, side, s, t and the place.
pub const RULE: u64 = 4;
/// Lends a list of values.
pub const VALUES: u64 = 5;
/// A step on the lent file, words and values: node, target and the place.
pub const STEP: u64 = 6;
/// A search on the lent file and words: the budget, and the values it is lent.
pub const SOLVE: u64 = 7;
/// A listing of the lent file: the buffer's length in bytes, and its bytes, eight to a
/// number.
pub const LIST: u64 = 8;

/// The length of an answer; that of a search has the values behind it, that of a listing
/// the buffer's bytes, eight to a number.
pub fn width(function: u64) -> usize {
    match function {
        BITVEC | LIST => 2,
        CHECK | RULE => 3,
        STEP | SOLVE => 6,
        _ => 0,
    }
}

pub fn push(block: &mut Vec<u64>, function: u64, parts: &[&[u64]]) {
    let count: usize = parts.iter().map(|part| part.len()).sum();
    block.push(function | (count as u64) << 8);
    parts.iter().for_each(|part| block.extend_from_slice(part));
}

/// The bytes of a file, eight to a number, the last number filled up with zeros.
pub fn packed(bytes: &[u8]) -> Vec<u64> {
    let number = |eight: &[u8]| {
        let mut filled = [0; 8];
        filled[..eight.len()].copy_from_slice(eight);
        u64::from_le_bytes(filled)
    };
    bytes.chunks(8).map(number).collect()
}
