//! Section "Reachability, inverse and consistent values".
//!
//! "Let s be the other operand's value, t the target, x the operand sought;
//! Lhs: x is left."

use crate::operators::{divu, modinverse, Operator};
use crate::words::{divisor, not_zero, range, two_words, until_not, word, Draw};
use crate::{Refusal, M};

/// "Lhs: x is left." Rhs: x is right.
#[derive(Clone, Copy, Debug, PartialEq, Eq)]
pub enum Side {
    Lhs,
    Rhs,
}

impl Side {
    /// "the side opposite".
    pub fn opposite(self) -> Side {
        match self {
            Side::Lhs => Side::Rhs,
            Side::Rhs => Side::Lhs,
        }
    }
}

/// "Table says yes when"; "(but reachability of Not is yes)".
pub fn reachable(op: Operator, side: Side, s: u64, t: u64) -> bool {
    match (op, side) {
        // "Add | always", "Sub | always", "Equals | always"
        (Operator::Add | Operator::Sub | Operator::Equals, _) => true,
        // "Mul | (−s or s) and t = t, by bits"
        (Operator::Mul, _) => (s.wrapping_neg() | s) & t == t,
        // "Divu Lhs | s = 0: t = M; else t·s ≤ M"
        (Operator::Divu, Side::Lhs) => {
            if s == 0 {
                t == M
            } else {
                u128::from(t) * u128::from(s) <= u128::from(M)
            }
        }
        // "Divu Rhs | t = 0: s ≠ M; else t = M or s ≥ t"
        (Operator::Divu, Side::Rhs) => {
            if t == 0 {
                s != M
            } else {
                t == M || s >= t
            }
        }
        // "Sltu Lhs | t = 0 or s ≠ 0"
        (Operator::Sltu, Side::Lhs) => t == 0 || s != 0,
        // "Sltu Rhs | t = 0 or s ≠ M"
        (Operator::Sltu, Side::Rhs) => t == 0 || s != M,
        // "Remu Lhs | s > t"
        (Operator::Remu, Side::Lhs) => s > t,
        // "Remu Rhs | s = t, or s > t and s − t > t"
        (Operator::Remu, Side::Rhs) => s == t || (s > t && s - t > t),
        // "BitwiseAnd | t and s = t"
        (Operator::BitwiseAnd, _) => t & s == t,
        // "reachability of Not is yes"
        (Operator::Not, _) => true,
    }
}

/// "Inverse value", refused with 10, 11 and 12 in this order.
pub fn inverse(
    op: Operator,
    side: Side,
    s: u64,
    t: u64,
    words: &[u64],
    at: usize,
) -> Result<(u64, usize), Refusal> {
    // "10 Arity | a binary rule asked of Not"
    if op == Operator::Not {
        return Err(Refusal::Arity);
    }
    // "11 NoInverse | inverse asked where the table says no"
    if !reachable(op, side, s, t) {
        return Err(Refusal::NoInverse);
    }
    // "12 Dry | a single value's words run out"
    inverse_draw(op, side, s, t, words, at).ok_or(Refusal::Dry)
}

/// The column "Inverse value", where the table says yes.
fn inverse_draw(op: Operator, side: Side, s: u64, t: u64, words: &[u64], at: usize) -> Draw<u64> {
    match (op, side) {
        // "Add | t − s"
        (Operator::Add, _) => Some((t.wrapping_sub(s), at)),
        // "Sub | Lhs t + s; Rhs s − t"
        (Operator::Sub, Side::Lhs) => Some((t.wrapping_add(s), at)),
        (Operator::Sub, Side::Rhs) => Some((s.wrapping_sub(t), at)),
        (Operator::Mul, _) => mul_inverse(s, t, words, at),
        (Operator::Divu, Side::Lhs) => divu_lhs_inverse(s, t, words, at),
        (Operator::Divu, Side::Rhs) => divu_rhs_inverse(s, t, words, at),
        // "Sltu Lhs | t = 0: s..M; else 0..s−1"
        (Operator::Sltu, Side::Lhs) => {
            if t == 0 {
                range(words, at, s, M)
            } else {
                range(words, at, 0, s - 1)
            }
        }
        // "Sltu Rhs | t = 0: 0..s; else s+1..M"
        (Operator::Sltu, Side::Rhs) => {
            if t == 0 {
                range(words, at, 0, s)
            } else {
                range(words, at, s + 1, M)
            }
        }
        (Operator::Remu, Side::Lhs) => remu_lhs_inverse(s, t, words, at),
        (Operator::Remu, Side::Rhs) => remu_rhs_inverse(s, t, words, at),
        // "BitwiseAnd | (word and not s) or t"
        (Operator::BitwiseAnd, _) => {
            let (w, after) = word(words, at)?;
            Some(((w & !s) | t, after))
        }
        // "Equals | t = 0: words until one ≠ s; else s"
        (Operator::Equals, _) => {
            if t == 0 {
                until_not(words, at, s)
            } else {
                Some((s, at))
            }
        }
        (Operator::Not, _) => None,
    }
}

/// "Mul | c is the number of trailing zeros of s; (t>>c) times the inverse of
/// s>>c, or-ed with one word's top c bits (a word is drawn for c = 0 too).
/// s = t = 0: one word". (At s = 0 the table says yes for t = 0 alone.)
fn mul_inverse(s: u64, t: u64, words: &[u64], at: usize) -> Draw<u64> {
    let (w, after) = word(words, at)?;
    if s == 0 {
        return Some((w, after));
    }
    let c = s.trailing_zeros();
    let product = (t >> c).wrapping_mul(modinverse(s >> c)?);
    let below_the_top_c_bits = M >> c;
    Some((product | (w & !below_the_top_c_bits), after))
}

/// "Divu Lhs | s = 0: 0..M; t = M, s = 1: M, no word; else
/// t·s..min(M, t·s + s − 1)"
fn divu_lhs_inverse(s: u64, t: u64, words: &[u64], at: usize) -> Draw<u64> {
    if s == 0 {
        return range(words, at, 0, M);
    }
    if t == M && s == 1 {
        return Some((M, at));
    }
    let low = u128::from(t) * u128::from(s);
    let high = u128::min(u128::from(M), low + u128::from(s) - 1);
    range(words, at, low as u64, high as u64)
}

/// "Divu Rhs | t = s = M: 0..1; else t = M: 0; else s/t by the operator"
fn divu_rhs_inverse(s: u64, t: u64, words: &[u64], at: usize) -> Draw<u64> {
    if t == M && s == M {
        range(words, at, 0, 1)
    } else if t == M {
        Some((0, at))
    } else {
        Some((divu(s, t), at))
    }
}

/// "Remu Lhs | y·s + t, y from 1..(M−t)/s; if that is empty, t, no word"
fn remu_lhs_inverse(s: u64, t: u64, words: &[u64], at: usize) -> Draw<u64> {
    let most = (M - t) / s;
    if most < 1 {
        return Some((t, at));
    }
    let (y, after) = range(words, at, 1, most)?;
    Some((y * s + t, after))
}

/// "Remu Rhs | s = t: from t..M, t read as 0; else divisor draw": a drawn t
/// stands for 0, since s % 0 = s.
fn remu_rhs_inverse(s: u64, t: u64, words: &[u64], at: usize) -> Draw<u64> {
    if s != t {
        return divisor(words, at, s, t);
    }
    let (drawn, after) = range(words, at, t, M)?;
    if drawn == t {
        Some((0, after))
    } else {
        Some((drawn, after))
    }
}

/// "Consistent values", refused with 10 and 12 in this order.
pub fn consistent(
    op: Operator,
    side: Side,
    t: u64,
    words: &[u64],
    at: usize,
) -> Result<(u64, usize), Refusal> {
    // "10 Arity | a binary rule asked of Not"
    if op == Operator::Not {
        return Err(Refusal::Arity);
    }
    // "12 Dry | a single value's words run out"
    consistent_draw(op, side, t, words, at).ok_or(Refusal::Dry)
}

/// The paragraph "Consistent values".
fn consistent_draw(op: Operator, side: Side, t: u64, words: &[u64], at: usize) -> Draw<u64> {
    match (op, side) {
        // "Add, Sub, Equals one word."
        (Operator::Add | Operator::Sub | Operator::Equals, _) => word(words, at),
        // "BitwiseAnd word or t."
        (Operator::BitwiseAnd, _) => {
            let (w, after) = word(words, at)?;
            Some((w | t, after))
        }
        (Operator::Mul, _) => mul_consistent(t, words, at),
        (Operator::Divu, Side::Lhs) => divu_lhs_consistent(t, words, at),
        (Operator::Divu, Side::Rhs) => divu_rhs_consistent(t, words, at),
        // "Sltu Lhs: t = 0: 0..M; else 0..M−1."
        (Operator::Sltu, Side::Lhs) => {
            if t == 0 {
                range(words, at, 0, M)
            } else {
                range(words, at, 0, M - 1)
            }
        }
        // "Sltu Rhs: t = 0: 0..M; else 1..M−1."
        (Operator::Sltu, Side::Rhs) => {
            if t == 0 {
                range(words, at, 0, M)
            } else {
                range(words, at, 1, M - 1)
            }
        }
        // "Remu Lhs: t = M: M; else t..M."
        (Operator::Remu, Side::Lhs) => {
            if t == M {
                Some((M, at))
            } else {
                range(words, at, t, M)
            }
        }
        // "Remu Rhs: t = M: 0; else t+1..M."
        (Operator::Remu, Side::Rhs) => {
            if t == M {
                Some((0, at))
            } else {
                range(words, at, t + 1, M)
            }
        }
        (Operator::Not, _) => None,
    }
}

/// "Mul: t = 0 gives 0; else two words, low first, as r, redrawn while r = 0;
/// if r has more trailing zeros than t, shift right to t's number; low 64 bits."
fn mul_consistent(t: u64, words: &[u64], at: usize) -> Draw<u64> {
    if t == 0 {
        return Some((0, at));
    }
    let (mut r, after) = two_words(words, at)?;
    while r.trailing_zeros() > t.trailing_zeros() {
        r /= 2;
    }
    Some((r as u64, after))
}

/// "Divu Lhs: t = 0 or M: 0..M−1; else y·t wrapped, y one word redrawn while 0."
fn divu_lhs_consistent(t: u64, words: &[u64], at: usize) -> Draw<u64> {
    if t == 0 || t == M {
        return range(words, at, 0, M - 1);
    }
    let (y, after) = not_zero(words, at)?;
    Some((y.wrapping_mul(t), after))
}

/// "Divu Rhs: t = M: 0..1; t = 0: 1..M (the source panics); else 0..M/t."
fn divu_rhs_consistent(t: u64, words: &[u64], at: usize) -> Draw<u64> {
    if t == M {
        range(words, at, 0, 1)
    } else if t == 0 {
        range(words, at, 1, M)
    } else {
        range(words, at, 0, M / t)
    }
}

/// "Not needs no word: target 0 gives 1, any other 0." And "10 Arity | … or the
/// unary rule of another operator".
pub fn unary(op: Operator, t: u64) -> Result<u64, Refusal> {
    if op != Operator::Not {
        return Err(Refusal::Arity);
    }
    Ok(u64::from(t == 0))
}

/// The two false kinds. "False yes: (a) Divu Rhs, 0 < t < M, t ≤ s,
/// s/(s/t) ≠ t; (b) t > 1 at Sltu or Equals where the table says yes, and at
/// Not."
pub fn false_kind(op: Operator, side: Side, s: u64, t: u64) -> bool {
    match (op, side) {
        (Operator::Divu, Side::Rhs) => 0 < t && t < M && t <= s && divu(s, divu(s, t)) != t,
        (Operator::Sltu | Operator::Equals, _) => t > 1 && reachable(op, side, s, t),
        (Operator::Not, _) => t > 1,
        _ => false,
    }
}
