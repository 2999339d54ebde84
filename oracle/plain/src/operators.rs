//! Section "Operators". "SMT-LIB FixedSizeBitVectors decides operator meaning".

use crate::M;

/// "the nine operators", each with the number of its kind: "2 Add, 3 Sub,
/// 4 Mul, 5 Divu, 6 Sltu, 7 Remu, 8 Not, 9 Equals, 10 BitwiseAnd".
#[derive(Clone, Copy, Debug, PartialEq, Eq)]
pub enum Operator {
    Add = 2,
    Sub = 3,
    Mul = 4,
    Divu = 5,
    Sltu = 6,
    Remu = 7,
    Not = 8,
    Equals = 9,
    BitwiseAnd = 10,
}

/// The nine operators in the order of their numbers.
pub const ALL: [Operator; 9] = [
    Operator::Add,
    Operator::Sub,
    Operator::Mul,
    Operator::Divu,
    Operator::Sltu,
    Operator::Remu,
    Operator::Not,
    Operator::Equals,
    Operator::BitwiseAnd,
];

impl Operator {
    /// "Byte 0 is the kind": the number of this operator's kind.
    pub fn kind(self) -> u8 {
        self as u8
    }

    /// The sign in a listing: "the source's Printer" writes the Display of mod.rs.
    pub fn sign(self) -> char {
        match self {
            Operator::Add => '+',
            Operator::Sub => '-',
            Operator::Mul => '*',
            Operator::Divu => '/',
            Operator::Sltu => '<',
            Operator::Remu => '%',
            Operator::Not => '!',
            Operator::Equals => '=',
            Operator::BitwiseAnd => '&',
        }
    }

    /// "Byte 0 is the kind": the operator of a kind, none for 0, 1 and above 10.
    pub fn of(kind: u8) -> Option<Operator> {
        ALL.into_iter().find(|op| op.kind() == kind)
    }
}

/// The meaning of the eight binary operators, left operand first. Not, which
/// has a single operand, has none here.
pub fn binary(op: Operator, left: u64, right: u64) -> Option<u64> {
    Some(match op {
        // "Add, Sub, Mul wrap."
        Operator::Add => left.wrapping_add(right),
        Operator::Sub => left.wrapping_sub(right),
        Operator::Mul => left.wrapping_mul(right),
        Operator::Divu => divu(left, right),
        Operator::Remu => remu(left, right),
        // "Sltu and Equals give 1 or 0."
        Operator::Sltu => u64::from(left < right),
        Operator::Equals => u64::from(left == right),
        // "BitwiseAnd is by bit."
        Operator::BitwiseAnd => left & right,
        Operator::Not => return None,
    })
}

/// "x/0 = M … as SMT-LIB."
pub fn divu(x: u64, y: u64) -> u64 {
    if y == 0 {
        M
    } else {
        x / y
    }
}

/// "x%0 = x, as SMT-LIB."
pub fn remu(x: u64, y: u64) -> u64 {
    if y == 0 {
        x
    } else {
        x % y
    }
}

/// "Not is 1 for 0, else 0."
pub fn not(x: u64) -> u64 {
    u64::from(x == 0)
}

/// "Shifts take their count modulo 64".
pub fn shift_left(x: u64, count: u64) -> u64 {
    x << (count % 64)
}

/// "Shifts take their count modulo 64".
pub fn shift_right(x: u64, count: u64) -> u64 {
    x >> (count % 64)
}

/// `addo`: the sum is over M.
pub fn addo(x: u64, y: u64) -> bool {
    u128::from(x) + u128::from(y) > u128::from(M)
}

/// `mulo`: the product is over M.
pub fn mulo(x: u64, y: u64) -> bool {
    u128::from(x) * u128::from(y) > u128::from(M)
}

/// `odd`: the lowest bit is 1.
pub fn odd(x: u64) -> bool {
    x % 2 == 1
}

/// "`modinverse` of an even value: none." Of an odd one it is the x with
/// value · x = 1, wrapped; x is found bit by bit from the lowest.
pub fn modinverse(value: u64) -> Option<u64> {
    if !odd(value) {
        return None;
    }
    let mut x: u64 = 0;
    for bit in 0..64 {
        let wrong = value.wrapping_mul(x) ^ 1;
        x |= wrong & (1 << bit);
    }
    Some(x)
}

/// "the Debug text: `<`, binary digits without leading zeros, `>`; zero is `<>`".
pub fn text(value: u64) -> String {
    if value == 0 {
        "<>".to_string()
    } else {
        format!("<{value:b}>")
    }
}

#[cfg(test)]
mod tests {
    use super::*;

    #[test]
    fn kinds_are_two_to_ten() {
        let kinds: Vec<u8> = ALL.iter().map(|op| op.kind()).collect();
        assert_eq!(kinds, (2..=10).collect::<Vec<u8>>());
        assert!([0, 1, 11, 255].iter().all(|k| Operator::of(*k).is_none()));
    }

    #[test]
    fn division_by_zero() {
        assert_eq!(binary(Operator::Divu, 5, 0), Some(M));
        assert_eq!(binary(Operator::Remu, 5, 0), Some(5));
    }

    #[test]
    fn inverses_multiply_to_one() {
        for value in [1, 3, 5, 0x5555555555555555, M, M - 2, 1 << 63 | 1] {
            assert_eq!(modinverse(value).unwrap().wrapping_mul(value), 1);
        }
        assert_eq!(modinverse(6), None);
    }

    #[test]
    fn texts() {
        assert_eq!(text(0), "<>");
        assert_eq!(text(5), "<101>");
        assert_eq!(text(M).len(), 66);
    }
}
