//! Section "Words and draws".
//!
//! "Words are a lent list of u64, read from the front". Here a word source is
//! the list and a position in it. Every draw is asked at a position and
//! answers `Some((value, position after))`, or `None`, which is Dry: "a draw
//! answers either the words and the source after them, or Dry". "a refused
//! single draw gives the source back unmoved": the caller's position is still
//! the one it asked with.

use crate::M;

/// A draw's answer: the value and the position after it, or none for Dry.
pub type Draw<T> = Option<(T, usize)>;

/// One word, "read from the front".
pub fn word(words: &[u64], at: usize) -> Draw<u64> {
    let w = *words.get(at)?;
    Some((w, at + 1))
}

/// "Range a..b (both included): one word w; w if the range is everything, else
/// a + w mod (b − a + 1)." And "12 Dry | … or a range a..b with a > b is asked". And
/// "For a range of size m below 2^64, a word at or above the largest multiple of m that
/// is at most 2^64 is discarded and the next one taken."
pub fn range(words: &[u64], mut at: usize, a: u64, b: u64) -> Draw<u64> {
    if a > b {
        return None;
    }
    if a == 0 && b == M {
        return word(words, at);
    }
    let m = b - a + 1;
    loop {
        let (w, after) = word(words, at)?;
        if u128::from(w) < largest_multiple(m) {
            return Some((a + w % m, after));
        }
        at = after;
    }
}

/// "the largest multiple of m that is at most 2^64".
pub fn largest_multiple(m: u64) -> u128 {
    let m = u128::from(m);
    (1 << 64) / m * m
}

/// "Coin: true when w ≥ 2^63."
pub fn coin(words: &[u64], at: usize) -> Draw<bool> {
    let (w, after) = word(words, at)?;
    Some((w >= 1 << 63, after))
}

/// "Inverse chosen when floor(w/2048) < 8106479329266893".
pub fn inverse_chosen(words: &[u64], at: usize) -> Draw<bool> {
    let (w, after) = word(words, at)?;
    Some((w / 2048 < 8106479329266893, after))
}

/// "two words, low first, as r, redrawn while r = 0".
pub fn two_words(words: &[u64], mut at: usize) -> Draw<u128> {
    loop {
        let (low, after_low) = word(words, at)?;
        let (high, after) = word(words, after_low)?;
        let r = u128::from(low) + (u128::from(high) << 64);
        if r != 0 {
            return Some((r, after));
        }
        at = after;
    }
}

/// "words until one ≠ s".
pub fn until_not(words: &[u64], mut at: usize, s: u64) -> Draw<u64> {
    loop {
        let (w, after) = word(words, at)?;
        if w != s {
            return Some((w, after));
        }
        at = after;
    }
}

/// "one word redrawn while 0".
pub fn not_zero(words: &[u64], at: usize) -> Draw<u64> {
    until_not(words, at, 0)
}

/// "Divisor draw: one word w, k = 1 + w mod 4096, D = s − t; D/k if k divides D
/// and D/k > t, else D." It is asked only where s − t > t, so s is above t.
pub fn divisor(words: &[u64], at: usize, s: u64, t: u64) -> Draw<u64> {
    let (w, after) = word(words, at)?;
    let k = 1 + w % 4096;
    let d = s.wrapping_sub(t);
    if d % k == 0 && d / k > t {
        Some((d / k, after))
    } else {
        Some((d, after))
    }
}

#[cfg(test)]
mod tests {
    use super::*;

    #[test]
    fn ranges() {
        assert_eq!(range(&[7], 0, 0, M), Some((7, 1)));
        assert_eq!(range(&[7], 0, 10, 14), Some((12, 1)));
        assert_eq!(range(&[7], 0, M, M), Some((M, 1)));
        assert_eq!(range(&[M - 1], 0, 1, M), Some((M, 1)));
        assert_eq!(range(&[7], 0, 2, 1), None);
        assert_eq!(range(&[7], 1, 1, 2), None);
    }

    #[test]
    fn multiples() {
        assert_eq!(largest_multiple(1), 1 << 64);
        assert_eq!(largest_multiple(1 << 63), 1 << 64);
        assert_eq!(largest_multiple(3), u128::from(M));
        assert_eq!(largest_multiple(10), u128::from(M) - 5);
        assert_eq!(largest_multiple((1 << 63) + 1), (1 << 63) + 1);
        assert_eq!(largest_multiple(M), u128::from(M));
    }

    /// 2^64 is 10 times 1844674407370955161, and 6.
    #[test]
    fn discarded_words() {
        assert_eq!(range(&[M - 6], 0, 0, 9), Some((9, 1)));
        assert_eq!(range(&[M - 5, 23], 0, 0, 9), Some((3, 2)));
        assert_eq!(range(&[M, M - 1, M - 5, 23], 0, 5, 14), Some((8, 4)));
        assert_eq!(range(&[M, M - 5], 0, 0, 9), None);
        assert_eq!(range(&[M], 0, 0, 7), Some((7, 1)));
        assert_eq!(range(&[M, M], 0, 1, M), None);
    }

    #[test]
    fn redraws() {
        assert_eq!(two_words(&[0, 0, 0, 1], 0), Some((1 << 64, 4)));
        assert_eq!(two_words(&[0, 0, 5], 0), None);
        assert_eq!(until_not(&[3, 3, 4], 0, 3), Some((4, 3)));
        assert_eq!(not_zero(&[0, 0], 0), None);
    }

    #[test]
    fn divisors() {
        assert_eq!(divisor(&[0], 0, 13, 1), Some((12, 1)));
        assert_eq!(divisor(&[2], 0, 13, 1), Some((4, 1)));
        assert_eq!(divisor(&[4], 0, 13, 1), Some((12, 1)));
        assert_eq!(divisor(&[11], 0, 13, 1), Some((12, 1)));
        assert_eq!(divisor(&[4098], 0, 13, 1), Some((4, 1)));
    }

    #[test]
    fn coins() {
        assert_eq!(coin(&[(1 << 63) - 1], 0), Some((false, 1)));
        assert_eq!(coin(&[1 << 63], 0), Some((true, 1)));
    }
}
