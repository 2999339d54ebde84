//! The divisor draw of document 01 in the place of the list of all divisors.

/// One word w and k = 1 + w mod 4096: only D/k where k divides D, else only D.
///
/// monster.rs pushes 1 and D behind it, keeps what is above t, and takes the
/// first. That is D/k where it is above t. Where it is not, t is at least 1, so
/// the pushed 1 is dropped as well, and D is first (D > t where the table says yes).
pub fn get_divisors(d: u64) -> Vec<u64> {
    let k = 1 + words::take() % 4096;
    vec![if d.is_multiple_of(k) { d / k } else { d }]
}
