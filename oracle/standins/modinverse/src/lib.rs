//! The inverse of a modulo m by extended Euclid, none where they share a factor.

pub fn modinverse(a: i128, m: i128) -> Option<i128> {
    let (mut r, mut next_r) = (a, m);
    let (mut x, mut next_x) = (1, 0);
    while next_r != 0 {
        let q = r / next_r;
        (r, next_r) = (next_r, r - q * next_r);
        (x, next_x) = (next_x, x - q * next_x);
    }
    (r == 1).then(|| x.rem_euclid(m))
}
