//! The names of `rand` that monster.rs uses, each answered by document 01's draws.

use std::ops::RangeInclusive;

pub mod distributions;
pub mod seq;

/// A whole value: u64 is one word, bool the coin, u128 two words, low first.
pub trait Random {
    fn random() -> Self;
}

impl Random for u64 {
    fn random() -> u64 {
        words::take()
    }
}

impl Random for bool {
    fn random() -> bool {
        words::take() >= 1 << 63
    }
}

impl Random for u128 {
    fn random() -> u128 {
        let low = words::take();
        let high = words::take();
        u128::from(high) << 64 | u128::from(low)
    }
}

pub fn random<T: Random>() -> T {
    T::random()
}

/// The generator has no state of its own: the word list is the state.
pub struct ThreadRng;

pub fn thread_rng() -> ThreadRng {
    ThreadRng
}

pub trait Rng {
    #[track_caller]
    fn sample(&mut self, range: distributions::Uniform) -> u64;
    fn gen_range(&mut self, range: RangeInclusive<f64>) -> f64;
}

impl Rng for ThreadRng {
    #[track_caller]
    fn sample(&mut self, range: distributions::Uniform) -> u64 {
        range.draw()
    }

    /// floor(w / 2048) / 2^53: both are exact in binary64.
    fn gen_range(&mut self, range: RangeInclusive<f64>) -> f64 {
        assert!(range == (0.0..=1.0), "only the unit range is stood in for");
        (words::take() / 2048) as f64 / (1_u64 << 53) as f64
    }
}
