//! `choose`, which monster.rs calls for the divisor draw alone.

use crate::ThreadRng;

pub trait SliceRandom {
    type Item;
    fn choose(&self, rng: &mut ThreadRng) -> Option<&Self::Item>;
}

impl<T> SliceRandom for [T] {
    type Item = T;

    /// The first: `get_divisors` has already drawn the word and put its choice there.
    fn choose(&self, _: &mut ThreadRng) -> Option<&T> {
        self.first()
    }
}
