//! Ranges. Bounds in the wrong order panic at the caller's line, as in `rand`.

use std::panic::Location;

/// The range `first..=last`.
pub struct Uniform {
    first: u64,
    last: u64,
}

impl Uniform {
    #[track_caller]
    pub fn new(low: u64, high: u64) -> Uniform {
        assert!(low < high, "Uniform::new called with `low >= high`");
        Uniform {
            first: low,
            last: high - 1,
        }
    }

    #[track_caller]
    pub fn new_inclusive(low: u64, high: u64) -> Uniform {
        assert!(
            low <= high,
            "Uniform::new_inclusive called with `low > high`"
        );
        Uniform {
            first: low,
            last: high,
        }
    }

    /// A word w: w itself if the range is everything, else first + w mod its size. In the
    /// second case the last words of all, as many as 2^64 mod the size, are discarded: the
    /// others make up whole ranges.
    #[track_caller]
    pub(crate) fn draw(&self) -> u64 {
        let Some(size) = (self.last - self.first).checked_add(1) else {
            return words::take();
        };
        let too_many = size.wrapping_neg() % size;
        loop {
            let word = words::take();
            if word <= u64::MAX - too_many {
                return self.first + word % size;
            }
            words::discard(Location::caller().line());
        }
    }
}
