//! How often each refusal of a search was compared.

use crate::coverage::Coverage;
use plain::Refusal;

/// Each with its number, in the order of the checks.
const NAMES: [(u32, &str); 10] = [
    (1, "Size"),
    (2, "Trailer"),
    (3, "Span"),
    (4, "Record"),
    (5, "Order"),
    (13, "Cycle"),
    (6, "Root"),
    (7, "FixedRoot"),
    (8, "Room"),
    (9, "Words"),
];

#[derive(Default)]
pub struct Refusals([u64; NAMES.len()]);

impl Refusals {
    pub fn count(&mut self, refusal: Refusal) {
        let of = |name: &(u32, &str)| name.0 == refusal.number();
        let place = NAMES.iter().position(of);
        self.0[place.expect("a refusal of a search")] += 1;
    }

    pub fn print(&self, coverage: &mut Coverage) {
        for (count, (number, name)) in self.0.iter().zip(NAMES) {
            let line = format!("refused {number}, {name}");
            coverage.line(&line, &[(*count, "times")], true);
        }
    }
}
