//! Whole runs on random graphs and on a sweep of small ones: ours and the Rust's
//! against the plain reading of document 01, step by step and round by round.

pub mod answers;
pub mod cells;
pub mod compared;
pub mod discards;
pub mod file;
pub mod graphs;
pub mod log;
pub mod odd;
pub mod ours;
pub mod panics;
pub mod paper;
pub mod questions;
pub mod refusals;
pub mod roots;
pub mod runs;
pub mod rust;
pub mod sides;
pub mod sweep;
pub mod trace;
pub mod widths;
pub mod widths_at_roots;

use crate::numbers::Random;
use compared::Compared;

const GRAPHS: u64 = 100_000;
const SEED: u64 = 3;

/// `search`, or `search GRAPHS SEED` for other graphs.
pub fn compare() -> bool {
    let number = |place: usize| std::env::args().nth(place).map(|text| text.parse());
    let graphs = number(2).map_or(GRAPHS, |n| n.expect("the number of graphs"));
    let seed = number(3).map_or(SEED, |n| n.expect("the seed"));

    let mut random = Random::new(seed);
    let mut compared = Compared::new();
    for _ in 0..graphs {
        let plan = graphs::plan(&mut random);
        runs::ask(plan, &mut random, &mut compared);
    }
    let swept = sweep::plans(&mut random);
    let all = format!("{graphs} random graphs, {} of the sweep", swept.len());
    for plan in swept {
        runs::ask(plan, &mut random, &mut compared);
    }
    compared.conclude(&all)
}
