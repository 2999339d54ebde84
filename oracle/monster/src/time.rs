//! The Rust's whole search on one graph, timed, with nothing that watches it.

use crate::{
    panics::{caught, Stop},
    steps,
    timed::MonsterSolver,
    End, Graph, Solver,
};
use std::time::{Duration, Instant};

/// The time of the search alone: the words are lent and the graph is made before.
pub struct Timed {
    pub end: End,
    pub steps: u64,
    pub words: usize,
    pub time: Duration,
}

/// The words suffice for the start, and for the search.
pub fn time(graph: &Graph, words: &[u64], budget: u32) -> Timed {
    words::lend(words, 0);
    let solver = MonsterSolver::new(steps::Duration::new(budget.into(), 0));
    let start = Instant::now();
    let answer = caught(|| solver.solve_impl(&graph));
    let time = start.elapsed();
    Timed {
        end: match answer {
            Ok(Ok(_)) => End::Solved,
            Ok(Err(_)) => End::Spent,
            Err(Stop::Dry) => End::Dry,
            Err(Stop::Panicked(place)) => End::Panicked(place),
        },
        steps: steps::asked().min(budget.into()),
        words: words::taken(),
        time,
    }
}
