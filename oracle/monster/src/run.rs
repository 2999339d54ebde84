//! The Rust's whole search on one graph, with all that can be seen of it.

use crate::{
    clock::Duration,
    monster::MonsterSolver,
    panics::{caught, Place, Stop},
    watch, Assignment, Choice, Graph, Solver,
};

#[derive(Clone, Debug, PartialEq, Eq)]
pub enum End {
    Solved,
    Spent,
    Dry,
    Panicked(Place),
}

pub struct Run {
    pub end: End,
    /// The values after the start, then after each completed round.
    pub states: Vec<Vec<u64>>,
    /// One for each completed step.
    pub choices: Vec<Choice>,
    /// Words of the start and of finished values.
    pub words: usize,
    /// Words of a value that the end of the list left unfinished.
    pub unfinished: usize,
    /// The original's line of the range that discarded a word, for each such word.
    pub discarded: Vec<u32>,
    /// How many of them belong to a value that was left unfinished.
    pub discarded_unfinished: usize,
}

impl Run {
    /// The values as the search leaves them.
    pub fn values(&self) -> &[u64] {
        self.states.last().expect("the start is always completed")
    }

    pub fn rounds(&self) -> usize {
        self.states.len() - 1
    }

    pub fn steps(&self) -> usize {
        self.choices.len()
    }
}

/// The words suffice for the start: fewer are refused before any search.
pub fn run(graph: &Graph, words: &[u64], budget: u32) -> Run {
    assert!(words.len() >= graph.start_words(), "refusal 9");

    words::lend(words, 0);
    watch::take();
    let solver = MonsterSolver::new(Duration::new(budget.into(), 0));
    let answer = caught(|| solver.solve_impl(&graph));
    let watch::Seen {
        states, choices, ..
    } = watch::take();

    let end = match answer {
        Ok(Ok(found)) => solved(found, states.last()),
        Ok(Err(_)) => End::Spent,
        Err(Stop::Dry) => End::Dry,
        Err(Stop::Panicked(place)) => End::Panicked(place),
    };
    let (discarded, discarded_unfinished) = words::discarded();
    Run {
        end,
        states,
        choices,
        words: words::finished(),
        unfinished: words::unfinished(),
        discarded,
        discarded_unfinished,
    }
}

/// What the Rust answers must be what was seen last.
fn solved(found: Option<Assignment>, last: Option<&Vec<u64>>) -> End {
    let found = found.expect("the search answers an assignment or an error");
    let last = last.expect("the start is always completed");
    assert!(found.len() == last.len());
    assert!(found.iter().all(|(id, value)| last[*id] == value.0));
    End::Solved
}
