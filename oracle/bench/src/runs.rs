//! Runs both searches on the same graph with the same words, until they have made
//! enough steps, and sees to it that they did the same.

use crate::policy::Policy;
use monster::{End, Graph, Node};
use plain::{file, limits::Random, operators::Operator};
use std::time::{Duration, Instant};

/// No step of these graphs takes more words.
const WORDS_A_STEP: usize = 6;

/// A run of a solvable graph that takes longer ends, and another one begins.
const STEPS_A_NODE: u64 = 25;

pub struct Runs {
    pub runs: u64,
    pub steps: u64,
    pub ours: Duration,
    pub theirs: Duration,
}

pub fn run(policy: &Policy, solvable: bool, steps: u64) -> Runs {
    let mut runs = Runs {
        runs: 0,
        steps: 0,
        ours: Duration::ZERO,
        theirs: Duration::ZERO,
    };
    let sides = Sides::new(policy);
    let mut random = Random(policy.nodes.len() as u64);
    while runs.steps < steps {
        let left = steps - runs.steps;
        let budget = match solvable {
            true => left.min(STEPS_A_NODE * policy.nodes.len() as u64),
            false => left,
        };
        sides.run(budget as u32, &mut random, &mut runs);
    }
    runs
}

/// A graph as each side reads it.
struct Sides {
    file: Vec<u8>,
    graph: Graph,
    nodes: usize,
}

impl Sides {
    fn new(policy: &Policy) -> Sides {
        let nodes = policy.nodes.len();
        let plain = policy.nodes.iter().map(plain).collect();
        Sides {
            file: file::encode(&file::graph(plain, nodes - 1), b""),
            graph: Graph::new(&policy.nodes, nodes - 1),
            nodes,
        }
    }

    fn run(&self, budget: u32, random: &mut Random, runs: &mut Runs) {
        let length = self.nodes + WORDS_A_STEP * budget as usize;
        let words: Vec<u64> = (0..length).map(|_| random.word()).collect();
        let mut values = vec![0; self.nodes];
        let start = Instant::now();
        let ours = ours::solve(&self.file, &words, budget, &mut values);
        runs.ours += start.elapsed();
        let theirs = monster::time(&self.graph, &words, budget);
        runs.theirs += theirs.time;
        let [refusal, end, _, lost, steps, taken] = ours;
        assert_eq!(
            [refusal, lost],
            [0, 0],
            "accepted, and no constant is reached"
        );
        let expected = [place(&theirs.end), theirs.steps, theirs.words as u64];
        assert_eq!([end, steps, taken], expected, "both searches are the same");
        runs.runs += 1;
        runs.steps += steps;
    }
}

fn plain(node: &Node) -> file::Node {
    match *node {
        Node::Constant(value) => file::Node::Constant(value),
        Node::Input(label) => file::Node::Input(label, 0),
        Node::Not(operand) => file::Node::Unary(operand),
        Node::Binary(op, left, right) => {
            let op = Operator::of(2 + op as u8).expect("kinds follow the operators");
            file::Node::Binary(op, left, right)
        }
    }
}

/// The number of an ending; words run out nowhere, and the Rust panics nowhere.
fn place(end: &End) -> u64 {
    match end {
        End::Solved => 0,
        End::Spent => 1,
        _ => panic!("{end:?}"),
    }
}
