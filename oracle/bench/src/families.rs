//! The graphs that are timed. A graph's root is its last node.

use crate::policy::Policy;
use monster::BVOperator::*;

/// Graphs of one shape, from small to large.
pub struct Family {
    pub name: &'static str,
    pub sizes: &'static [usize],
    /// Whether runs can end early, so that many of them make up the steps.
    pub solvable: bool,
    pub build: fn(&mut Policy, usize),
}

pub const FAMILIES: [Family; 8] = [
    Family {
        name: "chain over constants",
        sizes: &[10, 100, 1_000, 1_990],
        solvable: true,
        build: chain_over_constants,
    },
    Family {
        name: "chain over inputs",
        sizes: &[10, 100, 1_000, 1_990],
        solvable: false,
        build: chain_over_inputs,
    },
    Family {
        name: "tree, inputs",
        sizes: &[16, 128, 1_024],
        solvable: false,
        build: tree,
    },
    Family {
        name: "shared, 8 wide, deep",
        sizes: &[4, 10],
        solvable: false,
        build: shared,
    },
    Family {
        name: "ladder of x + x, deep",
        sizes: &[12, 16, 20],
        solvable: false,
        build: ladder,
    },
    Family {
        name: "an input feeds ten, nodes",
        sizes: &[100, 400, 1_000, 2_000, 4_000],
        solvable: false,
        build: feeds_ten,
    },
    Family {
        name: "unsolvable collision, deep",
        sizes: &[1, 2, 4, 8, 12],
        solvable: false,
        build: unsolvable_collision,
    },
    Family {
        name: "solvable collision, fields",
        sizes: &[4, 16, 64, 256],
        solvable: true,
        build: solvable_collision,
    },
];

/// Every step goes to the chain, so a round is as long as the chain.
fn chain_over_constants(policy: &mut Policy, length: usize) {
    let mut top = policy.input();
    for turn in 0..length {
        let op = [Add, Sub][turn % 2];
        top = policy.with(op, top, 3 * turn as u64 + 1);
    }
    policy.equals(top, 10);
}

/// A coin at every step, so most rounds end near the root.
fn chain_over_inputs(policy: &mut Policy, length: usize) {
    let mut top = policy.input();
    for turn in 0..length {
        let input = policy.input();
        top = policy.mixed(turn, top, input);
    }
    policy.never(top);
}

fn tree(policy: &mut Policy, inputs: usize) {
    let mut layer: Vec<usize> = (0..inputs).map(|_| policy.input()).collect();
    while layer.len() > 1 {
        let pairs = layer.chunks(2).enumerate();
        layer = pairs
            .map(|(turn, pair)| policy.mixed(turn, pair[0], pair[1]))
            .collect();
    }
    policy.never(layer[0]);
}

/// Each node stands over two of the layer below it, and under two of the layer above.
fn shared(policy: &mut Policy, depth: usize) {
    let mut layer: Vec<usize> = (0..8).map(|_| policy.input()).collect();
    for _ in 0..depth {
        layer = (0..8)
            .map(|place| policy.mixed(place, layer[place], layer[(place + 1) % 8]))
            .collect();
    }
    let top = layer
        .into_iter()
        .reduce(|top, node| policy.operator(Add, top, node));
    policy.never(top.expect("eight nodes"));
}

/// An even number again: the x + x on top can't be 1.
fn ladder(policy: &mut Policy, depth: usize) {
    let mut top = policy.input();
    for _ in 0..depth {
        top = policy.operator(Add, top, top);
    }
    policy.equals(top, 1);
}

/// A chain over few inputs, which come again and again.
fn feeds_ten(policy: &mut Policy, nodes: usize) {
    let inputs = (nodes - 4) / 11;
    let ids: Vec<usize> = (0..inputs).map(|_| policy.input()).collect();
    let mut top = ids[inputs - 1];
    for turn in 0..10 * inputs {
        top = policy.mixed(turn, top, ids[turn % inputs]);
    }
    policy.never(top);
}

/// A slot that tells every attempt from every other: quotient and remainder put
/// together again, times an odd number, several times over.
fn unsolvable_collision(policy: &mut Policy, depth: usize) {
    let attempts = [policy.input(), policy.input()];
    let slots = attempts.map(|attempt| (0..depth).fold(attempt, |slot, _| mixed_up(policy, slot)));
    policy.collision(slots, attempts);
}

fn mixed_up(policy: &mut Policy, slot: usize) -> usize {
    let quotient = policy.with(Divu, slot, 10);
    let tens = policy.with(Mul, quotient, 10);
    let ones = policy.with(Remu, slot, 10);
    let same = policy.operator(Add, tens, ones);
    policy.with(Mul, same, 7)
}

/// Both attempts add their number to the same fields, and there are eight slots.
fn solvable_collision(policy: &mut Policy, fields: usize) {
    let fields: Vec<usize> = (0..fields).map(|_| policy.input()).collect();
    let attempts = [policy.input(), policy.input()];
    let slots = attempts.map(|attempt| {
        let sum = fields
            .iter()
            .fold(attempt, |sum, field| policy.operator(Add, sum, *field));
        policy.with(Remu, sum, 8)
    });
    policy.collision(slots, attempts);
}
