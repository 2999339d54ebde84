//! What the paper claims of its own rules, tried on this reading of them.

use crate::file::{encode, operands, Graph, Node};
use crate::limits::{random_graph, Random};
use crate::operators::{binary, Operator, ALL};
use crate::rules::{consistent, false_kind, inverse, reachable, Side};
use crate::search::{solve, Choice, How, Outcome, Run};
use crate::widths::fits;
use crate::M;

/// op with x on its side and s on the other.
fn applied(op: Operator, side: Side, x: u64, s: u64) -> u64 {
    match side {
        Side::Lhs => binary(op, x, s).unwrap(),
        Side::Rhs => binary(op, s, x).unwrap(),
    }
}

/// A random binary operator and side.
fn asked(random: &mut Random) -> (Operator, Side) {
    let op = loop {
        let op = ALL[random.below(9)];
        if op != Operator::Not {
            break op;
        }
    };
    (op, [Side::Lhs, Side::Rhs][random.below(2)])
}

/// "in every other yes the inverse value gives t"
#[test]
fn the_inverse_gives_t() {
    let mut random = Random(3);
    for _ in 0..400_000 {
        let (op, side) = asked(&mut random);
        let s = random.value();
        let t = match random.below(3) {
            0 => random.value(),
            1 => s,
            _ => applied(op, side, random.value(), s),
        };
        let words: Vec<u64> = (0..200).map(|_| random.value()).collect();
        if !reachable(op, side, s, t) {
            assert!(inverse(op, side, s, t, &words, 0).is_err());
            continue;
        }
        let (x, _) = inverse(op, side, s, t, &words, 0).unwrap();
        if !false_kind(op, side, s, t) {
            assert_eq!(applied(op, side, x, s), t, "{op:?} {side:?} {s} {t} {x}");
        } else {
            assert_ne!(applied(op, side, x, s), t, "{op:?} {side:?} {s} {t} {x}");
        }
    }
}

/// "False no: (c) Remu Lhs, s = 0", and no other: a value that gives t belongs
/// to a yes that is not false.
#[test]
fn what_exists_is_in_the_table() {
    let mut random = Random(4);
    for _ in 0..400_000 {
        let (op, side) = asked(&mut random);
        let s = random.value();
        let t = applied(op, side, random.value(), s);
        let listed = op == Operator::Remu && side == Side::Lhs && s == 0;
        assert_eq!(
            reachable(op, side, s, t),
            !listed,
            "{op:?} {side:?} {s} {t}"
        );
        assert!(!false_kind(op, side, s, t));
    }
}

/// "No rule asks an empty range": consistent and inverse values run dry at most
/// for want of words.
#[test]
fn no_rule_asks_an_empty_range() {
    let mut random = Random(5);
    let edges = [0, 1, 2, 3, 1 << 63, M - 2, M - 1, M];
    let words: Vec<u64> = (0..200).map(|_| random.word()).collect();
    for op in ALL.into_iter().filter(|op| *op != Operator::Not) {
        for side in [Side::Lhs, Side::Rhs] {
            for t in edges {
                assert!(consistent(op, side, t, &words, 0).is_ok());
                for s in edges {
                    let answer = inverse(op, side, s, t, &words, 0);
                    assert_eq!(answer.is_ok(), reachable(op, side, s, t));
                }
            }
        }
    }
}

/// "'Solved' means root 1, constants kept, every operator right; 'spent' means
/// no completed round made the root 1." And every input is below 2^width.
fn result_is_right(graph: &Graph, run: &Run) {
    let root_of = |values: &[u64]| values[graph.root];
    assert_eq!(run.result == Outcome::Solved, root_of(&run.values) == 1);
    for (id, node) in graph.nodes.iter().enumerate() {
        match *node {
            Node::Constant(value) => assert_eq!(run.values[id], value),
            Node::Input(_, width) => assert!(fits(run.values[id], width)),
            Node::Unary(a) => assert_eq!(run.values[id], u64::from(run.values[a] == 0)),
            Node::Binary(op, a, b) => {
                assert_eq!(
                    Some(run.values[id]),
                    binary(op, run.values[a], run.values[b])
                )
            }
        }
    }
    if run.result == Outcome::Spent {
        assert!(run
            .log
            .rounds
            .iter()
            .all(|round| root_of(&round.values) != 1));
    }
}

/// Whether a node is the input or depends on it.
fn depends(graph: &Graph, node: usize, input: usize) -> bool {
    let below = operands(&graph.nodes[node]);
    node == input || below.iter().any(|operand| depends(graph, *operand, input))
}

/// Demand 3's condition on one step of a round that ends at an input.
fn sure(graph: &Graph, values: &[u64], choice: &Choice, input: usize) -> bool {
    let Node::Binary(op, left, right) = graph.nodes[choice.node] else {
        return choice.target <= 1;
    };
    let side = choice.side.unwrap();
    let passed_by = if side == Side::Lhs { right } else { left };
    choice.how == How::Inverse
        && !false_kind(op, side, values[passed_by], choice.target)
        && !depends(graph, passed_by, input)
}

/// Demand 3: then "the root is 1 when the round ends, and the search stops
/// there as solved". It "gains the premise that the target fits": a round whose target
/// does not is lost. Answers how many rounds the condition held of.
fn sure_rounds_solve(graph: &Graph, run: &Run) -> usize {
    let mut from = 0;
    let mut held = 0;
    let mut before = &run.log.start;
    for (number, round) in run.log.rounds.iter().enumerate() {
        let choices = &run.log.choices[from..round.steps as usize];
        let sure_step = |choice| sure(graph, before, choice, round.leaf);
        if !round.lost && choices.iter().all(sure_step) {
            assert_eq!(round.values[graph.root], 1);
            assert_eq!(run.result, Outcome::Solved);
            assert_eq!(number + 1, run.log.rounds.len());
            held += 1;
        }
        from = round.steps as usize;
        before = &round.values;
    }
    held
}

#[test]
fn runs_on_random_graphs() {
    let mut random = Random(6);
    let mut held = 0;
    let mut results = [0; 3];
    for _ in 0..30_000 {
        let n = 1 + random.below(12);
        let graph = random_graph(&mut random, n);
        let words: Vec<u64> = (0..12 + random.below(60)).map(|_| random.value()).collect();
        let budget = random.below(40) as u32;
        let run = solve(&encode(&graph, b""), &words, budget, n).unwrap();
        result_is_right(&graph, &run);
        held += sure_rounds_solve(&graph, &run);
        results[run.result as usize] += 1;
        assert_eq!(run.log.rounds.len() as u64, run.rounds);
        assert_eq!(run.log.choices.len() as u64, run.steps);
        assert!(run.words <= words.len() && run.steps <= u64::from(budget));
    }
    assert!(held > 1_000, "{held}");
    assert!(results.iter().all(|count| *count > 1_000), "{results:?}");
}
