//! Section "Marked cases": all fourteen, and the budget-1 variant of the last.

use crate::file::{encode, graph, Graph, Node};
use crate::operators::Operator::{BitwiseAnd, Divu, Equals, Mul, Remu};
use crate::operators::{Operator, ALL};
use crate::program::prints;
use crate::rules::Side::{Lhs, Rhs};
use crate::rules::{consistent, inverse, reachable, unary, Side};
use crate::search::{solve, How, Outcome};
use crate::words::inverse_chosen;
use crate::{Refusal, M};

fn value(op: Operator, side: Side, s: u64, t: u64, words: &[u64]) -> u64 {
    assert!(reachable(op, side, s, t));
    inverse(op, side, s, t, words, 0).unwrap().0
}

#[test]
fn case_01_divu_rhs_7_4() {
    assert_eq!(value(Divu, Rhs, 7, 4, &[]), 1);
}

#[test]
fn case_02_divu_rhs_8_4() {
    assert_eq!(value(Divu, Rhs, 8, 4, &[]), 2);
}

#[test]
fn case_03_remu_lhs_above_half() {
    assert_eq!(value(Remu, Lhs, (1 << 63) + 1, 1 << 63, &[]), 1 << 63);
}

#[test]
fn case_04_remu_lhs_by_zero() {
    assert!(!reachable(Remu, Lhs, 0, 9));
}

#[test]
fn case_05_mul_by_zero() {
    assert!(reachable(Mul, Lhs, 0, 0) && reachable(Mul, Rhs, 0, 0));
    assert!(!reachable(Mul, Lhs, 0, 1) && !reachable(Mul, Rhs, 0, 1));
}

#[test]
fn case_06_mul_6() {
    assert_eq!(value(Mul, Lhs, 6, 4, &[0]), 0x5555555555555556);
    assert_eq!(value(Mul, Rhs, 6, 4, &[0]), 0x5555555555555556);
    assert!(!reachable(Mul, Lhs, 6, 3) && !reachable(Mul, Rhs, 6, 3));
}

#[test]
fn case_07_divu_lhs_overflow() {
    assert!(!reachable(Divu, Lhs, 1 << 32, 1 << 32));
    assert!(reachable(Divu, Lhs, 1 << 32, (1 << 32) - 1));
}

#[test]
fn case_08_divu_lhs_third_of_all() {
    for word in [0, 1, 7, M] {
        assert_eq!(value(Divu, Lhs, 3, 0x5555555555555555, &[word]), M);
    }
}

#[test]
fn case_09_remu_rhs_4() {
    for word in 0..4096 {
        assert_eq!(value(Remu, Rhs, 9, 4, &[word]), 5);
    }
    assert!(!reachable(Remu, Rhs, 8, 4));
}

#[test]
fn case_10_equals_above_one() {
    assert_eq!(value(Equals, Lhs, 3, 2, &[]), 3);
    assert_eq!(value(Equals, Rhs, 3, 2, &[]), 3);
}

#[test]
fn case_11_consistent_divu_lhs() {
    assert_eq!(consistent(Divu, Lhs, 1 << 63, &[2], 0), Ok((0, 1)));
}

#[test]
fn case_12_consistent_divu_rhs() {
    assert_eq!(consistent(Divu, Rhs, 0, &[0], 0), Ok((1, 1)));
}

#[test]
fn case_13_choosing_word() {
    let below = 8106479329266892 * 2048;
    let above = 8106479329266893 * 2048;
    assert_eq!(inverse_chosen(&[below], 0), Some((true, 1)));
    assert_eq!(inverse_chosen(&[below + 2047], 0), Some((true, 1)));
    assert_eq!(inverse_chosen(&[above], 0), Some((false, 1)));
    // "which is comparing floor(w/2048)/2^53 with the binary64 0.90"
    let two_to_53 = 9007199254740992.0;
    assert!(8106479329266892_u64 as f64 / two_to_53 < 0.90);
    assert!(8106479329266893_u64 as f64 / two_to_53 >= 0.90);
}

/// "Nodes: 0 Input label 40; 1 Constant 3; 2 Add(0,1); 3 Constant 10;
/// 4 Equals(2,3); root 4".
fn example() -> Graph {
    let nodes = vec![
        Node::Input(40, 0),
        Node::Constant(3),
        Node::Binary(Operator::Add, 0, 1),
        Node::Constant(10),
        Node::Binary(Operator::Equals, 2, 3),
    ];
    graph(nodes, 4)
}

#[test]
fn case_14_the_graph_above() {
    let file = encode(&example(), b"");
    let run = solve(&file, &[0; 7], 100_000, 5).unwrap();
    assert_eq!(run.result, Outcome::Solved);
    assert_eq!((run.rounds, run.lost, run.steps, run.words), (1, 0, 2, 7));
    assert_eq!(run.values, [7, 3, 10, 10, 1]);
    let text = "solved rounds=1 lost=0 steps=2 words=7\nx0 40 7\n";
    assert_eq!(prints(Some(&file), &[0; 56]), text);
    let log = &run.log;
    assert_eq!(*log.start, [0, 3, 3, 10, 0]);
    assert_eq!(*log.rounds[0].values, run.values);
    let how: Vec<_> = log
        .choices
        .iter()
        .map(|c| (c.node, c.side, c.value, c.how))
        .collect();
    let expected = [
        (4, Some(Lhs), 10, How::Inverse),
        (2, Some(Lhs), 7, How::Inverse),
    ];
    assert_eq!(how, expected);
}

/// "Budget 1 in the library: Spent, 0 rounds, 1 step, 5 words, values
/// 0 3 3 10 0."
#[test]
fn case_14_with_budget_1() {
    let run = solve(&encode(&example(), b""), &[0; 7], 1, 5).unwrap();
    assert_eq!(run.result, Outcome::Spent);
    assert_eq!((run.rounds, run.lost, run.steps, run.words), (0, 0, 1, 5));
    assert_eq!(run.values, [0, 3, 3, 10, 0]);
}

/// Refusals 8 and 9, and 8 before 9.
#[test]
fn room_and_words() {
    let file = encode(&example(), b"a note");
    assert_eq!(solve(&file, &[0; 7], 9, 4), Err(Refusal::Room));
    assert_eq!(solve(&file, &[0; 2], 9, 6), Err(Refusal::Room));
    assert_eq!(solve(&file, &[0; 2], 9, 5), Err(Refusal::Words));
    assert!(solve(&file, &[0; 3], 9, 5).is_ok());
}

/// Refusals 10, 11 and 12, in this order.
#[test]
fn arity_inverse_and_dry() {
    let not = Operator::Not;
    assert!(reachable(not, Lhs, 0, 5) && reachable(not, Rhs, 0, 5));
    assert_eq!(inverse(not, Lhs, 0, 0, &[], 0), Err(Refusal::Arity));
    assert_eq!(consistent(not, Lhs, 0, &[], 0), Err(Refusal::Arity));
    assert_eq!(
        inverse(BitwiseAnd, Lhs, 0, 1, &[], 0),
        Err(Refusal::NoInverse)
    );
    assert_eq!(inverse(BitwiseAnd, Lhs, 0, 0, &[], 0), Err(Refusal::Dry));
    assert_eq!(consistent(BitwiseAnd, Lhs, 0, &[7], 1), Err(Refusal::Dry));
    assert_eq!((unary(not, 0), unary(not, 5)), (Ok(1), Ok(0)));
    for op in ALL.into_iter().filter(|op| *op != not) {
        assert_eq!(unary(op, 0), Err(Refusal::Arity));
    }
}
