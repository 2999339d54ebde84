//! What is changed in monster.rs: a piece of one line, and what stands there instead.

pub type Patch = (&'static str, &'static str);

/// For the build that is timed: the clock alone, and nothing that watches.
pub const TIMED: [Patch; 1] = [(
    "use std::time::{Duration, Instant};",
    "use crate::steps::{Duration, Instant};",
)];

/// For the build that is watched.
pub const WATCHED: [Patch; 15] = [
    // The clock becomes the step budget: `elapsed() > timeout` stays as it is,
    // and counts steps.
    (
        "use std::time::{Duration, Instant};",
        "use crate::clock::{Duration, Instant};",
    ),
    // Rules that are called one by one.
    ("fn is_invertible(", "pub fn is_invertible("),
    ("fn compute_inverse_value(", "pub fn compute_inverse_value("),
    (
        "fn compute_consistent_value(",
        "pub fn compute_consistent_value(",
    ),
    (
        "fn compute_inverse_value_for_unary_op(",
        "pub fn compute_inverse_value_for_unary_op(",
    ),
    // The values after the start and after each completed round.
    (
        "let ab = initialize_ab(formula);",
        "let ab = crate::watch::started(initialize_ab(formula));",
    ),
    (
        "update_assignment(formula, &mut ab, n, t);",
        "update_assignment(formula, &mut ab, n, t); crate::watch::round(&ab);",
    ),
    // What a completed step chose: node, side and value,
    (
        "let v = value(formula, n, ns, side, t, &ab);",
        "let v = crate::watch::chose(n, side, value(formula, n, ns, side, t, &ab));",
    ),
    (
        "let v = compute_inverse_value_for_unary_op(op, t);",
        "let v = crate::watch::passed(n, compute_inverse_value_for_unary_op(op, t));",
    ),
    // and whether the table said yes and the inverse value was taken.
    (
        "if is_invertible(*op, s, t, side) {",
        "if crate::watch::table(is_invertible(*op, s, t, side)) {",
    ),
    (
        "if choose_inverse {",
        "if crate::watch::inverse(choose_inverse) {",
    ),
    // Where a coin, a value or a choosing word is drawn to its end: a value left
    // unfinished counts none of its words.
    (
        "} else if random() {",
        "} else if crate::watch::finished(random()) {",
    ),
    (
        "let consistent = compute_consistent_value(*op, t, side);",
        "let consistent = crate::watch::finished(compute_consistent_value(*op, t, side));",
    ),
    (
        "let inverse = compute_inverse_value(*op, s, t, side);",
        "let inverse = crate::watch::finished(compute_inverse_value(*op, s, t, side));",
    ),
    (
        "rand::thread_rng().gen_range(0.0_f64..=1.0_f64) < CHOOSE_INVERSE;",
        "crate::watch::finished(rand::thread_rng().gen_range(0.0_f64..=1.0_f64)) < CHOOSE_INVERSE;",
    ),
];
