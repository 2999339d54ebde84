//! Times `mulo` alone, beside `addo`, whose time is next to that of a call: the average
//! over many pairs, in the fastest of many turns, of words as they come and of small ones.

use plain::limits::Random;
use std::{
    hint::black_box,
    time::{Duration, Instant},
};

const PAIRS: usize = 1 << 12;
const TURNS: usize = 1 << 12;

/// With their numbers (crates/numbered/specs/Bitvec.antt).
const OPERATIONS: [(&str, u64); 2] = [("addo", 5), ("mulo", 6)];

/// The words of a pair have at most so many bits.
const WIDTHS: [u32; 4] = [64, 33, 32, 8];

pub fn print() {
    let widths = WIDTHS.map(|bits| format!("{bits:4} bits"));
    println!("{:11}{}", "ns a call", widths.join(""));
    for (name, op) in OPERATIONS {
        let times = WIDTHS.map(|bits| format!("{:9.2}", nanoseconds(op, bits)));
        println!("{name:11}{}", times.join(""));
    }
}

fn nanoseconds(op: u64, bits: u32) -> f64 {
    let pairs = pairs(bits);
    let fastest = (0..TURNS).map(|_| turn(op, &pairs)).min();
    fastest.expect("there are turns").as_nanos() as f64 / PAIRS as f64
}

fn turn(op: u64, pairs: &[[u64; 2]]) -> Duration {
    let start = Instant::now();
    for &[a, b] in pairs {
        black_box(ours::bitvec(op, a, b));
    }
    start.elapsed()
}

fn pairs(bits: u32) -> Vec<[u64; 2]> {
    let mut random = Random(bits.into());
    let mut word = || random.word() >> (u64::BITS - bits);
    (0..PAIRS).map(|_| [word(), word()]).collect()
}
