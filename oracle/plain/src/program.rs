//! Section "The program", and the program of Q-2.

use crate::file::{check, Graph, Node};
use crate::listing;
use crate::search::{solve_unlogged, Outcome, Run};
use crate::Refusal;

/// "budget 100,000".
pub const BUDGET: u32 = 100_000;

/// "up to 4,096 little-endian words".
pub const MOST_WORDS: usize = 4_096;

/// What `retrysolve` prints for the bytes of file `graph` (none: "A file that
/// can't be opened counts as empty") and those of standard input.
pub fn prints(file: Option<&[u8]>, stdin: &[u8]) -> String {
    let file = file.unwrap_or(&[]);
    match answer(file, &words(stdin)) {
        Err(refusal) => refused(refusal),
        Ok((graph, run)) => solution(&graph, &run),
    }
}

/// What `retrylist` prints for the bytes of file `graph`: the listing, or the refusal
/// as `retrysolve` prints it. Its buffer has room for every listing.
pub fn lists(file: Option<&[u8]>) -> String {
    listing::text(file.unwrap_or(&[])).unwrap_or_else(refused)
}

/// "up to 4,096 little-endian words of 8 bytes from standard input (a rest
/// under 8 is ignored)".
pub fn words(stdin: &[u8]) -> Vec<u64> {
    let eights = stdin.chunks_exact(8).take(MOST_WORDS);
    eights
        .map(|eight| u64::from_le_bytes(eight.try_into().expect("eight bytes")))
        .collect()
}

/// The run of the program: its value buffer is exactly n long.
fn answer(file: &[u8], words: &[u64]) -> Result<(Graph, Run), Refusal> {
    let graph = check(file)?;
    let run = solve_unlogged(file, words, BUDGET, graph.count)?;
    Ok((graph, run))
}

/// "a refusal prints `refused N`, with the id after a space for 4 and 5." 13 is
/// "printed like 5".
fn refused(refusal: Refusal) -> String {
    match refusal.id() {
        Some(id) => format!("refused {} {}\n", refusal.number(), id),
        None => format!("refused {}\n", refusal.number()),
    }
}

/// "solved rounds=1 lost=0 steps=2 words=7"; "`spent` or `dry` replace the first
/// word"; "Each later line is an input in id order: id, label, value."
fn solution(graph: &Graph, run: &Run) -> String {
    let result = match run.result {
        Outcome::Solved => "solved",
        Outcome::Spent => "spent",
        Outcome::Dry => "dry",
    };
    let mut text = format!(
        "{} rounds={} lost={} steps={} words={}\n",
        result, run.rounds, run.lost, run.steps, run.words
    );
    for (id, node) in graph.nodes.iter().enumerate() {
        if let Node::Input(label, _) = node {
            text += &format!("x{} {} {}\n", id, label, run.values[id]);
        }
    }
    text
}
