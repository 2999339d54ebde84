//! Single values for the list, some of every row of document 01's tables.

use super::entry::{Entry, Mark};
use crate::{
    coverage::Coverage,
    numbers::Random,
    rules::{
        ours, paper,
        question::{Question, Rule},
        questions,
        rows::{self, Rows},
        rust::{self, Rust},
    },
};
use std::collections::BTreeMap;

/// How many of each row and side, answered and refused.
const OF_EACH: usize = 3;
/// And how many more after each number of discarded words.
const OF_DISCARDED: usize = 1;
/// So many or more are counted as one.
const MANY: u64 = 3;
const SEED: u64 = 7;

/// A row's place, the side, the answer's number, and the words that its range discarded.
type Class = (usize, usize, u64, u64);

pub fn collect(coverage: &mut Coverage) -> Vec<Entry> {
    let chosen = chosen();
    let mut rows = Rows::new();
    let entries = chosen.iter().map(|question| {
        rows.count(question, paper::answer(question));
        entry(question)
    });
    let entries = entries.collect();
    rows.print(coverage);
    entries
}

/// Any of a class, each as likely as the others.
fn chosen() -> Vec<Question> {
    let mut random = Random::new(SEED);
    let mut classes: BTreeMap<Class, (u64, Vec<Question>)> = BTreeMap::new();
    questions::ask(&mut |question| {
        let class = class(&question);
        let most = if class.3 > 0 { OF_DISCARDED } else { OF_EACH };
        let (seen, kept) = classes.entry(class).or_default();
        *seen += 1;
        let place = random.below(*seen) as usize;
        if kept.len() < most {
            kept.push(question);
        } else if place < most {
            kept[place] = question;
        }
    });
    classes.into_values().flat_map(|(_, kept)| kept).collect()
}

fn class(question: &Question) -> Class {
    let answer = paper::answer(question);
    let discarded = rows::discarded(question, answer).min(MANY);
    let (place, side) = (rows::place(question), question.side as usize);
    (place, side, answer[0], discarded)
}

fn entry(question: &Question) -> Entry {
    let paper = paper::answer(question);
    let mark = match rust::answer(question) {
        Rust::Panics(place) => Mark::Panics(place.known().expect("a known place")),
        Rust::NotAsked => Mark::Refused,
        Rust::Answers(rust) => {
            assert_eq!(rust, paper, "the Rust and the plain reading differ");
            dry(paper)
        }
    };
    let [number, value, after] = paper;
    let number = if question.rule == Rule::Table {
        0
    } else {
        number
    };
    let asked = ours::numbers(question);
    Entry::rule(
        mark,
        asked,
        question.words().to_vec(),
        [number, value, after],
    )
}

/// Running dry is refusal 12 for a single value.
fn dry([number, _, _]: [u64; 3]) -> Mark {
    match number {
        12 => Mark::Refused,
        _ => Mark::TheRust,
    }
}
