//! What the entries show, so that everything is shown, and nothing too often.

use crate::{
    numbers::Random,
    search::{cells::cell, file, log, questions::Seen, roots::place, widths},
};
use monster::End;
use plain::Refusal;
use std::collections::HashMap;

/// An entry that shows something fewer have shown is always taken, another one now
/// and then.
const ENOUGH: u32 = 6;
/// Of widths, and of what graphs with inputs of fewer than 64 bits show.
const ENOUGH_NARROW: u32 = 1;
const NOW_AND_THEN: u64 = 2_000;
const SEED: u64 = 6;

/// An operator with side, kind of value and ending; or, behind the operators'
/// numbers, a kind of root with its ending, a place of panics, a refusal with its id, the
/// width of an input and whether a round is lost for it, or that ranges discarded words
/// (how many, and how many in a value left unfinished), with the ending. Of a run the last number says
/// whether its graph is sorted, or narrow.
pub type Thing = [usize; 5];
const ROOT: usize = 100;
const PANIC: usize = 101;
const REFUSAL: usize = 102;
const WIDTH: usize = 103;
const DISCARDED: usize = 104;
const NARROW: usize = 2;

pub struct Shown {
    counts: HashMap<Thing, u32>,
    random: Random,
}

impl Shown {
    pub fn new() -> Shown {
        Shown {
            counts: HashMap::new(),
            random: Random::new(SEED),
        }
    }

    pub fn wants(&mut self, things: &[Thing]) -> bool {
        let count = |thing: &Thing| self.counts.get(thing).copied().unwrap_or(0);
        let rare = |thing: &Thing| count(thing) < enough(thing);
        let wanted = things.iter().any(rare) || self.random.below(NOW_AND_THEN) == 0;
        if wanted {
            for thing in things {
                *self.counts.entry(*thing).or_default() += 1;
            }
        }
        wanted
    }
}

fn enough(thing: &Thing) -> u32 {
    match thing {
        [WIDTH, ..] | [.., NARROW] => ENOUGH_NARROW,
        _ => ENOUGH,
    }
}

pub fn by_run(seen: &Seen) -> Vec<Thing> {
    let plan = &seen.case.plan;
    let form = match plan.is_wide() {
        true => usize::from(plan.is_sorted()),
        false => NARROW,
    };
    let rounds = 0..=seen.paper.log.rounds.len();
    let steps = rounds.flat_map(|round| log::steps(seen.case, seen.paper, round));
    let end = seen.paper.result as usize;
    let cells = steps.filter_map(|step| cell(plan, &step));
    let mut things: Vec<Thing> = cells
        .map(|[op, side, kind]| [op, side, kind, end, form])
        .collect();
    things.extend(widths::inputs(plan).map(|width| [WIDTH, width, 0, 0, 0]));
    let lost = widths::lost(plan, seen.paper).into_iter();
    things.extend(lost.map(|width| [WIDTH, width, 1, 0, 0]));
    things.sort();
    things.dedup();
    let root = file::kind(&plan.nodes[plan.root]) as usize;
    let rust = seen.rust.map(|rust| &rust.end);
    things.push([ROOT, root, rust.map_or(end, place), 0, form]);
    if let Some(run) = seen.rust.filter(|run| !run.discarded.is_empty()) {
        let counts = [run.discarded.len(), run.discarded_unfinished].map(|count| count.min(2));
        things.push([DISCARDED, counts[0], counts[1], place(&run.end), form]);
    }
    if let Some(End::Panicked(place)) = rust {
        let known = place.known().into_iter();
        things.extend(known.map(|known| [PANIC, known as usize, 0, 0, form]));
    }
    things
}

pub fn by_refusal(refusal: Refusal) -> Vec<Thing> {
    let id = refusal.id().unwrap_or(0);
    vec![[REFUSAL, refusal.number() as usize, id, 0, 0]]
}
