//! Times our search and the original Rust's on the same graphs with the same words;
//! with the argument `mulo` that operation alone.

mod families;
mod mulo;
mod policy;
mod runs;
mod table;

use families::{Family, FAMILIES};
use policy::Policy;
use table::Row;

const STEPS: u64 = 100_000;

fn main() {
    monster::refuse_other_builds();
    assert!(ours::LINKED, "the time of an emulated search says nothing about it");
    match std::env::args().nth(1).as_deref() {
        Some("mulo") => mulo::print(),
        _ => searches(),
    }
}

fn searches() {
    table::begin();
    for family in &FAMILIES {
        let rows = family.sizes.iter().map(|size| row(family, *size));
        table::print(&rows.collect::<Vec<Row>>());
    }
    table::end();
}

/// A short run first, so that neither side is the first to touch the graph.
fn row(family: &Family, size: usize) -> Row {
    let mut policy = Policy::default();
    (family.build)(&mut policy, size);
    runs::run(&policy, family.solvable, STEPS / 100);
    let runs = runs::run(&policy, family.solvable, STEPS);
    Row {
        name: format!("{} {size}", family.name),
        nodes: policy.nodes.len(),
        runs,
    }
}
