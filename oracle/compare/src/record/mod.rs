//! Writes a fixed list of answers, for a program that has no Rust at hand.

mod entry;
mod rules;
mod searches;
mod shown;

use crate::coverage::Coverage;
use entry::Entry;
pub use entry::LENT;
use std::{env, fs};

/// `record N FILE`: so many entries; whether everything occurs among them.
pub fn record() -> bool {
    let argument = |place: usize| env::args().nth(place);
    let count = argument(2).and_then(|text| text.parse().ok());
    let (Some(count), Some(file)) = (count, argument(3)) else {
        eprintln!("usage: compare record N FILE");
        std::process::exit(2);
    };
    let mut coverage = Coverage::default();
    let entries = collect(count, &mut coverage);
    let list = list(&entries);
    println!("{} entries, {} bytes", entries.len(), list.len());
    fs::write(file, list).expect("the list can be written");
    coverage.conclude()
}

/// Searches first; the single values are as many for every N.
fn collect(count: usize, coverage: &mut Coverage) -> Vec<Entry> {
    let rules = rules::collect(coverage);
    let mut entries = searches::collect(count.saturating_sub(rules.len()), coverage);
    entries.extend(rules);
    entries
}

/// The number of entries in four bytes, and the entries.
fn list(entries: &[Entry]) -> Vec<u8> {
    let mut list = (entries.len() as u32).to_le_bytes().to_vec();
    entries.iter().for_each(|entry| list.extend(entry.bytes()));
    list
}
