//! Compares the proved crates with the original Rust.

mod bitvec;
mod coverage;
mod files;
mod listing;
mod numbers;
mod record;
mod replay;
mod report;
mod rules;
mod search;

fn main() {
    monster::refuse_other_builds();
    let command = std::env::args().nth(1).unwrap_or_default();
    let equal = match command.as_str() {
        "bitvec" => bitvec::compare(),
        "files" => files::compare(),
        "listing" => listing::compare(),
        "rules" => rules::compare(),
        "search" => search::compare(),
        "record" => record::record(),
        "replay" => replay::replay(),
        _ => {
            eprintln!("usage: compare bitvec|files|listing|rules|search|record|replay");
            std::process::exit(2);
        }
    };
    std::process::exit(if equal { 0 } else { 1 });
}
