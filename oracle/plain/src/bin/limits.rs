//! Prints how many cases of `plain::limits` there are for each answer. `limits FOLDER`
//! writes the largest graphs of `plain::cycles` instead, each as FOLDER/NAME/graph,
//! so that a program's check can be timed on them.

use std::collections::BTreeMap;
use std::path::Path;
use std::{env, fs, io};

fn main() -> io::Result<()> {
    match env::args_os().nth(1) {
        Some(folder) => write_largest(Path::new(&folder)),
        None => {
            print_counts();
            Ok(())
        }
    }
}

fn print_counts() {
    let mut counts: BTreeMap<u32, usize> = BTreeMap::new();
    for (_, file) in plain::limits::cases() {
        let number = match plain::file::check(&file) {
            Ok(_) => 0,
            Err(refusal) => refusal.number(),
        };
        *counts.entry(number).or_default() += 1;
    }
    for (number, count) in &counts {
        match number {
            0 => println!("accepted   {count:6}"),
            _ => println!("refused {number:2} {count:6}"),
        }
    }
    println!("cases      {:6}", counts.values().sum::<usize>());
}

fn write_largest(folder: &Path) -> io::Result<()> {
    for (name, graph) in plain::cycles::largest() {
        fs::create_dir_all(folder.join(name))?;
        let file = plain::file::encode(&graph, b"");
        fs::write(folder.join(name).join("graph"), file)?;
        println!("{name}");
    }
    Ok(())
}
