//! Prints the table: steps a second, their ratio, and how the time of a step grows.

use crate::runs::Runs;
use std::time::Duration;

pub struct Row {
    pub name: String,
    pub nodes: usize,
    pub runs: Runs,
}

pub fn begin() {
    let times = "    ours, steps/s  theirs, steps/s     ratio   ours grows  theirs grows";
    println!(
        "{:34}{:>7}{:>8}{:>9}{times}",
        "graph", "nodes", "runs", "steps"
    );
}

/// The graphs of a family: the first is the smallest.
pub fn print(rows: &[Row]) {
    for row in rows {
        let Row { name, nodes, runs } = row;
        print!("{name:34}{nodes:7}{:8}{:9}", runs.runs, runs.steps);
        print_times(&rows[0].runs, runs);
    }
}

fn print_times(smallest: &Runs, runs: &Runs) {
    let [ours, theirs] = step_times(runs);
    let [ours_first, theirs_first] = step_times(smallest);
    let (second, ratio) = (1.0, theirs / ours);
    print!("{:17.0}{:17.0}{ratio:10.3}", second / ours, second / theirs);
    println!("{:13.2}{:14.2}", ours / ours_first, theirs / theirs_first);
}

/// Seconds a step: ours, theirs.
fn step_times(runs: &Runs) -> [f64; 2] {
    let time = |whole: Duration| whole.as_secs_f64() / runs.steps as f64;
    [time(runs.ours), time(runs.theirs)]
}

pub fn end() {
    println!();
    println!("ratio: our steps a second over theirs; above 1 we are faster");
    println!("grows: the time of a step, as a multiple of the family's first graph");
}
