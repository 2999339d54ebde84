//! Counts comparisons and keeps the smallest difference.

use std::fmt::Debug;

/// What was asked, and how small it is: of two lists the first number decides.
pub trait Asked: Debug {
    fn size(&self) -> Vec<u64>;
}

pub struct Report {
    name: &'static str,
    compared: u64,
    different: u64,
    smallest: Option<(Vec<u64>, String)>,
}

impl Report {
    pub fn new(name: &'static str) -> Report {
        Report {
            name,
            compared: 0,
            different: 0,
            smallest: None,
        }
    }

    pub fn compare<A: PartialEq + Debug>(&mut self, asked: &impl Asked, found: A, expected: A) {
        self.compared += 1;
        if found != expected {
            self.different += 1;
            self.keep(asked, || format!("{found:?} instead of {expected:?}"));
        }
    }

    /// A text is made for the smallest alone: a difference can occur millions of times.
    fn keep(&mut self, asked: &impl Asked, answers: impl FnOnce() -> String) {
        let size = asked.size();
        if self.smallest.as_ref().is_none_or(|(kept, _)| size < *kept) {
            self.smallest = Some((size, format!("{asked:?}: {}", answers())));
        }
    }

    fn print(&self) {
        println!("{:14} {:9} comparisons", self.name, self.compared);
        if let Some((_, text)) = &self.smallest {
            println!("{:14} {:9} DIFFERENT: {text}", "", self.different);
        }
    }
}

/// Prints a line for each report and their sum; answers whether nothing differs.
pub fn conclude(command: &str, reports: &[Report]) -> bool {
    reports.iter().for_each(Report::print);
    let compared: u64 = reports.iter().map(|report| report.compared).sum();
    let different: u64 = reports.iter().map(|report| report.different).sum();
    println!("{command}: {compared} comparisons, {different} differences");
    different == 0
}
