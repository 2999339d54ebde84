//! Prints how often each thing occurred, and remembers what did not and should.

#[derive(Default)]
pub struct Coverage {
    wrong: Vec<String>,
}

impl Coverage {
    /// A line of counts: each must be above 0, or 0 where it is impossible.
    pub fn line(&mut self, name: &str, counts: &[(u64, &str)], possible: bool) {
        let name = match possible {
            true => name.to_owned(),
            false => format!("{name} (impossible)"),
        };
        print(&name, counts);
        if counts.iter().any(|(count, _)| (*count > 0) != possible) {
            self.wrong.push(name);
        }
    }

    /// Whether all is as it must be.
    pub fn conclude(self) -> bool {
        for name in &self.wrong {
            println!("NOT AS IT MUST BE: {name}");
        }
        self.wrong.is_empty()
    }
}

fn print(name: &str, counts: &[(u64, &str)]) {
    let counts = counts.iter().map(|(count, of)| format!("{count:10} {of}"));
    println!("{name:82}{}", counts.collect::<String>());
}
