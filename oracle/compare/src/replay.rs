//! Reads a list that `record` wrote, and holds the proved crates to it.

use crate::{
    coverage::Coverage,
    record::LENT,
    report::{conclude, Asked, Report},
};
use ours::Queue;

const TABLE: u32 = 0;

/// An entry: twelve fields, and what they give the lengths of.
#[derive(Debug)]
struct Entry {
    place: u64,
    fields: [u32; 12],
    file: Vec<u8>,
    words: Vec<u64>,
    values: Vec<u64>,
}

impl Asked for Entry {
    fn size(&self) -> Vec<u64> {
        vec![self.place]
    }
}

/// What is left of the list.
struct Reader<'a>(&'a [u8]);

impl Reader<'_> {
    fn bytes(&mut self, count: usize) -> &[u8] {
        let (bytes, rest) = self.0.split_at(count);
        self.0 = rest;
        bytes
    }

    fn field(&mut self) -> u32 {
        u32::from_le_bytes(self.bytes(4).try_into().expect("four bytes"))
    }

    fn numbers(&mut self, count: u32) -> Vec<u64> {
        let (eights, _) = self.bytes(8 * count as usize).as_chunks();
        let number = |eight: &[u8; 8]| u64::from_le_bytes(*eight);
        eights.iter().map(number).collect()
    }

    fn entry(&mut self, place: u64) -> Entry {
        let fields: [u32; 12] = std::array::from_fn(|_| self.field());
        let [_, _, file, words, values, ..] = fields;
        Entry {
            place,
            fields,
            file: self.bytes(file as usize).to_vec(),
            words: self.numbers(words),
            values: self.numbers(values),
        }
    }
}

/// `replay FILE`
pub fn replay() -> bool {
    let Some(list) = std::env::args().nth(2) else {
        eprintln!("usage: compare replay FILE");
        std::process::exit(2);
    };
    let list = std::fs::read(list).expect("the list can be read");
    let mut reader = Reader(&list);
    let mut waiting = Queue::default();
    let mut marks = [0; 7];
    for place in 0..reader.field() {
        let entry = reader.entry(place.into());
        marks[entry.fields[1] as usize] += 1;
        ask(entry, &mut waiting);
    }
    assert!(reader.0.is_empty(), "nothing follows the last entry");
    let mut report = Report::new("entries");
    waiting
        .answer(|(entry, answer): (Entry, Vec<u64>), ours| report.compare(&entry, ours, &answer));
    print(marks);
    conclude("replay", &[report])
}

fn print([rust, a, b, c, d, refused, narrow]: [u64; 7]) {
    let mut coverage = Coverage::default();
    let panics = a + b + c + d;
    let counts = [
        (rust, "the Rust's"),
        (panics, "where it panics"),
        (refused, "refused"),
        (narrow, "narrow"),
    ];
    coverage.line("answers", &counts, true);
}

fn ask(entry: Entry, waiting: &mut Queue<(Entry, Vec<u64>)>) {
    waiting.lend_words(&entry.words);
    match entry.fields[0] {
        0 => ask_search(entry, waiting),
        1 => ask_rule(entry, waiting),
        kind => panic!("kind {kind} is unknown"),
    }
}

fn ask_search(entry: Entry, waiting: &mut Queue<(Entry, Vec<u64>)>) {
    let [_, _, _, _, room, budget, answer @ ..] = entry.fields;
    waiting.lend_file(&entry.file);
    let answer = answer.map(u64::from).into_iter();
    let answer = answer.chain(entry.values.iter().copied()).collect();
    waiting.solve((entry, answer), budget, &vec![LENT; room as usize]);
}

/// The library's answer of the table begins with 1.
fn ask_rule(entry: Entry, waiting: &mut Queue<(Entry, Vec<u64>)>) {
    let [_, _, _, _, _, at, number, rule, op, side, after, _] = entry.fields.map(u64::from);
    let [s, t, value] = entry.values[..] else {
        panic!("a rule has three values");
    };
    let number = number + u64::from(entry.fields[7] == TABLE);
    let answer = vec![number, value, after];
    waiting.rule((entry, answer), [rule, op, side, s, t, at]);
}
