//! One entry of the list: twelve fields of four bytes, then the bytes of the graph
//! file, then words and values of eight bytes each, all little endian.

/// Whose answer an entry holds.
#[derive(Clone, Copy, PartialEq, Eq)]
pub enum Mark {
    TheRust,
    /// The plain reading's, since the Rust panics at this one of the known places.
    Panics(monster::Known),
    /// The plain reading's, since the question is refused.
    Refused,
    /// The plain reading's, since an input has fewer than 64 bits.
    Narrow,
}

impl Mark {
    fn number(self) -> u32 {
        match self {
            Mark::TheRust => 0,
            Mark::Panics(known) => 1 + known as u32,
            Mark::Refused => 5,
            Mark::Narrow => 6,
        }
    }
}

/// What the value buffer of a search holds before: a refusal leaves it so.
pub const LENT: u64 = u64::MAX;

pub struct Entry {
    kind: u32,
    mark: Mark,
    file: Vec<u8>,
    words: Vec<u64>,
    values: Vec<u64>,
    /// The seven fields that only their kind explains.
    fields: [u64; 7],
}

impl Entry {
    /// Budget, refusal or 0; end or id, rounds, lost rounds, steps, words taken.
    pub fn search(
        mark: Mark,
        file: Vec<u8>,
        words: Vec<u64>,
        budget: u32,
        answer: &[u64],
    ) -> Entry {
        let (numbers, values) = answer.split_at(6);
        let mut fields = [budget.into(); 7];
        fields[1..].copy_from_slice(numbers);
        Entry {
            kind: 0,
            mark,
            file,
            words,
            values: values.to_vec(),
            fields,
        }
    }

    /// Place, refusal or 0; rule, operator, side, the place after, 0. The values are
    /// s, t and the answer.
    pub fn rule(mark: Mark, asked: [u64; 6], words: Vec<u64>, answer: [u64; 3]) -> Entry {
        let [rule, op, side, s, t, at] = asked;
        let [number, value, after] = answer;
        Entry {
            kind: 1,
            mark,
            file: Vec::new(),
            words,
            values: vec![s, t, value],
            fields: [at, number, rule, op, side, after, 0],
        }
    }

    pub fn bytes(&self) -> Vec<u8> {
        let lengths = [self.file.len(), self.words.len(), self.values.len()];
        let fields = [self.kind, self.mark.number()]
            .into_iter()
            .chain(lengths.map(|length| length as u32))
            .chain(self.fields.map(|field| field as u32));
        let numbers = self.words.iter().chain(&self.values);
        let mut bytes: Vec<u8> = fields.flat_map(u32::to_le_bytes).collect();
        bytes.extend(&self.file);
        bytes.extend(numbers.flat_map(|number| number.to_le_bytes()));
        bytes
    }
}
