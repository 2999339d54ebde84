//! Graph files at and one off every limit of "The graph file" and "Numbers of
//! refusal", and files damaged at random. A comparison feeds each of them to a
//! `check` and holds the answer against [`crate::file::check`].

use crate::cycles::{self, new_ids, renamed};
use crate::file::{encode, graph, holds, operands, record, Graph, Node};
use crate::operators::{Operator, ALL};
use crate::widths::{self, random_width};
use crate::M;

/// A named graph file.
pub type Case = (String, Vec<u8>);

/// Every case, always the same ones in the same order.
pub fn cases() -> impl Iterator<Item = Case> {
    let groups: Vec<fn() -> Vec<Case>> = vec![
        sizes,
        counts,
        distances,
        trailers,
        operand_ids,
        cycles::at_every_place,
        cycles::two_cycles,
        cycles::tangles,
        cycles::of_the_largest,
        roots,
        constant_roots,
        zero_bytes,
        widths::at_inputs,
        widths::beside_other_faults,
        unknown_kinds,
        notes,
        several_faults,
        flipped_bits,
        flipped_bits_of_the_largest,
        damaged,
        noise,
    ];
    groups.into_iter().flat_map(|group| group())
}

/// A graph in which node k is of kind k, for every kind; its root is node 10.
pub fn every_kind() -> Graph {
    use Operator::*;
    let nodes = vec![
        Node::Constant(1),
        Node::Input(7, 0),
        Node::Binary(Add, 0, 1),
        Node::Binary(Sub, 2, 0),
        Node::Binary(Mul, 3, 2),
        Node::Binary(Divu, 4, 1),
        Node::Binary(Sltu, 5, 0),
        Node::Binary(Remu, 4, 5),
        Node::Unary(6),
        Node::Binary(Equals, 7, 8),
        Node::Binary(BitwiseAnd, 9, 8),
    ];
    graph(nodes, 10)
}

/// n nodes: an input, then every node the Not of the one before it.
pub fn chain(n: usize) -> Graph {
    let node = |id: usize| match id {
        0 => Node::Input(0, 0),
        _ => Node::Unary(id - 1),
    };
    graph((0..n).map(node).collect(), n - 1)
}

/// "1 Size | file under 16 or over 65,536 bytes".
fn sizes() -> Vec<Case> {
    let mut cases = Vec::new();
    for length in [
        0, 1, 8, 15, 16, 17, 31, 32, 64_016, 65_535, 65_536, 65_537, 65_552,
    ] {
        cases.push((format!("{length} zero bytes"), vec![0; length]));
        cases.push((format!("{length} bytes 255"), vec![255; length]));
    }
    for graph in [every_kind(), chain(1), chain(4_000)] {
        let bare = encode(&graph, b"");
        for length in [65_535, 65_536, 65_537, 65_552] {
            let file = encode(&graph, &vec![b'n'; length - bare.len()]);
            cases.push((format!("n = {} in {length} bytes", graph.count), file));
        }
        for cut in [1, 15, 16, 17, bare.len() - 16, bare.len() - 15] {
            let name = format!("n = {} without its first {cut} bytes", graph.count);
            cases.push((name, bare[cut..].to_vec()));
            let name = format!("n = {} without its last {cut} bytes", graph.count);
            cases.push((name, bare[..bare.len() - cut].to_vec()));
        }
    }
    cases
}

/// "n records of 16 bytes (1 ≤ n ≤ 4,000)".
fn counts() -> Vec<Case> {
    let mut cases = Vec::new();
    for n in [
        1, 2, 3, 15, 16, 17, 255, 256, 257, 3_999, 4_000, 4_001, 4_095,
    ] {
        for note in [0, 1, 16] {
            if 16 * n + 16 + note > 65_537 {
                continue;
            }
            let file = encode(&chain(n), &vec![b'n'; note]);
            cases.push((format!("n = {n} and a note of {note}"), file));
        }
    }
    cases
}

/// "3 Span | distance 0, not a multiple of 16, over 64,000, or over length − 16".
fn distances() -> Vec<Case> {
    let mut cases = Vec::new();
    for (graph, note) in [
        (every_kind(), 0),
        (every_kind(), 40),
        (chain(1), 0),
        (chain(4_000), 0),
        (chain(4_000), 1_520),
    ] {
        let file = encode(&graph, &vec![0; note]);
        let span = 16 * graph.count as u32;
        let most = file.len() as u32 - 16;
        let mut tried = vec![
            0, 1, 8, 15, 16, 17, 24, 32, 63_984, 63_999, 64_000, 64_001, 64_008, 64_016,
        ];
        tried.extend([span - 16, span - 1, span, span + 1, span + 8, span + 16]);
        tried.extend([
            most - 1,
            most,
            most + 1,
            most / 16 * 16,
            most / 16 * 16 + 16,
        ]);
        tried.extend([1 << 16, (1 << 16) + 16, 1 << 31, u32::MAX - 15, u32::MAX]);
        for distance in tried {
            let name = format!("distance {distance}, n = {}, a note of {note}", graph.count);
            cases.push((name, with_field(&file, 0, distance)));
        }
    }
    cases
}

/// "2 Trailer | version not 1, or last field not zero".
fn trailers() -> Vec<Case> {
    let file = encode(&every_kind(), b"note");
    let mut cases = Vec::new();
    for version in [
        0,
        1,
        2,
        3,
        255,
        256,
        257,
        65_537,
        1 << 24,
        (1 << 24) + 1,
        (1 << 31) + 1,
        u32::MAX,
    ] {
        let name = format!("version {version}");
        cases.push((name, with_field(&file, 2, version)));
    }
    for last in [0, 1, 128, 255, 256, 1 << 16, 1 << 24, 1 << 31, u32::MAX] {
        for version in [0, 1, 2] {
            let name = format!("last field {last}, version {version}");
            cases.push((name, with_field(&with_field(&file, 2, version), 3, last)));
        }
    }
    cases
}

/// "5 now means an operand id not below n"; other ids may make a cycle.
fn operand_ids() -> Vec<Case> {
    let mut cases = Vec::new();
    let graph = every_kind();
    let n = graph.count;
    for id in 2..n {
        for place in 0..operands(&graph.nodes[id]).len() {
            let mut tried = vec![0, 1, id - 1, id, id + 1, id + 16, n - 1, n, n + 1];
            tried.extend([
                id << 8,
                id << 16,
                id << 24,
                1 << 16,
                1 << 24,
                1 << 31,
                u32::MAX as usize,
            ]);
            for operand in tried {
                let mut file = encode(&graph, b"note");
                put_u32(&mut file, 4 + 16 * id + 4 + 4 * place, operand as u32);
                cases.push((format!("operand {place} of node {id} is {operand}"), file));
            }
        }
    }
    for op in ALL {
        let node = match op {
            Operator::Not => Node::Unary(0),
            _ => Node::Binary(op, 0, 0),
        };
        let file = encode(&crate::file::graph(vec![node], 0), b"");
        cases.push((format!("{op:?} is node 0"), file));
    }
    cases
}

/// "6 Root | root ≥ n".
fn roots() -> Vec<Case> {
    let mut cases = Vec::new();
    for graph in [every_kind(), chain(1), chain(4_000)] {
        let n = graph.count;
        let mut tried: Vec<usize> = (0..usize::min(n, 12)).collect();
        tried.extend([
            n - 1,
            n,
            n + 1,
            n + 16,
            16 * n,
            256,
            1 << 16,
            1 << 24,
            1 << 31,
            u32::MAX as usize,
        ]);
        for root in tried {
            let file = with_field(&encode(&graph, b""), 1, root as u32);
            cases.push((format!("root {root} of n = {n}"), file));
        }
    }
    cases
}

/// "7 FixedRoot | root is a constant other than 1".
fn constant_roots() -> Vec<Case> {
    let mut cases = Vec::new();
    for value in [
        0,
        1,
        2,
        3,
        128,
        255,
        256,
        257,
        1 << 32,
        (1 << 32) + 1,
        1 << 56,
        (1 << 63) + 1,
        M - 1,
        M,
    ] {
        let alone = graph(vec![Node::Constant(value)], 0);
        cases.push((format!("constant root {value}"), encode(&alone, b"")));
        let first = graph(vec![Node::Constant(value), Node::Unary(0)], 0);
        cases.push((
            format!("constant root {value} below another node"),
            encode(&first, b"n"),
        ));
        let label = graph(vec![Node::Input(value, 0)], 0);
        cases.push((
            format!("input root with label {value}"),
            encode(&label, b""),
        ));
    }
    cases
}

/// "4 Record(id) | … a non-zero byte that must be zero": each byte of each
/// kind, those that may hold something too.
fn zero_bytes() -> Vec<Case> {
    let mut cases = Vec::new();
    for kind in 0..=10 {
        for byte in 1..16 {
            for value in [1, 128, 255] {
                let mut file = encode(&every_kind(), b"note");
                file[4 + 16 * usize::from(kind) + byte] = value;
                let must = if holds(kind, byte) {
                    "may hold"
                } else {
                    "must be zero"
                };
                let name = format!("byte {byte} of kind {kind} ({must}) is {value}");
                cases.push((name, file));
            }
        }
    }
    cases
}

/// "4 Record(id) | unknown kind": each of 11 to 255, at several ids.
fn unknown_kinds() -> Vec<Case> {
    let mut cases = Vec::new();
    for kind in 11..=255 {
        for id in [0, 1, 5, 8, 10] {
            let mut file = encode(&every_kind(), b"note");
            file[4 + 16 * id] = kind;
            cases.push((format!("kind {kind} at node {id}"), file));
        }
    }
    for kind in 0..=10 {
        for id in 0..=10 {
            let mut file = encode(&every_kind(), b"");
            file[16 * id] = kind;
            cases.push((format!("kind {kind} over node {id}"), file));
        }
    }
    cases
}

/// "an optional note": several lengths, and notes that look like records.
fn notes() -> Vec<Case> {
    let mut cases = Vec::new();
    for graph in [every_kind(), chain(1), chain(4_000)] {
        for length in [
            0, 1, 2, 7, 8, 15, 16, 17, 31, 32, 100, 1_000, 1_519, 1_520, 1_521,
        ] {
            for byte in [0, 10, 255] {
                let name = format!("n = {} after a note of {length} bytes {byte}", graph.count);
                cases.push((name, encode(&graph, &vec![byte; length])));
            }
        }
        let good = record(&Node::Constant(2));
        cases.push((
            format!("n = {} after a record", graph.count),
            encode(&graph, &good),
        ));
        let bad = record(&Node::Unary(9));
        cases.push((
            format!("n = {} after a bad record", graph.count),
            encode(&graph, &bad),
        ));
        let whole = encode(&chain(2), b"");
        cases.push((
            format!("n = {} after a whole file", graph.count),
            encode(&graph, &whole),
        ));
    }
    cases
}

/// One fault made in a file of `every_kind` without a note.
type Fault = (&'static str, fn(&mut Vec<u8>));

/// Faults of every number, those of the records at different ids.
const FAULTS: [Fault; 14] = [
    ("7 constant root", |file| {
        file[8] = 2;
        put_u32(file, 11 * 16 + 4, 0);
    }),
    ("6 root", |file| put_u32(file, 11 * 16 + 4, 11)),
    ("13 at 4", |file| file[4 * 16 + 8] = 5),
    ("13 at 3", |file| file[3 * 16 + 4] = 3),
    ("5 at 2", |file| file[2 * 16 + 8] = 11),
    ("5 at 6", |file| file[6 * 16 + 4] = 12),
    ("5 at 8", |file| file[8 * 16 + 4] = 255),
    ("4 at 1, byte", |file| file[16 + 7] = 1),
    ("4 at 6, byte", |file| file[6 * 16 + 12] = 255),
    ("4 at 8, kind", |file| file[8 * 16] = 11),
    ("3 distance", |file| file[11 * 16] += 8),
    ("2 version", |file| file[11 * 16 + 8] = 2),
    ("2 last field", |file| file[11 * 16 + 15] = 1),
    ("1 size", |file| {
        let note = vec![0; 65_537 - file.len()];
        file.splice(0..0, note);
    }),
];

/// Every choice among the faults, all at once. "Checks run in this order."
fn several_faults() -> Vec<Case> {
    let mut cases = Vec::new();
    for set in 0..1 << (FAULTS.len() - 1) {
        cases.push(with_faults(set));
    }
    for fault in 0..FAULTS.len() {
        cases.push(with_faults(1 << fault | 1 << (FAULTS.len() - 1)));
    }
    cases
}

fn with_faults(set: usize) -> Case {
    let mut file = encode(&every_kind(), b"");
    let mut names = Vec::new();
    for (place, (name, fault)) in FAULTS.iter().enumerate() {
        if set >> place & 1 == 1 {
            fault(&mut file);
            names.push(*name);
        }
    }
    (format!("faults: {}", names.join(", ")), file)
}

/// Each bit of a file, in the note, the records and the trailer, flipped alone.
fn flipped_bits() -> Vec<Case> {
    let mut cases = Vec::new();
    for (what, graph, note) in [
        ("every kind", every_kind(), &b"a note of 16 byt"[..]),
        ("every kind, bare", every_kind(), b""),
        ("one input", chain(1), b"note"),
        ("one constant", graph(vec![Node::Constant(1)], 0), b""),
    ] {
        let file = encode(&graph, note);
        for bit in 0..8 * file.len() {
            cases.push((format!("bit {bit} of {what} flipped"), flipped(&file, bit)));
        }
    }
    cases
}

/// Bits of a file of 4,000 nodes flipped, in its first and last bytes.
fn flipped_bits_of_the_largest() -> Vec<Case> {
    let file = encode(&chain(4_000), b"");
    let bits = 8 * file.len();
    let mut cases = Vec::new();
    for bit in (0..256).chain(bits - 384..bits) {
        cases.push((
            format!("bit {bit} of n = 4,000 flipped"),
            flipped(&file, bit),
        ));
    }
    cases
}

/// Ten thousand random files, most of them damaged.
fn damaged() -> Vec<Case> {
    let mut random = Random(1);
    (0..10_000)
        .map(|number| damaged_file(&mut random, number))
        .collect()
}

fn damaged_file(random: &mut Random, number: usize) -> Case {
    let n = 1 + random.below(24);
    let note = random.bytes(40);
    let mut file = encode(&random_graph(random, n), &note);
    let damages = random.below(4);
    for _ in 0..damages {
        damage(&mut file, random);
    }
    (format!("random file {number} with {damages} damages"), file)
}

/// One damage of a random kind.
fn damage(file: &mut Vec<u8>, random: &mut Random) {
    let length = file.len();
    if length < 48 {
        file.extend(random.bytes(16));
        return;
    }
    let place = random.below(length);
    let aligned = length - 16 - 16 * (1 + random.below(length / 16 - 1));
    match random.below(12) {
        0 => *file = flipped(file, random.below(8 * length)),
        1 => file[place] = random.word() as u8,
        2 => file.truncate(length - 1 - random.below(40)),
        3 => drop(file.drain(..1 + random.below(20))),
        4 => file.extend(random.bytes(20)),
        5 => drop(file.remove(place)),
        6 => file.insert(place, random.word() as u8),
        7 => file[aligned] = random.below(12) as u8,
        8 => put_u32(file, aligned + 4, random.below(length / 16) as u32),
        9 => put_u32(file, aligned + 8, random.below(length / 16) as u32),
        10 => put_u32(file, length - 12, random.below(length / 16 + 2) as u32),
        _ => put_u32(file, length - 16, 16 * random.below(length / 16 + 2) as u32),
    }
}

/// Two thousand files of nothing but random bytes before a sound trailer, or
/// with a random one.
fn noise() -> Vec<Case> {
    let mut random = Random(2);
    let mut cases = Vec::new();
    for number in 0..2_000 {
        let mut file = random.bytes(200);
        if number % 2 == 0 {
            let records = file.len() / 16;
            for field in [16 * records, random.below(records + 1), 1, 0] {
                file.extend((field as u32).to_le_bytes());
            }
        }
        cases.push((format!("noise {number}"), file));
    }
    cases
}

/// A sound graph of n nodes at random, most with new ids. Constants and labels are
/// small, large or anything; the root is an operator, an input or the constant 1.
pub fn random_graph(random: &mut Random, n: usize) -> Graph {
    let mut nodes = vec![random_leaf(random)];
    while nodes.len() < n {
        nodes.push(random_node(random, nodes.len()));
    }
    let root = match random.below(4) {
        0 => random.below(n),
        _ => n - 1,
    };
    if let Node::Constant(_) = nodes[root] {
        nodes[root] = Node::Constant(1);
    }
    let ids = new_ids(n, |most| random.below(most));
    renamed(&graph(nodes, root), &ids)
}

pub fn random_leaf(random: &mut Random) -> Node {
    let held = random.value();
    match random.below(3) {
        0 => Node::Constant(held),
        _ => Node::Input(held, random_width(random)),
    }
}

/// A leaf, or an operator over ids below a number.
pub fn random_node(random: &mut Random, most: usize) -> Node {
    match random.below(14) {
        kind @ 2..=10 => match Operator::of(kind as u8) {
            Some(Operator::Not) | None => Node::Unary(random.below(most)),
            Some(op) => Node::Binary(op, random.below(most), random.below(most)),
        },
        _ => random_leaf(random),
    }
}

/// The file with one bit flipped.
fn flipped(file: &[u8], bit: usize) -> Vec<u8> {
    let mut file = file.to_vec();
    file[bit / 8] ^= 1 << (bit % 8);
    file
}

/// The file with trailer field 0 (distance), 1 (root), 2 (version) or 3 (last)
/// replaced.
pub fn with_field(file: &[u8], field: usize, value: u32) -> Vec<u8> {
    let mut file = file.to_vec();
    let at = file.len() - 16 + 4 * field;
    put_u32(&mut file, at, value);
    file
}

pub fn put_u32(file: &mut [u8], at: usize, value: u32) {
    file[at..at + 4].copy_from_slice(&value.to_le_bytes());
}

/// A fixed sequence of words for each seed (splitmix64).
pub struct Random(pub u64);

impl Random {
    /// The next word.
    pub fn word(&mut self) -> u64 {
        self.0 = self.0.wrapping_add(0x9e3779b97f4a7c15);
        let z = (self.0 ^ (self.0 >> 30)).wrapping_mul(0xbf58476d1ce4e5b9);
        let z = (z ^ (z >> 27)).wrapping_mul(0x94d049bb133111eb);
        z ^ (z >> 31)
    }

    /// A number below another.
    pub fn below(&mut self, most: usize) -> usize {
        (self.word() % most as u64) as usize
    }

    /// Fewer bytes than so many.
    pub fn bytes(&mut self, most: usize) -> Vec<u8> {
        let length = self.below(most);
        (0..length).map(|_| self.word() as u8).collect()
    }

    /// A value that is often at an edge.
    pub fn value(&mut self) -> u64 {
        let w = self.word();
        match self.below(8) {
            0 => w % 3,
            1 => w % 20,
            2 => M - w % 3,
            3 => 1 << (w % 64),
            4 => (1_u64 << (w % 64)) - 1,
            5 => w >> (w % 64),
            6 => w << (w % 64),
            _ => w,
        }
    }
}

#[cfg(test)]
mod tests {
    use super::*;
    use crate::file::check;
    use crate::Refusal;
    use std::collections::BTreeMap;

    #[test]
    fn every_answer_of_a_file_occurs() {
        let mut seen = BTreeMap::new();
        for (_, file) in cases() {
            let number = match check(&file) {
                Ok(graph) => {
                    let note = &file[..file.len() - 16 - 16 * graph.count];
                    assert_eq!(encode(&graph, note), file);
                    0
                }
                Err(refusal) => refusal.number(),
            };
            *seen.entry(number).or_insert(0) += 1;
        }
        assert!(seen.keys().copied().eq((0..=7).chain([13])), "{seen:?}");
        assert!(seen.values().all(|count| *count > 20), "{seen:?}");
    }

    #[test]
    fn the_lowest_number_of_several_faults_wins() {
        let answer = |set| check(&with_faults(set).1).unwrap_err();
        assert_eq!(answer(0b11_1111_1111_1111), Refusal::Size);
        assert_eq!(answer(0b01_1111_1111_1111), Refusal::Trailer);
        assert_eq!(answer(0b00_0111_1111_1111), Refusal::Span);
        assert_eq!(answer(0b00_0011_1111_1111), Refusal::Record(1));
        assert_eq!(answer(0b00_0011_0111_1111), Refusal::Order(2));
        assert_eq!(answer(0b00_0011_0110_1111), Refusal::Record(6));
        assert_eq!(answer(0b00_0010_0110_1111), Refusal::Order(6));
        assert_eq!(answer(0b00_0010_0100_1111), Refusal::Record(8));
        assert_eq!(answer(0b00_0000_0100_1111), Refusal::Order(8));
        assert_eq!(answer(0b00_0000_0000_1111), Refusal::Cycle(3));
        assert_eq!(answer(0b00_0000_0000_0111), Refusal::Cycle(4));
        assert_eq!(answer(0b00_0000_0000_0011), Refusal::Root);
        assert_eq!(answer(0b00_0000_0000_0001), Refusal::FixedRoot);
        assert!(check(&with_faults(0).1).is_ok());
    }

    #[test]
    fn cases_are_the_same_every_time() {
        assert!(cases().eq(cases()));
    }
}
