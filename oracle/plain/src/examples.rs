//! The folders of `examples/`: six that a person can run and read about, and
//! the small ones of `examples/cases/`. Binary `write_examples` writes them.

use crate::cycles::downward;
use crate::file::{encode, graph, Graph, Node};
use crate::limits::{every_kind, with_field, Random};
use crate::operators::Operator::{Add, BitwiseAnd, Equals, Mul, Remu, Sltu};
use crate::program::{lists, prints};
use crate::M;

/// What stands under the name `graph` when the program runs.
#[derive(Clone, Debug)]
pub enum Given {
    /// A file with these bytes.
    File(Vec<u8>),
    /// A file of so many zero bytes, made when it is run.
    Zeros(usize),
    /// A folder, which opens and can't be read.
    Folder,
    /// Nothing.
    Missing,
}

/// One folder of `examples/`: the graph and the bytes of standard input.
#[derive(Clone, Debug)]
pub struct Example {
    pub name: String,
    pub graph: Given,
    pub words: Option<Vec<u8>>,
}

impl Example {
    /// The exact standard output of `retrysolve`, "budget 100,000".
    pub fn expected(&self) -> String {
        let words = self.words.as_deref().unwrap_or(&[]);
        match &self.graph {
            Given::File(bytes) => prints(Some(bytes), words),
            Given::Zeros(length) => prints(Some(&vec![0; *length]), words),
            Given::Folder | Given::Missing => prints(None, words),
        }
    }

    /// The exact standard output of `retrylist`, for those that show something of it.
    pub fn listing(&self) -> Option<String> {
        LISTED
            .contains(&self.name.as_str())
            .then(|| match &self.graph {
                Given::File(bytes) => lists(Some(bytes)),
                Given::Zeros(length) => lists(Some(&vec![0; *length])),
                Given::Folder | Given::Missing => lists(None),
            })
    }

    /// The files of the folder, by name.
    pub fn files(&self) -> Vec<(&'static str, Vec<u8>)> {
        let mut files = Vec::new();
        match &self.graph {
            Given::File(bytes) => files.push(("graph", bytes.clone())),
            Given::Zeros(length) => files.push(("graph.size", format!("{length}\n").into())),
            Given::Folder => files.push(("graph.dir", b"graph is a folder\n".to_vec())),
            Given::Missing => {}
        }
        if let Some(words) = &self.words {
            files.push(("words", words.clone()));
        }
        files.push(("expected", self.expected().into()));
        if let Some(listing) = self.listing() {
            files.push(("listing", listing.into()));
        }
        files
    }
}

/// The folders that `retrylist` is run on too.
const LISTED: [&str; 15] = [
    "collision",
    "example",
    "operators-first",
    "refused",
    "spent",
    "cases/every-kind",
    "cases/missing-file",
    "cases/note",
    "cases/refused-1-long",
    "cases/refused-4-byte",
    "cases/refused-7-two",
    "cases/root-constant-1",
    "cases/spent-long",
    "cases/unreadable-file",
    "cases/width-3-found",
];

/// Every folder, the six first.
pub fn all() -> Vec<Example> {
    let mut all = six();
    for group in [
        bad_files(),
        cycles(),
        odd_files(),
        ends(),
        widths(),
        inputs(),
    ] {
        for mut case in group {
            case.name = format!("cases/{}", case.name);
            all.push(case);
        }
    }
    all
}

/// The six that a person can run and read about.
pub fn six() -> Vec<Example> {
    let collision = collision();
    let mut upward = collision_words();
    upward[..11].reverse();
    vec![
        example("collision", &collision, &collision_words()),
        example("dry", &collision, &collision_words()[..30]),
        example("example", &document_01(), &[0; 7]),
        example("operators-first", &downward(&collision), &upward),
        with_file("refused", patched(&collision, 6, 4, 6), &collision_words()),
        example("spent", &folded(), &[5, 0]),
    ]
}

/// A retry policy: slot = (base + attempt) % 8. Two attempts of one field, and
/// the question whether two different attempts write one slot.
pub fn collision() -> Graph {
    let nodes = vec![
        Node::Input(100, 0),             // 0: base
        Node::Input(1, 0),               // 1: first attempt
        Node::Input(2, 0),               // 2: second attempt
        Node::Constant(8),               // 3: slots
        Node::Binary(Add, 0, 1),         // 4: base + first attempt
        Node::Binary(Add, 0, 2),         // 5: base + second attempt
        Node::Binary(Remu, 4, 3),        // 6: slot of the first attempt
        Node::Binary(Remu, 5, 3),        // 7: slot of the second attempt
        Node::Binary(Equals, 6, 7),      // 8: one slot
        Node::Binary(Equals, 1, 2),      // 9: one attempt
        Node::Unary(9),                  // 10: two attempts
        Node::Binary(BitwiseAnd, 8, 10), // 11: two attempts write one slot
    ];
    graph(nodes, 11)
}

/// Words for `collision`: small ones, so that the values stay small.
fn collision_words() -> Vec<u64> {
    let start = [5, 1, 2, 0, 0, 0, 0, 0, 0, 0, 0];
    let first_round = [0, 0, 0, 0, 0, 0, 0, 0, 0, 0, 0, 0, 0];
    let second_round = [0, 0, 0, 0, 0, 0, 0, 1, 0, TRUE, 0, 0];
    [&start[..], &first_round, &second_round].concat()
}

/// A word that makes the coin true.
const TRUE: u64 = 1 << 63;

/// "Nodes: 0 Input label 40; 1 Constant 3; 2 Add(0,1); 3 Constant 10;
/// 4 Equals(2,3); root 4".
pub fn document_01() -> Graph {
    let nodes = vec![
        Node::Input(40, 0),
        Node::Constant(3),
        Node::Binary(Add, 0, 1),
        Node::Constant(10),
        Node::Binary(Equals, 2, 3),
    ];
    graph(nodes, 4)
}

/// A policy whose two attempts always carry one number: "one attempt" is
/// folded to the constant 1, and the root asks for two.
fn folded() -> Graph {
    let nodes = vec![Node::Input(100, 0), Node::Constant(1), Node::Unary(1)];
    graph(nodes, 2)
}

/// A file with one more byte replaced.
fn both(mut file: Vec<u8>, at: usize, byte: u8) -> Vec<u8> {
    file[at] = byte;
    file
}

/// Refusals 1 to 7 and 9.
fn bad_files() -> Vec<Example> {
    let sound = document_01();
    let file = encode(&sound, b"");
    let zero = graph(vec![Node::Constant(0)], 0);
    let two = graph(vec![Node::Input(5, 0), Node::Constant(2)], 1);
    vec![
        with_file("refused-1-empty", vec![], &[0; 7]),
        with_file("refused-1-short", vec![0; 15], &[0; 7]),
        zeros("refused-1-long", 65_537, &[0; 7]),
        zeros("refused-2-longest", 65_536, &[0; 7]),
        with_file("refused-2-shortest", vec![0; 16], &[0; 7]),
        with_file("refused-2-version", with_field(&file, 2, 2), &[0; 7]),
        with_file("refused-2-last-field", with_field(&file, 3, 1), &[0; 7]),
        with_file("refused-3-zero", with_field(&file, 0, 0), &[0; 7]),
        with_file("refused-3-not-sixteens", with_field(&file, 0, 72), &[0; 7]),
        with_file("refused-3-too-far", with_field(&file, 0, 96), &[0; 7]),
        with_file("refused-4-kind", patched(&sound, 4, 0, 11), &[0; 7]),
        with_file("refused-4-byte", patched(&sound, 1, 7, 1), &[0; 7]),
        with_file("refused-4-width", patched(&sound, 0, 4, 65), &[0; 7]),
        with_file("refused-4-input-byte", patched(&sound, 0, 5, 1), &[0; 7]),
        with_file(
            "refused-4-before-5",
            both(patched(&sound, 2, 4, 5), 2 * 16 + 15, 1),
            &[0; 7],
        ),
        with_file("refused-5-count", patched(&sound, 2, 4, 5), &[0; 7]),
        with_file("refused-5-far", patched(&sound, 2, 7, 1), &[0; 7]),
        with_file(
            "refused-5-before-4",
            both(patched(&sound, 2, 4, 5), 3 * 16 + 1, 1),
            &[0; 7],
        ),
        with_file("refused-6", with_field(&file, 1, 5), &[0; 7]),
        example("refused-7-zero", &zero, &[0; 7]),
        example("refused-7-two", &two, &[0; 7]),
        example("refused-9", &sound, &[0; 2]),
    ]
}

/// Refusal 13 and what stands near it.
fn cycles() -> Vec<Example> {
    let sound = document_01();
    let itself = patched(&sound, 2, 4, 2);
    let mut unreached = sound.nodes.clone();
    unreached.push(Node::Unary(5));
    let nots = |operands: &[usize]| operands.iter().map(|id| Node::Unary(*id)).collect();
    let fixed = vec![Node::Constant(0), Node::Unary(1)];
    let rings = graph(nots(&[1, 4, 3, 2, 1]), 0);
    let above = patched(&downward(&collision()), 7, 8, 7);
    vec![
        with_file(
            "operand-later",
            patched(&sound, 2, 8, 3),
            &[5, 0, 0, 0, 0, 0, 0],
        ),
        with_file("refused-13-itself", itself.clone(), &[0; 7]),
        with_file("refused-13-two", patched(&sound, 2, 8, 4), &[0; 7]),
        with_file("refused-13-three", patched(&collision(), 4, 8, 8), &[]),
        with_file("refused-13-above", above, &[]),
        example("refused-13-unreached", &graph(unreached, 4), &[0; 7]),
        example("refused-13-lowest", &rings, &[]),
        with_file("refused-13-before-6", with_field(&itself, 1, 5), &[0; 7]),
        example("refused-13-before-7", &graph(fixed, 0), &[0; 7]),
        with_file(
            "refused-4-before-13",
            both(itself.clone(), 3 * 16 + 1, 1),
            &[0; 7],
        ),
        with_file("refused-5-before-13", both(itself, 4 * 16 + 8, 5), &[0; 7]),
    ]
}

/// Files that are missing, unreadable, or have a note.
fn odd_files() -> Vec<Example> {
    let missing = |name: &str, graph: Given| Example {
        name: name.to_string(),
        graph,
        words: Some(bytes(&[0; 7])),
    };
    vec![
        missing("missing-file", Given::Missing),
        missing("unreadable-file", Given::Folder),
        with_file("note", encode(&document_01(), b"retry policy 7\n"), &[0; 7]),
    ]
}

/// How searches end.
fn ends() -> Vec<Example> {
    let sound = document_01();
    vec![
        example("root-input", &graph(vec![Node::Input(5, 0)], 0), &[9]),
        example("root-input-1", &graph(vec![Node::Input(M, 0)], 0), &[1]),
        example(
            "root-constant-1",
            &graph(vec![Node::Constant(1), Node::Input(M, 0)], 0),
            &[M],
        ),
        example("root-already-1", &sound, &[7, 0, 0]),
        example(
            "lost-round",
            &sum_of_constants(),
            &[0, 0, 0, TRUE, 0, 0, 0, 0, 0, 0, 0],
        ),
        example("spent-lost", &folded(), &[0, 0, 0]),
        example("spent-long", &long_chain(), &random_words(1_500, 7)),
        example("dry-at-value", &sound, &[0; 3]),
        example("dry-in-value", &not_five(), &[5, 0, 0, 9, 5, 5]),
        example("discarded", &below_five(), &[9, 0, M, M, 3, M, 7, 0]),
        example("dry-in-range", &below_five(), &[9, 0, 3, M, M]),
        example("dry-at-choosing-word", &sound, &[0; 6]),
        example("dry-after-coin", &collision(), &collision_words()[..12]),
        example("every-kind", &every_kind(), &random_words(300, 8)),
        example("collision-at-random", &collision(), &random_words(300, 9)),
    ]
}

/// Counters: inputs of fewer bits.
fn widths() -> Vec<Example> {
    let sound = document_01();
    vec![
        // The words of `example`, and its answer: 7 fits.
        with_file("width-3-found", patched(&sound, 0, 4, 3), &[0; 7]),
        // 7 does not fit, so every round is lost, until the words run out.
        with_file("width-2-lost", patched(&sound, 0, 4, 2), &[0; 15]),
        // 2^64 - 1 is cut to 1 by one bit.
        example("width-1-root", &graph(vec![Node::Input(5, 1)], 0), &[M]),
        // 23 is cut to 7: the root is 1 at the start.
        with_file("width-3-start", patched(&sound, 0, 4, 3), &[23, 0, 0]),
        with_file("width-64", patched(&sound, 0, 4, 64), &[0; 7]),
    ]
}

/// Standard input: its rest, its end, and none.
fn inputs() -> Vec<Example> {
    let sound = document_01();
    let rest = |name: &str, words: &[u64], rest: usize| Example {
        name: name.to_string(),
        graph: Given::File(encode(&document_01(), b"")),
        words: Some([bytes(words), vec![255; rest]].concat()),
    };
    vec![
        rest("rest-under-8", &[0; 7], 5),
        rest("rest-under-8-dry", &[0; 6], 7),
        rest("rest-under-8-refused-9", &[0; 2], 7),
        example("words-4097", &twice_is_one(), &random_words(4_097, 10)),
        without_words("no-words", &sound),
        without_words("no-words-needed", &graph(vec![Node::Constant(1)], 0)),
    ]
}

/// x = 3 + 4, with the sum of constants worked out by a node: a round that
/// takes the sum is lost.
fn sum_of_constants() -> Graph {
    let nodes = vec![
        Node::Input(5, 0),
        Node::Constant(3),
        Node::Constant(4),
        Node::Binary(Add, 1, 2),
        Node::Binary(Equals, 0, 3),
    ];
    graph(nodes, 4)
}

/// x is not 5.
fn not_five() -> Graph {
    let nodes = vec![
        Node::Input(5, 0),
        Node::Constant(5),
        Node::Binary(Equals, 0, 1),
        Node::Unary(2),
    ];
    graph(nodes, 3)
}

/// x < 5.
fn below_five() -> Graph {
    let nodes = vec![
        Node::Input(5, 0),
        Node::Constant(5),
        Node::Binary(Sltu, 0, 1),
    ];
    graph(nodes, 2)
}

/// x · 2 = 1, which has no solution.
fn twice_is_one() -> Graph {
    let nodes = vec![
        Node::Input(5, 0),
        Node::Constant(2),
        Node::Binary(Mul, 0, 1),
        Node::Constant(1),
        Node::Binary(Equals, 2, 3),
    ];
    graph(nodes, 4)
}

/// x · 2 = 1 under 632 Nots: each round takes 634 steps and few words.
fn long_chain() -> Graph {
    let mut nodes = twice_is_one().nodes;
    for id in 4..636 {
        nodes.push(Node::Unary(id));
    }
    graph(nodes, 636)
}

fn random_words(count: usize, seed: u64) -> Vec<u64> {
    let mut random = Random(seed);
    (0..count).map(|_| random.word()).collect()
}

fn example(name: &str, graph: &Graph, words: &[u64]) -> Example {
    with_file(name, encode(graph, b""), words)
}

fn with_file(name: &str, file: Vec<u8>, words: &[u64]) -> Example {
    Example {
        name: name.to_string(),
        graph: Given::File(file),
        words: Some(bytes(words)),
    }
}

fn zeros(name: &str, length: usize, words: &[u64]) -> Example {
    Example {
        name: name.to_string(),
        graph: Given::Zeros(length),
        words: Some(bytes(words)),
    }
}

fn without_words(name: &str, graph: &Graph) -> Example {
    Example {
        name: name.to_string(),
        graph: Given::File(encode(graph, b"")),
        words: None,
    }
}

/// The graph's file with one byte of one record replaced.
fn patched(graph: &Graph, id: usize, byte: usize, value: u8) -> Vec<u8> {
    let mut file = encode(graph, b"");
    file[16 * id + byte] = value;
    file
}

/// "little-endian words of 8 bytes".
pub fn bytes(words: &[u64]) -> Vec<u8> {
    words.iter().flat_map(|word| word.to_le_bytes()).collect()
}

#[cfg(test)]
mod tests {
    use super::*;
    use std::fs;
    use std::path::PathBuf;

    fn folder() -> PathBuf {
        PathBuf::from(env!("CARGO_MANIFEST_DIR")).join("../../examples")
    }

    #[test]
    fn the_folders_hold_what_is_written_here() {
        for example in all() {
            for (name, content) in example.files() {
                let path = folder().join(&example.name).join(name);
                assert_eq!(
                    fs::read(&path).ok(),
                    Some(content),
                    "{}/{name}",
                    example.name
                );
            }
            let found = fs::read_dir(folder().join(&example.name)).unwrap().count();
            assert_eq!(found, example.files().len(), "{}", example.name);
        }
        let cases = fs::read_dir(folder().join("cases")).unwrap().count();
        assert_eq!(cases, all().len() - six().len());
    }

    #[test]
    fn the_readme_tells_of_each() {
        let readme = fs::read_to_string(folder().join("README.md")).unwrap();
        for example in six() {
            assert!(
                readme.contains(&format!("## {}\n", example.name)),
                "{}",
                example.name
            );
            assert!(readme.contains(&example.expected()), "{}", example.name);
        }
        let shown = |example: &Example| readme.contains(&example.listing().unwrap());
        assert!(six()
            .iter()
            .filter(|one| one.name == "collision")
            .all(shown));
        for example in all().iter().skip(six().len()) {
            let name = example.name.trim_start_matches("cases/");
            assert!(readme.contains(&format!("| `{name}` |")), "{name}");
        }
    }

    /// The words past the 4,096th of `words-4097` would change its answer.
    #[test]
    fn the_words_after_4096_matter() {
        let file = encode(&twice_is_one(), b"");
        let count = |words| {
            let run = crate::search::solve(&file, &random_words(words, 10), 100_000, 5);
            run.unwrap().words
        };
        assert_eq!((count(4_096), count(4_097)), (4_096, 4_097));
    }

    #[test]
    fn each_listed_name_is_one_of_them() {
        let listings = all().iter().filter_map(Example::listing).count();
        assert_eq!(listings, LISTED.len());
    }

    #[test]
    fn names_differ() {
        let mut names: Vec<String> = all().into_iter().map(|example| example.name).collect();
        names.sort();
        names.dedup();
        assert_eq!(names.len(), all().len());
    }
}
