//! Q-3 of document 02, "Inputs that are small counters".

use crate::file::{encode, graph, Graph, Node};
use crate::limits::{chain, every_kind, put_u32, Case, Random};

/// "its width in bits, 1 to 64, with 0 read as 64, so old files mean the same".
pub fn bits(width: u8) -> u32 {
    match width {
        0 => 64,
        _ => width.into(),
    }
}

/// "The starting word is taken modulo 2^width."
pub fn modulo(word: u64, width: u8) -> u64 {
    (u128::from(word) % (1 << bits(width))) as u64
}

/// Not "a target of 2^width or more".
pub fn fits(target: u64, width: u8) -> bool {
    u128::from(target) < 1 << bits(width)
}

/// A width byte that is accepted: small ones, any, and the two that mean 64.
pub fn random_width(random: &mut Random) -> u8 {
    let width = match random.below(4) {
        0 => 1 + random.below(8),
        1 => 1 + random.below(64),
        2 => 64,
        _ => 0,
    };
    width as u8
}

/// The file with one byte of one record replaced.
fn with_byte(graph: &Graph, id: usize, byte: usize, value: u8) -> Vec<u8> {
    let mut file = encode(graph, b"");
    file[16 * id + byte] = value;
    file
}

/// "Byte 4 of an input record": every byte there, at inputs that stand first, last,
/// alone and among others; and bytes 5 to 7, which must still be zero, beside widths. In
/// a constant byte 4 must be zero, in an operator it belongs to an operand.
pub fn at_inputs() -> Vec<Case> {
    let last = graph(vec![Node::Unary(1), Node::Input(5, 0)], 0);
    let graphs = [
        ("every kind", every_kind(), 1),
        ("one input", chain(1), 0),
        ("a chain", chain(4), 0),
        ("operators first", last, 1),
    ];
    let mut cases = Vec::new();
    for (name, graph, id) in &graphs {
        for width in 0..=255 {
            let file = with_byte(graph, *id, 4, width);
            cases.push((format!("width byte {width} in {name}"), file));
        }
        for (width, byte) in [0, 1, 3, 63, 64, 65]
            .into_iter()
            .flat_map(|width| [5, 6, 7].map(|byte| (width, byte)))
        {
            let mut file = with_byte(graph, *id, 4, width);
            file[16 * id + byte] = 1;
            let name = format!("width byte {width} and byte {byte} in {name}");
            cases.push((name, file));
        }
    }
    for id in (0..=10).filter(|id| *id != 1) {
        for value in [1, 3, 64, 65, 66, 128] {
            let name = format!("byte 4 of kind {id} is {value}");
            cases.push((name, with_byte(&every_kind(), id, 4, value)));
        }
    }
    cases
}

/// A width above 64 is 4 as any other fault of a record: before 5 in the same scan, 13,
/// 6 and 7, after 1 to 3; the lowest id is named.
pub fn beside_other_faults() -> Vec<Case> {
    let nodes = vec![
        Node::Unary(2),
        Node::Input(1, 65),
        Node::Input(2, 0),
        Node::Constant(0),
        Node::Input(3, 255),
    ];
    let faults: [(&str, fn(&mut Vec<u8>)); 8] = [
        ("5 at 0", |file| file[4] = 5),
        ("13 at 0", |file| file[4] = 0),
        ("4 at 0", |file| file[1] = 1),
        ("4 at 2", |file| file[2 * 16 + 5] = 1),
        ("6", |file| put_u32(file, 5 * 16 + 4, 5)),
        ("7", |file| put_u32(file, 5 * 16 + 4, 3)),
        ("3", |file| put_u32(file, 5 * 16, 96)),
        ("2", |file| put_u32(file, 5 * 16 + 8, 0)),
    ];
    let mut cases = Vec::new();
    for set in 0..1 << faults.len() {
        let mut file = encode(&graph(nodes.clone(), 0), b"");
        for (place, (_, fault)) in faults.iter().enumerate() {
            if set >> place & 1 == 1 {
                fault(&mut file);
            }
        }
        for (width, byte) in [(65, 65), (64, 65), (65, 3), (64, 3)] {
            file[16 + 4] = width;
            file[4 * 16 + 4] = byte;
            let of_set = |place: &usize| set >> place & 1 == 1;
            let names = (0..faults.len())
                .filter(of_set)
                .map(|place| faults[place].0);
            let name = format!("widths {width} and {byte}, {:?}", names.collect::<Vec<_>>());
            cases.push((name, file.clone()));
        }
    }
    cases
}

#[cfg(test)]
mod tests {
    use super::*;
    use crate::file::check;
    use crate::operators::Operator::{Add, Equals};
    use crate::search::{solve, start, Outcome};
    use crate::{Refusal, M};

    #[test]
    fn powers() {
        assert_eq!([0, 1, 63, 64].map(bits), [64, 1, 63, 64]);
        assert_eq!(modulo(M, 3), 7);
        assert_eq!((modulo(M, 0), modulo(M, 64), modulo(M, 63)), (M, M, M / 2));
        assert!(fits(7, 3) && !fits(8, 3) && fits(1, 1) && !fits(2, 1));
        assert!(fits(M, 0) && fits(M, 64) && !fits(1 << 63, 63));
    }

    /// "1 to 64, with 0 read as 64"; "4 also for a width above 64".
    #[test]
    fn which_bytes_are_widths() {
        for width in 0..=255 {
            let answer = check(&with_byte(&chain(2), 0, 4, width)).map(|graph| graph.nodes[0]);
            let expected = match width {
                0..=64 => Ok(Node::Input(0, width)),
                _ => Err(Refusal::Record(0)),
            };
            assert_eq!(answer, expected);
        }
    }

    /// x + 5 = 8, with x of so many bits.
    fn counter(width: u8) -> Vec<u8> {
        let nodes = vec![
            Node::Input(40, width),
            Node::Constant(5),
            Node::Binary(Add, 0, 1),
            Node::Constant(8),
            Node::Binary(Equals, 2, 3),
        ];
        encode(&graph(nodes, 4), b"")
    }

    #[test]
    fn a_target_that_does_not_fit_is_lost() {
        for (width, lost) in [(0, 0), (64, 0), (2, 0), (1, 1)] {
            let run = solve(&counter(width), &[0; 7], 2, 5).unwrap();
            assert_eq!((run.rounds, run.lost), (1, lost));
            assert_eq!(run.result == Outcome::Solved, lost == 0);
            assert_eq!(run.values[0], if lost == 0 { 3 } else { 0 });
        }
    }

    /// Operators take their whole word, though it is worked out again at once.
    #[test]
    fn the_starting_word_is_cut() {
        let graph = check(&counter(3)).unwrap();
        assert_eq!(start(&graph, &[19, M, M]), Some((vec![3, 5, 8, 8, 1], 3)));
    }
}
