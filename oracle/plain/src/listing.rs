//! Q-2 of document 02, "A listing I can read", with refusal 14.

use crate::file::{check, operands, Graph, Node};
use crate::Refusal;

/// "I want the source's Printer as a writer into a lent buffer".
pub fn list(file: &[u8], buffer: &mut [u8]) -> Result<usize, Refusal> {
    write(&text(file)?, buffer)
}

/// "The answer is the length. Bytes past it stay."
pub fn write(text: &str, buffer: &mut [u8]) -> Result<usize, Refusal> {
    // "14 Short, exactly when the listing is longer than the buffer, after 1 to 7 and
    // 13; nothing is written."
    if text.len() > buffer.len() {
        return Err(Refusal::Short);
    }
    buffer[..text.len()].copy_from_slice(text.as_bytes());
    Ok(text.len())
}

/// "one line a node, …, a line feed after each".
pub fn text(file: &[u8]) -> Result<String, Refusal> {
    let graph = check(file)?;
    let lines = listed(&graph).into_iter().map(|id| line(&graph, id) + "\n");
    Ok(lines.collect())
}

/// "Nodes reachable from the root come once each, left operand first, operands before
/// their operator": a node waits until its left operand is listed, and then the right.
pub fn listed(graph: &Graph) -> Vec<usize> {
    let mut done = vec![false; graph.count];
    let mut ids = Vec::new();
    let mut waiting = vec![graph.root];
    while let Some(id) = waiting.last().copied() {
        let below = operands(&graph.nodes[id]);
        match below.into_iter().find(|operand| !done[*operand]) {
            Some(operand) => waiting.push(operand),
            None => {
                done[id] = true;
                ids.push(id);
                waiting.pop();
            }
        }
    }
    ids
}

/// "`x2 := x0 + x1`, `x4 := !x3`, constants in decimal, inputs as the decimal label in
/// double quotes".
fn line(graph: &Graph, id: usize) -> String {
    match graph.nodes[id] {
        Node::Constant(value) => format!("x{id} := {value}"),
        Node::Input(label, _) => format!("x{id} := \"{label}\""),
        Node::Unary(operand) => format!("x{id} := !x{operand}"),
        Node::Binary(op, left, right) => format!("x{id} := x{left} {} x{right}", op.sign()),
    }
}

#[cfg(test)]
mod tests {
    use super::*;
    use crate::cycles::downward;
    use crate::file::{encode, graph};
    use crate::limits::{chain, every_kind, random_graph, Random};
    use crate::operators::Operator::{Add, Sub};
    use crate::M;

    fn text_of(graph: &Graph) -> String {
        text(&encode(graph, b"a note")).unwrap()
    }

    #[test]
    fn the_lines_of_every_kind() {
        let text = "x0 := 1\nx1 := \"7\"\nx2 := x0 + x1\nx3 := x2 - x0\nx4 := x3 * x2\n\
                    x5 := x4 / x1\nx7 := x4 % x5\nx6 := x5 < x0\nx8 := !x6\nx9 := x7 = x8\n\
                    x10 := x9 & x8\n";
        assert_eq!(text_of(&every_kind()), text);
    }

    /// The longest line is that of an input with the last id and the largest label.
    #[test]
    fn the_longest_lines() {
        let nodes = vec![Node::Input(M, 0); 4_000];
        let longest = text_of(&graph(nodes, 3_999));
        assert_eq!(longest, "x3999 := \"18446744073709551615\"\n");
    }

    /// "left operand first", whatever the ids are.
    #[test]
    fn left_first() {
        let nodes = vec![
            Node::Binary(Sub, 2, 1),
            Node::Input(5, 0),
            Node::Constant(9),
        ];
        assert_eq!(
            text_of(&graph(nodes, 0)),
            "x2 := 9\nx1 := \"5\"\nx0 := x2 - x1\n"
        );
    }

    /// "Nodes reachable from the root come once each".
    #[test]
    fn shared_and_unused() {
        let nodes = vec![
            Node::Input(5, 0),
            Node::Input(6, 0),
            Node::Binary(Add, 0, 0),
            Node::Binary(Add, 2, 0),
            Node::Unary(3),
        ];
        let text = "x0 := \"5\"\nx2 := x0 + x0\nx3 := x2 + x0\n";
        assert_eq!(text_of(&graph(nodes, 3)), text);
    }

    /// A chain of 4,000 is listed like any other, both ways.
    #[test]
    fn the_longest_chain() {
        assert_eq!(text_of(&chain(4_000)).lines().count(), 4_000);
        let ids = listed(&downward(&chain(4_000)));
        assert!(ids.into_iter().eq((0..4_000).rev()));
    }

    /// "14 Short, exactly when the listing is longer than the buffer"; "nothing is
    /// written"; "Bytes past it stay."
    #[test]
    fn short_exactly_when_longer() {
        let file = encode(&every_kind(), b"");
        let text = text(&file).unwrap();
        for room in 0..text.len() {
            let mut buffer = vec![7; room];
            assert_eq!(list(&file, &mut buffer), Err(Refusal::Short));
            assert_eq!(buffer, vec![7; room]);
        }
        for more in 0..3 {
            let mut buffer = vec![7; text.len() + more];
            assert_eq!(list(&file, &mut buffer), Ok(text.len()));
            assert_eq!(buffer, [text.as_bytes(), &vec![7; more]].concat());
        }
    }

    /// "after 1 to 7 and 13".
    #[test]
    fn other_refusals_come_first() {
        let cycle = encode(&graph(vec![Node::Unary(0)], 0), b"");
        assert_eq!(list(&cycle, &mut []), Err(Refusal::Cycle(0)));
        let zero = encode(&graph(vec![Node::Constant(0)], 0), b"");
        assert_eq!(list(&zero, &mut []), Err(Refusal::FixedRoot));
        assert_eq!(list(&[], &mut []), Err(Refusal::Size));
    }

    /// What is listed is the root and all that listed nodes use, each after its operands.
    #[test]
    fn what_is_listed_is_what_the_root_reaches() {
        let mut random = Random(8);
        for _ in 0..5_000 {
            let n = 1 + random.below(20);
            let graph = random_graph(&mut random, n);
            let ids = listed(&graph);
            let place = |id: usize| ids.iter().position(|listed| *listed == id);
            assert_eq!(place(graph.root), Some(ids.len() - 1));
            for (at, id) in ids.iter().enumerate() {
                assert_eq!(place(*id), Some(at), "once each");
                let below = operands(&graph.nodes[*id]);
                assert!(below.into_iter().all(|operand| place(operand) < Some(at)));
                assert!(below_of_another(&graph, &ids, *id));
            }
        }
    }

    fn below_of_another(graph: &Graph, ids: &[usize], id: usize) -> bool {
        let uses = |user: &usize| operands(&graph.nodes[*user]).contains(&id);
        id == graph.root || ids.iter().any(uses)
    }
}
