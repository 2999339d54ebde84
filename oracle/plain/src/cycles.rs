//! Q-1 of document 02, "Nodes in any order": graphs with their ids in any order, and
//! graphs in which a node reaches itself.

use crate::file::{encode, graph, Graph, Node};
use crate::limits::{chain, random_leaf, random_node, Case, Random};
use crate::operators::Operator::{Add, BitwiseAnd, Sub};

/// New ids for n nodes, a third of them as they are: downward, a few exchanged, or in
/// any order. `below` gives a random number below another.
pub fn new_ids(n: usize, mut below: impl FnMut(usize) -> usize) -> Vec<usize> {
    let mut ids: Vec<usize> = (0..n).collect();
    match below(6) {
        0 | 1 => {}
        2 => ids.reverse(),
        3 => (0..=below(3)).for_each(|_| ids.swap(below(n), below(n))),
        _ => (1..n).for_each(|place| ids.swap(place, below(place + 1))),
    }
    ids
}

/// The graph with each node under its new id.
pub fn renamed(old: &Graph, ids: &[usize]) -> Graph {
    let mut nodes = old.nodes.clone();
    for (id, node) in old.nodes.iter().enumerate() {
        nodes[ids[id]] = match *node {
            Node::Constant(_) | Node::Input(..) => *node,
            Node::Unary(operand) => Node::Unary(ids[operand]),
            Node::Binary(op, left, right) => Node::Binary(op, ids[left], ids[right]),
        };
    }
    graph(nodes, ids[old.root])
}

/// The graph with its ids downward: of a sorted one, operators first.
pub fn downward(old: &Graph) -> Graph {
    let ids: Vec<usize> = (0..old.count).rev().collect();
    renamed(old, &ids)
}

/// How a node on a cycle uses the next one; the spare one is not on the cycle, if
/// there is such a node.
type Link = fn(usize, usize) -> Node;

const LINKS: [Link; 3] = [
    |next, _| Node::Unary(next),
    |next, spare| Node::Binary(Add, next, spare),
    |next, spare| Node::Binary(Sub, spare, next),
];

/// Makes a cycle of these ids: each uses the one after it, the last the first.
fn close(nodes: &mut [Node], ids: &[usize], link: impl Fn(usize) -> Node) {
    for (place, id) in ids.iter().enumerate() {
        nodes[*id] = link(ids[(place + 1) % ids.len()]);
    }
}

/// "the lowest id that reaches itself": cycles of every length at every place of up
/// to seven nodes, upward and downward.
pub fn at_every_place() -> Vec<Case> {
    let mut cases = Vec::new();
    for n in 1..=7 {
        for first in 0..n {
            for length in 1..=n - first {
                let mut ids: Vec<usize> = (first..first + length).collect();
                cases.extend(one_cycle(n, &ids, "upward"));
                ids.reverse();
                cases.extend(one_cycle(n, &ids, "downward"));
            }
        }
    }
    cases
}

/// The other nodes are inputs, which the root does not leave, or above the cycle:
/// they do not reach themselves.
fn one_cycle(n: usize, ids: &[usize], way: &str) -> Vec<Case> {
    let mut cases = Vec::new();
    let spare = (0..n).find(|id| !ids.contains(id)).unwrap_or(ids[0]);
    for (kind, link) in LINKS.iter().enumerate() {
        let mut beside = vec![Node::Input(5, 0); n];
        close(&mut beside, ids, |next| link(next, spare));
        let mut above = vec![Node::Unary(ids[0]); n];
        close(&mut above, ids, |next| link(next, next));
        for (others, nodes) in [("beside", beside), ("above", above)] {
            for root in [ids[0], spare] {
                let name =
                    format!("cycle {ids:?} {way}, link {kind}, others {others}, root {root}");
                cases.push((name, encode(&graph(nodes.clone(), root), b"")));
            }
        }
    }
    cases
}

/// Two cycles among five nodes, in every way; beside each other, and the first above
/// the second. The other nodes are above both.
pub fn two_cycles() -> Vec<Case> {
    let mut cases = Vec::new();
    for ways in 0..3_usize.pow(5) {
        let in_group = |group: usize| -> Vec<usize> {
            let way = |id: &usize| ways / 3_usize.pow(*id as u32) % 3;
            (0..5).filter(|id| way(id) == group).collect()
        };
        let (one, two) = (in_group(1), in_group(2));
        if one.is_empty() || two.is_empty() {
            continue;
        }
        for above in [false, true] {
            let mut nodes = vec![Node::Binary(BitwiseAnd, one[0], two[0]); 5];
            close(&mut nodes, &two, Node::Unary);
            close(&mut nodes, &one, |next| {
                Node::Binary(Sub, if above { two[0] } else { next }, next)
            });
            let name = format!("cycles {one:?} and {two:?}, the first above: {above}");
            cases.push((name, encode(&graph(nodes, 4), b"note")));
        }
    }
    cases
}

/// Two thousand files whose operands are any ids.
pub fn tangles() -> Vec<Case> {
    let mut random = Random(3);
    let mut cases = Vec::new();
    for number in 0..2_000 {
        let n = 1 + random.below(16);
        let leaves = random.below(4);
        let node = |_| match random.below(4) < leaves {
            true => random_leaf(&mut random),
            false => random_node(&mut random, n),
        };
        let nodes = (0..n).map(node).collect();
        let root = random.below(n + 1);
        cases.push((format!("tangle {number}"), encode(&graph(nodes, root), b"")));
    }
    cases
}

/// The four graphs of 4,000 nodes that a check takes longest for.
pub fn largest() -> Vec<(&'static str, Graph)> {
    let last = 3_999;
    let each = |node: &dyn Fn(usize) -> Node| graph((0..=last).map(node).collect(), 0);
    let twice = |operand: usize| Node::Binary(Add, operand, operand);
    let half = |id: usize| usize::min(id + 2_000, last);
    vec![
        (
            "loop-at-the-end",
            each(&|id| twice(usize::min(id + 1, last))),
        ),
        ("one-ring", each(&|id| twice((id + 1) % 4_000))),
        (
            "mesh",
            each(&|id| Node::Binary(Add, usize::min(id + 1, last), half(id))),
        ),
        ("operators-first", downward(&chain(4_000))),
    ]
}

/// The largest ones with their ids upward, downward and in any order.
pub fn of_the_largest() -> Vec<Case> {
    let mut random = Random(4);
    let mut cases = Vec::new();
    for (name, graph) in largest() {
        cases.push((format!("{name}, upward"), encode(&graph, b"")));
        cases.push((format!("{name}, downward"), encode(&downward(&graph), b"")));
        for number in 0..6 {
            let ids = new_ids(graph.count, |most| random.below(most));
            let file = encode(&renamed(&graph, &ids), b"");
            cases.push((format!("{name} with new ids {number}"), file));
        }
    }
    cases
}

#[cfg(test)]
mod tests {
    use super::*;
    use crate::file::{check, operands};
    use crate::limits::random_graph;
    use crate::search::{recompute, solve_unlogged, start, Outcome};
    use crate::Refusal;

    /// What a file of these nodes is refused with.
    fn refusal(nodes: Vec<Node>, root: usize) -> Refusal {
        check(&encode(&graph(nodes, root), b"")).unwrap_err()
    }

    /// "An operand that is the node itself passes 5 and is 13."
    #[test]
    fn a_node_that_uses_itself() {
        assert_eq!(refusal(vec![Node::Unary(0)], 0), Refusal::Cycle(0));
        let nodes = vec![Node::Input(0, 0), Node::Binary(Add, 0, 1)];
        assert_eq!(refusal(nodes, 0), Refusal::Cycle(1));
    }

    /// "Nodes above a cycle are not named."
    #[test]
    fn the_lowest_on_a_cycle_is_named() {
        let above = vec![
            Node::Unary(2),
            Node::Unary(3),
            Node::Unary(3),
            Node::Unary(2),
        ];
        assert_eq!(refusal(above, 0), Refusal::Cycle(2));
        let two = vec![
            Node::Unary(0),
            Node::Unary(2),
            Node::Unary(1),
            Node::Unary(3),
        ];
        assert_eq!(
            refusal(two[1..].iter().map(below_one).collect(), 0),
            Refusal::Cycle(0)
        );
        assert_eq!(refusal(two, 3), Refusal::Cycle(0));
    }

    fn below_one(node: &Node) -> Node {
        Node::Unary(operands(node)[0] - 1)
    }

    /// "after all records, before 6", and so before 7.
    #[test]
    fn before_the_root() {
        let cycle = vec![Node::Constant(0), Node::Unary(1)];
        assert_eq!(refusal(cycle.clone(), 0), Refusal::Cycle(1));
        assert_eq!(refusal(cycle, 2), Refusal::Cycle(1));
    }

    /// Found from the bytes, by closing the whole relation: another way than `check` goes.
    #[test]
    fn the_named_id_reaches_itself_and_no_lower_one_does() {
        let small = [at_every_place(), two_cycles(), tangles()].concat();
        let mut named = 0;
        for (name, file) in small {
            let records = file[..file.len() - 16].rchunks_exact(16).rev();
            let below: Vec<Vec<usize>> = records.map(operand_fields).collect();
            let reaches = closure(&below);
            let lowest = (0..below.len()).find(|id| reaches[*id][*id]);
            match check(&file) {
                Err(Refusal::Cycle(id)) => assert_eq!(Some(id), lowest, "{name}"),
                Ok(_) | Err(Refusal::Root | Refusal::FixedRoot) => {
                    assert_eq!(None, lowest, "{name}")
                }
                other => panic!("{name}: {other:?}"),
            }
            named += usize::from(lowest.is_some());
        }
        assert!(named > 3_000, "{named}");
    }

    fn operand_fields(record: &[u8]) -> Vec<usize> {
        let count = [0, 0, 2, 2, 2, 2, 2, 2, 1, 2, 2][usize::from(record[0])];
        [record[4], record[8]][..count]
            .iter()
            .map(|id| usize::from(*id))
            .collect()
    }

    /// Which node reaches which, through one operand or more.
    fn closure(below: &[Vec<usize>]) -> Vec<Vec<bool>> {
        let n = below.len();
        let mut reaches = vec![vec![false; n]; n];
        for (id, operands) in below.iter().enumerate() {
            operands
                .iter()
                .for_each(|operand| reaches[id][*operand] = true);
        }
        for middle in 0..n {
            for from in 0..n {
                for to in 0..n {
                    reaches[from][to] |= reaches[from][middle] && reaches[middle][to];
                }
            }
        }
        reaches
    }

    #[test]
    fn of_the_largest_only_operators_first_is_accepted() {
        let named = |graph: &Graph| check(&encode(graph, b"")).err();
        let answers: Vec<_> = largest().iter().map(|(_, graph)| named(graph)).collect();
        let ids = [3_999, 0, 3_999].map(|id| Some(Refusal::Cycle(id)));
        assert_eq!(answers, [&ids[..], &[None]].concat());
    }

    #[test]
    fn a_search_over_4000_operators_first() {
        let file = encode(&downward(&chain(4_000)), b"");
        let run = solve_unlogged(&file, &vec![0; 4_000], 4_000, 4_000).unwrap();
        assert_eq!((run.result, run.words), (Outcome::Solved, 4_000));
    }

    /// "the end state is the one solution of all operator equations": what the values
    /// of operators were before does not matter, nor does the ids' order.
    #[test]
    fn new_ids_move_the_values_along() {
        let mut random = Random(7);
        for _ in 0..2_000 {
            let n = 1 + random.below(20);
            let old = random_graph(&mut random, n);
            let ids = new_ids(n, |most| random.below(most));
            let new = renamed(&old, &ids);
            assert_eq!(check(&encode(&new, b"")), Ok(new.clone()));
            let words: Vec<u64> = (0..n).map(|_| random.value()).collect();
            let (values, _) = start(&old, &words).unwrap();
            let mut moved = vec![0; n];
            for (id, node) in old.nodes.iter().enumerate() {
                moved[ids[id]] = match operands(node).is_empty() {
                    true => values[id],
                    false => random.word(),
                };
            }
            recompute(&new, &mut moved);
            assert!((0..n).all(|id| moved[ids[id]] == values[id]));
        }
    }

    /// "Words at the start still go upward by id".
    #[test]
    fn words_go_upward_by_id() {
        let nodes = vec![
            Node::Binary(Sub, 3, 2),
            Node::Constant(9),
            Node::Input(0, 0),
            Node::Input(0, 0),
        ];
        let answer = start(&graph(nodes, 0), &[7, 10, 30]);
        assert_eq!(answer, Some((vec![20, 9, 10, 30], 3)));
    }
}
