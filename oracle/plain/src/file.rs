//! Section "The graph file", with refusals 1 to 7 of "Numbers of refusal" and, of
//! document 02, Q-1: "Nodes in any order", with refusal 13, and the width of Q-3.

use crate::operators::Operator;
pub use crate::refusals::Refusal;

/// "Record i is node i": a node, with the ids of its operands.
#[derive(Clone, Copy, Debug, PartialEq, Eq)]
pub enum Node {
    /// "Constants hold their value"
    Constant(u64),
    /// "inputs a label (u64, may repeat)", and "Byte 4 of an input record now says its
    /// width in bits": that byte as it is, so that 0 and 64 are kept apart.
    Input(u64, u8),
    /// Not: "left (or only) operand"
    Unary(usize),
    /// "binary ones the right" operand too
    Binary(Operator, usize, usize),
}

/// The decoded file: "n records", the root, the nodes by id, and an order in which
/// "operators are worked out after their operands".
#[derive(Clone, Debug, PartialEq, Eq)]
pub struct Graph {
    pub count: usize,
    pub root: usize,
    pub nodes: Vec<Node>,
    pub order: Vec<usize>,
}

/// "Checks run in this order. Records are scanned upward; 4 before 5 within
/// one; the first bad id is named."
pub fn check(file: &[u8]) -> Result<Graph, Refusal> {
    // "1 Size | file under 16 or over 65,536 bytes"
    if file.len() < 16 || file.len() > 65_536 {
        return Err(Refusal::Size);
    }
    // "Trailer: u32 distance back from its start to the first record (16n),
    // u32 root, u32 version 1, u32 zero."
    let trailer = file.len() - 16;
    let distance = u32_at(file, trailer);
    let root = u32_at(file, trailer + 4);
    let version = u32_at(file, trailer + 8);
    let last = u32_at(file, trailer + 12);
    // "2 Trailer | version not 1, or last field not zero"
    if version != 1 || last != 0 {
        return Err(Refusal::Trailer);
    }
    // "3 Span | distance 0, not a multiple of 16, over 64,000, or over length − 16"
    if distance == 0 || distance % 16 != 0 || distance > 64_000 || distance > trailer {
        return Err(Refusal::Span);
    }
    // 4 and 5: "Records are scanned upward"
    let count = distance / 16;
    let first = trailer - distance;
    let mut nodes = Vec::new();
    for id in 0..count {
        let record = &file[first + 16 * id..first + 16 * id + 16];
        nodes.push(node(record, id, count)?);
    }
    // "13 Cycle(id), the lowest id that reaches itself, after all records, before 6"
    let graph = graph(nodes, root);
    if let Some(id) = lowest_on_a_cycle(&graph) {
        return Err(Refusal::Cycle(id));
    }
    // "6 Root | root ≥ n"
    if root >= count {
        return Err(Refusal::Root);
    }
    // "7 FixedRoot | root is a constant other than 1"
    if let Node::Constant(value) = graph.nodes[root] {
        if value != 1 {
            return Err(Refusal::FixedRoot);
        }
    }
    Ok(graph)
}

/// One record: "4 before 5 within one".
fn node(record: &[u8], id: usize, count: usize) -> Result<Node, Refusal> {
    // "4 Record(id) | unknown kind or a non-zero byte that must be zero"
    let kind = record[0];
    if kind > 10 || (0..16).any(|byte| !holds(kind, byte) && record[byte] != 0) {
        return Err(Refusal::Record(id));
    }
    // "Refusals: 4 also for a width above 64."
    if kind == 1 && record[4] > 64 {
        return Err(Refusal::Record(id));
    }
    let node = match Operator::of(kind) {
        // "0 Constant, 1 Input"
        None if kind == 0 => Node::Constant(u64_at(record, 8)),
        None => Node::Input(u64_at(record, 8), record[4]),
        Some(Operator::Not) => Node::Unary(u32_at(record, 4)),
        Some(op) => Node::Binary(op, u32_at(record, 4), u32_at(record, 8)),
    };
    // "5 now means an operand id not below n"
    if operands(&node).iter().any(|operand| *operand >= count) {
        return Err(Refusal::Order(id));
    }
    Ok(node)
}

/// "the lowest id that reaches itself". A node in the order comes after its operands
/// and all below them, so it does not; the others are on a cycle or above one.
fn lowest_on_a_cycle(graph: &Graph) -> Option<usize> {
    let mut ordered = vec![false; graph.count];
    for id in &graph.order {
        ordered[*id] = true;
    }
    (0..graph.count).find(|id| !ordered[*id] && reaches_itself(&graph.nodes, *id))
}

/// Whether a "node reaches itself through operands".
fn reaches_itself(nodes: &[Node], id: usize) -> bool {
    let mut reached = vec![false; nodes.len()];
    let mut open = operands(&nodes[id]);
    while let Some(next) = open.pop() {
        if !reached[next] {
            reached[next] = true;
            open.extend(operands(&nodes[next]));
        }
    }
    reached[id]
}

/// "operators are worked out after their operands": leaves first, then each node as
/// soon as all its operands are there. A node on a cycle, or above one, never is.
fn order(nodes: &[Node]) -> Vec<usize> {
    let mut missing: Vec<usize> = nodes.iter().map(|node| operands(node).len()).collect();
    let mut users = vec![vec![]; nodes.len()];
    for (id, node) in nodes.iter().enumerate() {
        for operand in operands(node) {
            users[operand].push(id);
        }
    }
    let mut order: Vec<usize> = (0..nodes.len()).filter(|id| missing[*id] == 0).collect();
    let mut done = 0;
    while done < order.len() {
        for user in &users[order[done]] {
            missing[*user] -= 1;
            if missing[*user] == 0 {
                order.push(*user);
            }
        }
        done += 1;
    }
    order
}

/// Whether a byte of a record holds something; "All other bytes are zero."
pub fn holds(kind: u8, byte: usize) -> bool {
    match (kind, byte) {
        // "Byte 0 is the kind"
        (_, 0) => true,
        // "Constants hold their value, inputs a label …, in 8 to 15."
        (0 | 1, 8..=15) => true,
        // "Byte 4 of an input record now says its width"
        (1, 4) => true,
        // "left (or only) operand as u32 in bytes 4 to 7"
        (2..=10, 4..=7) => true,
        // "binary ones the right in 8 to 11"
        (2..=7 | 9 | 10, 8..=11) => true,
        _ => false,
    }
}

/// The ids of a node's operands, left first.
pub fn operands(node: &Node) -> Vec<usize> {
    match *node {
        Node::Constant(_) | Node::Input(..) => vec![],
        Node::Unary(operand) => vec![operand],
        Node::Binary(_, left, right) => vec![left, right],
    }
}

/// "an optional note, n records of 16 bytes, a 16-byte trailer": the file of a
/// graph. What it writes for a graph that breaks a rule, `check` refuses.
pub fn encode(graph: &Graph, note: &[u8]) -> Vec<u8> {
    let mut file = note.to_vec();
    for node in &graph.nodes {
        file.extend(record(node));
    }
    for field in [16 * graph.nodes.len(), graph.root, 1, 0] {
        file.extend((field as u32).to_le_bytes());
    }
    file
}

/// "n records of 16 bytes": the record of one node.
pub fn record(node: &Node) -> [u8; 16] {
    let mut bytes = [0; 16];
    if let Node::Input(_, width) = node {
        bytes[4] = *width;
    }
    bytes[0] = match node {
        Node::Constant(_) => 0,
        Node::Input(..) => 1,
        Node::Unary(_) => Operator::Not.kind(),
        Node::Binary(op, _, _) => op.kind(),
    };
    if let Node::Constant(held) | Node::Input(held, _) = node {
        bytes[8..16].copy_from_slice(&held.to_le_bytes());
    }
    for (place, id) in operands(node).into_iter().enumerate() {
        let from = 4 + 4 * place;
        bytes[from..from + 4].copy_from_slice(&(id as u32).to_le_bytes());
    }
    bytes
}

/// A graph of these nodes, whose operands are among them, with this root.
pub fn graph(nodes: Vec<Node>, root: usize) -> Graph {
    Graph {
        count: nodes.len(),
        root,
        order: order(&nodes),
        nodes,
    }
}

/// "little endian": the u32 at a byte.
fn u32_at(bytes: &[u8], at: usize) -> usize {
    (0..4).map(|i| usize::from(bytes[at + i]) << (8 * i)).sum()
}

/// "little endian": the u64 at a byte.
fn u64_at(bytes: &[u8], at: usize) -> u64 {
    (0..8).map(|i| u64::from(bytes[at + i]) << (8 * i)).sum()
}
