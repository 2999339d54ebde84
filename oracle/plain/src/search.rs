//! Section "Choice, round, search", with refusals 8 and 9, and Q-3's lost rounds.

use std::sync::Arc;

use crate::file::{check, Graph, Node};
use crate::operators::{binary, not, Operator};
use crate::rules::{consistent, inverse, reachable, unary, Side};
use crate::widths::{fits, modulo};
use crate::words::{coin, inverse_chosen, word, Draw};
use crate::Refusal;

/// "Result: Solved, Spent or Dry".
#[derive(Clone, Copy, Debug, PartialEq, Eq)]
pub enum Outcome {
    Solved,
    Spent,
    Dry,
}

/// Which value a step passes on.
#[derive(Clone, Copy, Debug, PartialEq, Eq)]
pub enum How {
    /// "the inverse"
    Inverse,
    /// "the consistent value"
    Consistent,
    /// "A step at Not passes its value to the operand."
    Not,
}

/// One completed step: at `node` with `target`, the `operand` on `side` is
/// taken (Not has no side) and is passed `value`; `words` are taken by its end.
#[derive(Clone, Copy, Debug, PartialEq, Eq)]
pub struct Choice {
    pub node: usize,
    pub target: u64,
    pub side: Option<Side>,
    pub operand: usize,
    pub value: u64,
    pub how: How,
    pub words: usize,
}

/// One completed round: how many steps were completed by its end, the input or
/// constant where it ended, whether it is lost, and the values after it.
#[derive(Clone, Debug, PartialEq, Eq)]
pub struct Round {
    pub steps: u64,
    pub leaf: usize,
    pub lost: bool,
    pub values: Arc<Vec<u64>>,
}

/// Every choice, and the values after the start and after each completed round.
#[derive(Clone, Debug, Default, PartialEq, Eq)]
pub struct Log {
    pub start: Arc<Vec<u64>>,
    pub choices: Vec<Choice>,
    pub rounds: Vec<Round>,
}

/// "Result: Solved, Spent or Dry; rounds completed, lost ones among them, steps
/// completed, words taken." And "Values then hold the state after the last
/// completed round."
#[derive(Clone, Debug, PartialEq, Eq)]
pub struct Run {
    pub result: Outcome,
    pub rounds: u64,
    pub lost: u64,
    pub steps: u64,
    pub words: usize,
    pub values: Vec<u64>,
    pub log: Log,
}

/// The search on a file, with refusals 1 to 9: "Checks run in this order."
pub fn solve(file: &[u8], words: &[u64], budget: u32, values_len: usize) -> Result<Run, Refusal> {
    let mut log = Log::default();
    let mut run = solve_into(file, words, budget, values_len, Some(&mut log))?;
    run.log = log;
    Ok(run)
}

/// `solve` that keeps no log (for budgets whose log has no room).
pub fn solve_unlogged(
    file: &[u8],
    words: &[u64],
    budget: u32,
    values_len: usize,
) -> Result<Run, Refusal> {
    solve_into(file, words, budget, values_len, None)
}

fn solve_into(
    file: &[u8],
    words: &[u64],
    budget: u32,
    values_len: usize,
    log: Option<&mut Log>,
) -> Result<Run, Refusal> {
    let graph = check(file)?;
    // "8 Room | value buffer not exactly n long"
    if values_len != graph.count {
        return Err(Refusal::Room);
    }
    // "9 Words | fewer words than non-constant nodes"
    let (values, at) = start(&graph, words).ok_or(Refusal::Words)?;
    Ok(search(&graph, words, budget, values, at, log))
}

/// "Start: each non-constant id, upward, takes a word; then operators are
/// worked out from their operands." And "Words at the start still go upward by id"; of
/// an input "The starting word is taken modulo 2^width."
pub fn start(graph: &Graph, words: &[u64]) -> Draw<Vec<u64>> {
    let mut values = Vec::new();
    let mut at = 0;
    for node in &graph.nodes {
        if let Node::Constant(value) = node {
            values.push(*value);
        } else {
            let (w, after) = word(words, at)?;
            values.push(match node {
                Node::Input(_, width) => modulo(w, *width),
                _ => w,
            });
            at = after;
        }
    }
    recompute(graph, &mut values);
    Some((values, at))
}

/// "operators are worked out after their operands, and the end state is the one
/// solution of all operator equations"; "every operator is recomputed".
pub fn recompute(graph: &Graph, values: &mut [u64]) {
    for id in graph.order.iter().copied() {
        match graph.nodes[id] {
            Node::Constant(_) | Node::Input(..) => {}
            Node::Unary(operand) => values[id] = not(values[operand]),
            Node::Binary(op, left, right) => {
                values[id] = binary(op, values[left], values[right]).expect("binary operator");
            }
        }
    }
}

/// "Rounds start while the root is not 1."
pub fn search(
    graph: &Graph,
    words: &[u64],
    budget: u32,
    values: Vec<u64>,
    at: usize,
    mut log: Option<&mut Log>,
) -> Run {
    let mut values = Arc::new(values);
    let mut run = Run {
        result: Outcome::Solved,
        rounds: 0,
        lost: 0,
        steps: 0,
        words: at,
        values: Vec::new(),
        log: Log::default(),
    };
    if let Some(log) = &mut log {
        log.start = values.clone();
    }
    while values[graph.root] != 1 {
        match descend(graph, &values, words, budget, &mut run, &mut log) {
            Err(ended) => {
                run.result = ended;
                break;
            }
            Ok((leaf, target)) => {
                let lost = land(graph, &mut values, leaf, target);
                run.rounds += 1;
                run.lost += u64::from(lost);
                if let Some(log) = &mut log {
                    log.rounds.push(Round {
                        steps: run.steps,
                        leaf,
                        lost,
                        values: values.clone(),
                    });
                }
            }
        }
    }
    run.values = values.to_vec();
    run
}

/// "A round starts at the root with target 1." Its steps, down to an input or
/// a constant: the leaf and the target there, or how the search ended.
fn descend(
    graph: &Graph,
    values: &[u64],
    words: &[u64],
    budget: u32,
    run: &mut Run,
    log: &mut Option<&mut Log>,
) -> Result<(usize, u64), Outcome> {
    let mut node = graph.root;
    let mut target = 1;
    while is_operator(&graph.nodes[node]) {
        // "Before each step, used steps = budget ends it as Spent."
        if run.steps == u64::from(budget) {
            return Err(Outcome::Spent);
        }
        // "A step whose words run out ends it as Dry and isn't counted."
        let choice = step(graph, values, node, target, words, &mut run.words);
        let choice = choice.ok_or(Outcome::Dry)?;
        run.steps += 1;
        if let Some(log) = log {
            log.choices.push(choice);
        }
        node = choice.operand;
        target = choice.value;
    }
    Ok((node, target))
}

/// "Reaching an input stores the target there and every operator is
/// recomputed. Reaching a constant is a lost round: nothing changes". And "A round that
/// brings a target of 2^width or more is a lost round." Answers whether the round is
/// lost.
pub fn land(graph: &Graph, values: &mut Arc<Vec<u64>>, leaf: usize, target: u64) -> bool {
    match graph.nodes[leaf] {
        Node::Input(_, width) if fits(target, width) => {}
        _ => return true,
    }
    let mut next = values.to_vec();
    next[leaf] = target;
    recompute(graph, &mut next);
    *values = Arc::new(next);
    false
}

/// One step at an operator. `at` moves past every value, coin and choosing word
/// "drawn to its end, also in a step that then ran dry; a value left unfinished
/// counts none of its words." No choice means that the words ran out.
pub fn step(
    graph: &Graph,
    values: &[u64],
    node: usize,
    target: u64,
    words: &[u64],
    at: &mut usize,
) -> Option<Choice> {
    match graph.nodes[node] {
        Node::Constant(_) | Node::Input(..) => None,
        Node::Unary(operand) => Some(Choice {
            node,
            target,
            side: None,
            operand,
            // "A step at Not passes its value to the operand."
            value: unary(Operator::Not, target).expect("Not"),
            how: How::Not,
            words: *at,
        }),
        Node::Binary(op, left, right) => {
            let side = side(graph, values, left, right, target, words, at)?;
            let (operand, other) = match side {
                Side::Lhs => (left, right),
                Side::Rhs => (right, left),
            };
            let (value, how) = value(op, side, values[other], target, words, at)?;
            Some(Choice {
                node,
                target,
                side: Some(side),
                operand,
                value,
                how,
                words: *at,
            })
        }
    }
}

/// "At a binary operator: left constant, take right; else right constant, take
/// left; else left if essential, else right if essential, else coin, true for
/// right."
fn side(
    graph: &Graph,
    values: &[u64],
    left: usize,
    right: usize,
    t: u64,
    words: &[u64],
    at: &mut usize,
) -> Option<Side> {
    if is_constant(&graph.nodes[left]) {
        return Some(Side::Rhs);
    }
    if is_constant(&graph.nodes[right]) {
        return Some(Side::Lhs);
    }
    if essential(graph, values, left, right, t, Side::Lhs) {
        return Some(Side::Lhs);
    }
    if essential(graph, values, right, left, t, Side::Rhs) {
        return Some(Side::Rhs);
    }
    if drawn(coin(words, *at), at)? {
        Some(Side::Rhs)
    } else {
        Some(Side::Lhs)
    }
}

/// "An operand p is essential when its sibling is an operator q and q's table
/// says no for s = value of p, the node's t, and the side opposite p."
pub fn essential(
    graph: &Graph,
    values: &[u64],
    p: usize,
    sibling: usize,
    t: u64,
    side_of_p: Side,
) -> bool {
    let q = match graph.nodes[sibling] {
        Node::Constant(_) | Node::Input(..) => return false,
        Node::Unary(_) => Operator::Not,
        Node::Binary(op, _, _) => op,
    };
    !reachable(q, side_of_p.opposite(), values[p], t)
}

/// "Then the consistent value is drawn; if the table says yes, the inverse,
/// then the choosing word."
fn value(
    op: Operator,
    side: Side,
    s: u64,
    t: u64,
    words: &[u64],
    at: &mut usize,
) -> Option<(u64, How)> {
    let consistent = drawn(consistent(op, side, t, words, *at).ok(), at)?;
    if !reachable(op, side, s, t) {
        return Some((consistent, How::Consistent));
    }
    let inverse = drawn(inverse(op, side, s, t, words, *at).ok(), at)?;
    if drawn(inverse_chosen(words, *at), at)? {
        Some((inverse, How::Inverse))
    } else {
        Some((consistent, How::Consistent))
    }
}

/// "Words taken count … every value, coin or choosing word drawn to its end":
/// a finished draw moves the position, an unfinished one does not.
fn drawn<T>(draw: Draw<T>, at: &mut usize) -> Option<T> {
    let (value, after) = draw?;
    *at = after;
    Some(value)
}

fn is_constant(node: &Node) -> bool {
    matches!(node, Node::Constant(_))
}

fn is_operator(node: &Node) -> bool {
    matches!(node, Node::Unary(_) | Node::Binary(..))
}
