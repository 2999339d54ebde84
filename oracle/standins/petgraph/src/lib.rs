//! A directed graph, as far as symbolic_state.rs needs it to build and to list a
//! formula. As in `petgraph`, each node's incoming edges are chained from the one that
//! was added last to the first, and a walk goes along that chain.

use std::ops::Index;

#[derive(Clone, Copy)]
pub struct NodeIndex(usize);

impl NodeIndex {
    pub fn new(place: usize) -> NodeIndex {
        NodeIndex(place)
    }

    pub fn index(self) -> usize {
        self.0
    }
}

#[derive(Clone, Copy)]
pub struct EdgeIndex(usize);

pub enum Direction {
    Incoming,
}

struct Node<N> {
    weight: N,
    last_incoming: Option<EdgeIndex>,
}

struct Edge {
    from: NodeIndex,
    incoming_before: Option<EdgeIndex>,
}

pub struct Graph<N> {
    nodes: Vec<Node<N>>,
    edges: Vec<Edge>,
}

impl<N> Graph<N> {
    pub fn new() -> Graph<N> {
        Graph {
            nodes: Vec::new(),
            edges: Vec::new(),
        }
    }

    pub fn add_node(&mut self, weight: N) -> NodeIndex {
        self.nodes.push(Node {
            weight,
            last_incoming: None,
        });
        NodeIndex(self.nodes.len() - 1)
    }

    pub fn add_edge(&mut self, from: NodeIndex, to: NodeIndex) -> EdgeIndex {
        let added = EdgeIndex(self.edges.len());
        let incoming_before = self.nodes[to.0].last_incoming.replace(added);
        self.edges.push(Edge {
            from,
            incoming_before,
        });
        added
    }

    pub fn neighbors_directed(&self, of: NodeIndex, _: Direction) -> Neighbors {
        Neighbors {
            next: self.nodes[of.0].last_incoming,
        }
    }
}

impl<N> Default for Graph<N> {
    fn default() -> Graph<N> {
        Graph::new()
    }
}

impl<N> Index<NodeIndex> for Graph<N> {
    type Output = N;

    fn index(&self, of: NodeIndex) -> &N {
        &self.nodes[of.0].weight
    }
}

/// The nodes that the incoming edges come from.
pub struct Neighbors {
    next: Option<EdgeIndex>,
}

impl Neighbors {
    /// A walk that does not borrow the graph: it is lent at each step.
    pub fn detach(&self) -> WalkNeighbors {
        WalkNeighbors { next: self.next }
    }
}

pub struct WalkNeighbors {
    next: Option<EdgeIndex>,
}

impl WalkNeighbors {
    pub fn next<N>(&mut self, graph: &Graph<N>) -> Option<(EdgeIndex, NodeIndex)> {
        let edge = self.next?;
        self.next = graph.edges[edge.0].incoming_before;
        Some((edge, graph.edges[edge.0].from))
    }
}
