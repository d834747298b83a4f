//! What a drawing is made of.

use ohg::{Graph, NodeId};
use std::array;

/// A block, or a spider.
pub struct Edge {
    pub label: u32,
    pub sources: Vec<NodeId>,
    pub targets: Vec<NodeId>,
}

/// A drawing's parts, each in the order of its ids or entries.
pub struct Drawing {
    /// The labels of the nodes.
    pub nodes: Vec<u32>,
    pub edges: Vec<Edge>,
    /// The global sources.
    pub sources: Vec<NodeId>,
    /// The global targets.
    pub targets: Vec<NodeId>,
    /// The pending pairs.
    pub pairs: Vec<(NodeId, NodeId)>,
}

impl Drawing {
    /// The parts of a graph, from its stored form as `docs/INTERFACE.md` lays it out. A graph's bytes are a valid form, so
    /// all that its counts call for is there.
    pub fn of(graph: &Graph) -> Drawing {
        let (start, rest) = graph.as_bytes().split_at(5);
        let width = if start[3] == 1 { 2 } else { 4 };
        let mut form = Form { rest, width };
        let [nodes, edges, sources, targets, pairs] = array::from_fn(|_| form.count());
        let (nodes, labels) = (form.labels(nodes), form.labels(edges));
        Drawing {
            nodes,
            edges: labels.into_iter().map(|label| form.edge(label)).collect(),
            sources: form.nodes(sources),
            targets: form.nodes(targets),
            pairs: (0..pairs).map(|_| (form.node(), form.node())).collect(),
        }
    }
}

/// What is left of a form in which counts and ids have this many bytes.
struct Form<'a> {
    rest: &'a [u8],
    width: usize,
}

impl Form<'_> {
    fn number(&mut self, bytes: usize) -> u32 {
        let (number, rest) = self.rest.split_at(bytes);
        self.rest = rest;
        let higher = |n, &byte| n << 8 | u32::from(byte);
        number.iter().rev().fold(0, higher)
    }

    fn count(&mut self) -> usize {
        self.number(self.width) as usize
    }

    fn node(&mut self) -> NodeId {
        NodeId(self.number(self.width))
    }

    fn nodes(&mut self, count: usize) -> Vec<NodeId> {
        (0..count).map(|_| self.node()).collect()
    }

    fn labels(&mut self, count: usize) -> Vec<u32> {
        (0..count).map(|_| self.number(4)).collect()
    }

    fn edge(&mut self, label: u32) -> Edge {
        let (sources, targets) = (self.count(), self.count());
        Edge {
            label,
            sources: self.nodes(sources),
            targets: self.nodes(targets),
        }
    }
}
