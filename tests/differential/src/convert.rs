//! A stored drawing as the original's graph, and back.

use crate::form::{Drawing, Edge, Sizes, SPIDER};
use oracle::lax::spider::WithSpider;
use oracle::lax::{Hyperedge, NodeId, OpenHypergraph};

/// The original's graph. Its own `WithSpider` tells a spider from an operation.
pub type Graph = OpenHypergraph<u32, WithSpider<u32>>;

pub fn to_lax(drawing: &Drawing) -> Graph {
    let mut graph = Graph::empty();
    graph.hypergraph.nodes = drawing.labels.clone();
    graph.sources = to_nodes(&drawing.sources);
    graph.targets = to_nodes(&drawing.targets);
    for edge in &drawing.edges {
        let interface = Hyperedge {
            sources: to_nodes(&edge.sources),
            targets: to_nodes(&edge.targets),
        };
        graph.new_edge(to_label(edge.label), interface);
    }
    for &(v, w) in &drawing.pairs {
        graph.unify(NodeId(v as usize), NodeId(w as usize));
    }
    graph
}

pub fn from_lax(graph: &Graph) -> Drawing {
    let hypergraph = &graph.hypergraph;
    let (left, right) = &hypergraph.quotient;
    Drawing {
        labels: hypergraph.nodes.clone(),
        edges: hypergraph
            .edges
            .iter()
            .zip(&hypergraph.adjacency)
            .map(|(label, adjacency)| Edge {
                label: from_label(label),
                sources: from_nodes(&adjacency.sources),
                targets: from_nodes(&adjacency.targets),
            })
            .collect(),
        sources: from_nodes(&graph.sources),
        targets: from_nodes(&graph.targets),
        pairs: from_nodes(left)
            .into_iter()
            .zip(from_nodes(right))
            .collect(),
    }
}

/// How large the original's graph is, which may be larger than any drawing.
pub fn sizes(graph: &Graph) -> Sizes {
    let hypergraph = &graph.hypergraph;
    Sizes {
        nodes: hypergraph.nodes.len(),
        edges: hypergraph.edges.len(),
        ports: hypergraph
            .adjacency
            .iter()
            .map(|adjacency| adjacency.sources.len() + adjacency.targets.len())
            .sum(),
        sources: graph.sources.len(),
        targets: graph.targets.len(),
        pairs: hypergraph.quotient.0.len(),
    }
}

pub fn to_label(label: u32) -> WithSpider<u32> {
    match label {
        SPIDER => WithSpider::Spider,
        label => WithSpider::Operation(label),
    }
}

fn from_label(label: &WithSpider<u32>) -> u32 {
    match label {
        WithSpider::Spider => SPIDER,
        WithSpider::Operation(label) => *label,
    }
}

fn to_nodes(ids: &[u32]) -> Vec<NodeId> {
    ids.iter().map(|&id| NodeId(id as usize)).collect()
}

fn from_nodes(nodes: &[NodeId]) -> Vec<u32> {
    nodes.iter().map(|node| node.0 as u32).collect()
}
