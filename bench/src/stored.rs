//! The original's graph from the stored form and back, with nothing made in between.

use differential::convert::{self, to_label, Graph};
use differential::form::{self, number, numbers, Version, MARK, SPIDER};
use oracle::lax::spider::WithSpider;
use oracle::lax::{Hyperedge, Hypergraph, NodeId};

/// The graph of a form, which is a good one and is checked first.
pub fn decode(form: &[u8]) -> Graph {
    match form::width(form) {
        2 => decode_by::<2>(form),
        _ => decode_by::<4>(form),
    }
}

fn decode_by<const WIDTH: usize>(form: &[u8]) -> Graph {
    let sizes = form::sizes(form).expect("it is a good form");
    let count = |counts, i| number(counts, i * WIDTH, WIDTH) as usize;
    let (labels, rest) = form[sizes.version().header_bytes()..].split_at(4 * sizes.nodes);
    let (edge_labels, mut rest) = rest.split_at(4 * sizes.edges);
    let mut adjacency = Vec::with_capacity(sizes.edges);
    for _ in 0..sizes.edges {
        let (counts, ports) = rest.split_at(2 * WIDTH);
        let (sources, ports) = ports.split_at(WIDTH * count(counts, 0));
        let (targets, after) = ports.split_at(WIDTH * count(counts, 1));
        adjacency.push(Hyperedge {
            sources: nodes::<WIDTH>(sources),
            targets: nodes::<WIDTH>(targets),
        });
        rest = after;
    }
    let (sources, rest) = rest.split_at(WIDTH * sizes.sources);
    let (targets, pairs) = rest.split_at(WIDTH * sizes.targets);
    let pairs = pairs.chunks_exact(2 * WIDTH);
    Graph {
        sources: nodes::<WIDTH>(sources),
        targets: nodes::<WIDTH>(targets),
        hypergraph: Hypergraph {
            nodes: numbers(labels).collect(),
            edges: numbers(edge_labels).map(to_label).collect(),
            adjacency,
            quotient: (
                pairs.clone().map(|pair| NodeId(count(pair, 0))).collect(),
                pairs.map(|pair| NodeId(count(pair, 1))).collect(),
            ),
        },
    }
}

pub fn decode_all(forms: &[Vec<u8>]) -> Vec<Graph> {
    forms.iter().map(|form| decode(form)).collect()
}

fn nodes<const WIDTH: usize>(ids: &[u8]) -> Vec<NodeId> {
    let ids = form::ids::<WIDTH>(ids);
    ids.map(|id| NodeId(id as usize)).collect()
}

/// The form of a graph, which is within the limits.
pub fn encode(graph: &Graph) -> Vec<u8> {
    let sizes = convert::sizes(graph);
    let version = sizes.version();
    let mut form = Vec::with_capacity(version.form_bytes(&sizes));
    match version.width {
        2 => encode_by::<2>(version, graph, &mut form),
        _ => encode_by::<4>(version, graph, &mut form),
    }
    form
}

fn encode_by<const WIDTH: usize>(version: Version, graph: &Graph, form: &mut Vec<u8>) {
    let hypergraph = &graph.hypergraph;
    let (left, right) = &hypergraph.quotient;
    form.extend_from_slice(&MARK);
    form.extend_from_slice(&version.number.to_le_bytes());
    let counts = [
        hypergraph.nodes.len(),
        hypergraph.edges.len(),
        graph.sources.len(),
        graph.targets.len(),
        left.len(),
    ];
    put::<WIDTH>(form, counts);
    for label in &hypergraph.nodes {
        form.extend_from_slice(&label.to_le_bytes());
    }
    for label in &hypergraph.edges {
        let label = match label {
            WithSpider::Operation(label) => *label,
            WithSpider::Spider => SPIDER,
        };
        form.extend_from_slice(&label.to_le_bytes());
    }
    for Hyperedge { sources, targets } in &hypergraph.adjacency {
        put::<WIDTH>(form, [sources.len(), targets.len()]);
        put_nodes::<WIDTH>(form, sources);
        put_nodes::<WIDTH>(form, targets);
    }
    put_nodes::<WIDTH>(form, &graph.sources);
    put_nodes::<WIDTH>(form, &graph.targets);
    for (v, w) in left.iter().zip(right) {
        put::<WIDTH>(form, [v.0, w.0]);
    }
}

fn put_nodes<const WIDTH: usize>(form: &mut Vec<u8>, nodes: &[NodeId]) {
    put::<WIDTH>(form, nodes.iter().map(|node| node.0));
}

fn put<const WIDTH: usize>(form: &mut Vec<u8>, numbers: impl IntoIterator<Item = usize>) {
    for number in numbers {
        form.extend_from_slice(&(number as u32).to_le_bytes()[..WIDTH]);
    }
}
