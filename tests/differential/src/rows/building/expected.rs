//! What each building function must give.

use crate::call::{Arguments, Outcome};
use crate::convert::{to_label, Graph};
use crate::form;
use crate::place::{in_id, in_list};
use crate::steps::{graph, made, node_list, Checked};
use oracle::lax::{EdgeId, Hyperedge, Hypergraph, NodeId, OpenHypergraph};

/// 7: a broken entry at the end.
fn label_list(bytes: &[u8]) -> Checked<Vec<u32>> {
    in_list(bytes, 4, None)?;
    Ok(form::numbers(bytes).collect())
}

/// 7: an id not below its count.
fn known(id: u32, count: usize) -> Checked<usize> {
    in_id(id, count)?;
    Ok(id as usize)
}

pub fn empty(_: &Arguments) -> Outcome {
    made(&Graph::empty(), 0)
}

pub fn discrete(arguments: &Arguments) -> Outcome {
    let labels = label_list(&arguments.inputs[0])?;
    let mut graph = Graph::empty();
    graph.hypergraph = Hypergraph::discrete(labels);
    made(&graph, 0)
}

pub fn identity(arguments: &Arguments) -> Outcome {
    let labels = label_list(&arguments.inputs[0])?;
    made(&OpenHypergraph::identity(labels), 0)
}

pub fn singleton(arguments: &Arguments) -> Outcome {
    let sources = label_list(&arguments.inputs[0])?;
    let targets = label_list(&arguments.inputs[1])?;
    let label = to_label(arguments.numbers[0]);
    made(&OpenHypergraph::singleton(label, sources, targets), 0)
}

pub fn new_node(arguments: &Arguments) -> Outcome {
    let mut graph = graph(arguments)?;
    let node = graph.new_node(arguments.numbers[0]);
    made(&graph, node.0)
}

pub fn new_edge(arguments: &Arguments) -> Outcome {
    let mut graph = graph(arguments)?;
    let sources = node_list(arguments, 1, &graph)?;
    let targets = node_list(arguments, 2, &graph)?;
    let label = to_label(arguments.numbers[0]);
    let edge = graph.new_edge(label, Hyperedge { sources, targets });
    made(&graph, edge.0)
}

pub fn new_operation(arguments: &Arguments) -> Outcome {
    let mut graph = graph(arguments)?;
    let sources = label_list(&arguments.inputs[1])?;
    let targets = label_list(&arguments.inputs[2])?;
    let label = to_label(arguments.numbers[0]);
    let (edge, _) = graph.new_operation(label, sources, targets);
    made(&graph, edge.0)
}

pub fn unify(arguments: &Arguments) -> Outcome {
    let mut graph = graph(arguments)?;
    let nodes = graph.hypergraph.nodes.len();
    let v = known(arguments.numbers[0], nodes)?;
    let w = known(arguments.numbers[1], nodes)?;
    graph.unify(NodeId(v), NodeId(w));
    made(&graph, 0)
}

pub fn add_edge_source(arguments: &Arguments) -> Outcome {
    let mut graph = graph(arguments)?;
    let edge = known(arguments.numbers[0], graph.hypergraph.edges.len())?;
    let node = graph.add_edge_source(EdgeId(edge), arguments.numbers[1]);
    made(&graph, node.0)
}

pub fn add_edge_target(arguments: &Arguments) -> Outcome {
    let mut graph = graph(arguments)?;
    let edge = known(arguments.numbers[0], graph.hypergraph.edges.len())?;
    let node = graph.add_edge_target(EdgeId(edge), arguments.numbers[1]);
    made(&graph, node.0)
}
