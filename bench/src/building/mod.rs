//! Making graphs, and adding to them.

pub mod exported;

use crate::drawings::{described, forms_of, label_bytes, list_for, version, MANY, MEASURED};
use crate::sides::{assert_answered, graph_times, Times};
use crate::stored::encode;
use crate::table::{Table, ORIGINAL};
use crate::timing::{medians, Side};
use differential::convert::{to_label, Graph};
use differential::form::{self, Sizes, Version, VERSION_1, VERSION_2};
use exported::*;
use oracle::lax::{EdgeId, Hyperedge, Hypergraph, NodeId};
use std::mem::take;

/// With the most labels that a call takes in a version.
const MAKING: [(&str, Times, fn(Version) -> usize); 3] = [
    ("ohg_discrete", discrete, |version| version.most.nodes),
    ("ohg_identity", identity, |version| version.most.sources),
    ("ohg_singleton", singleton, |version| version.most.nodes),
];

const ADDING: [(&str, Times); 6] = [
    ("ohg_new_node", new_node),
    ("ohg_new_edge", new_edge),
    ("ohg_new_operation", new_operation),
    ("ohg_unify", unify),
    ("ohg_add_edge_source", add_edge_source),
    ("ohg_add_edge_target", add_edge_target),
];

pub fn measure() -> Vec<Table> {
    let mut making = Table::begin("Making graphs", &["call", "labels"], &ORIGINAL);
    let mut row = |version, call: &str, labels: usize, times: Times| {
        let words = [format!("`{call}`"), labels.to_string()];
        making.row(version, &words, &times(&[label_bytes(labels)]));
    };
    row(VERSION_1, "ohg_empty", 0, empty);
    for (call, times, most) in MAKING {
        for (version, fewer) in [(VERSION_1, &[10, 500][..]), (VERSION_2, &[MANY])] {
            for &labels in fewer.iter().chain(&[most(version)]) {
                row(version, call, labels, times);
            }
        }
    }
    let mut adding = Table::begin("Adding to a graph", &["call", "drawing"], &ORIGINAL);
    for forms in MEASURED.map(addable).map(forms_of) {
        for (call, times) in ADDING {
            let words = [format!("`{call}`"), described(&forms)];
            adding.row(version(&forms[0]), &words, &times(&forms));
        }
    }
    vec![making, adding]
}

/// The largest drawing of a version to which any of the functions can add, in place of the largest.
fn addable(sizes: Sizes) -> Sizes {
    if sizes != sizes.version().most {
        return sizes;
    }
    Sizes {
        nodes: sizes.nodes - 4,
        edges: sizes.edges - 1,
        ports: sizes.ports - 4,
        pairs: sizes.pairs - 1,
        ..sizes
    }
}

pub fn empty(lists: &[Vec<u8>]) -> Vec<f64> {
    made(lists, |_, out| ohg_empty(out), |_| Graph::empty())
}

pub fn discrete(lists: &[Vec<u8>]) -> Vec<f64> {
    made(lists, ohg_discrete, |labels| Graph {
        hypergraph: Hypergraph::discrete(labels),
        ..Graph::empty()
    })
}

pub fn identity(lists: &[Vec<u8>]) -> Vec<f64> {
    made(lists, ohg_identity, Graph::identity)
}

/// Half of the labels are the sources'.
pub fn singleton(lists: &[Vec<u8>]) -> Vec<f64> {
    made(
        lists,
        |labels, out| {
            let (sources, targets) = labels.split_at(labels.len() / 4 / 2 * 4);
            ohg_singleton(9, sources, targets, out)
        },
        |mut sources| {
            let targets = sources.split_off(sources.len() / 2);
            Graph::singleton(to_label(9), sources, targets)
        },
    )
}

/// The times of a function that makes a graph of labels. Decoded, the original is given a `Vec` of them.
#[track_caller]
fn made(
    lists: &[Vec<u8>],
    mut port: impl FnMut(&[u8], &mut [u8]) -> u64,
    original: impl Fn(Vec<u32>) -> Graph,
) -> Vec<f64> {
    let decoded = |labels: &Vec<u8>| form::numbers(labels).collect::<Vec<u32>>();
    let stored = |labels: &Vec<u8>| encode(&original(decoded(labels)));
    let mut out = vec![0; VERSION_2.most_bytes()];
    for labels in lists {
        assert_answered(port(labels, &mut out), &out, &stored(labels));
    }
    let vecs: Vec<Vec<u32>> = lists.iter().map(decoded).collect();
    medians(vec![
        Side::new(lists, |labels| port(labels, &mut out)),
        Side::on_copies(&vecs, lists[0].len(), |labels| original(take(labels))),
        Side::new(lists, stored),
    ])
}

pub fn new_node(forms: &[Vec<u8>]) -> Vec<f64> {
    graph_times(
        forms,
        |src, out| ohg_new_node(src, 7, out),
        |graph, _| graph.new_node(7),
    )
}

/// Two sources and two targets.
pub fn new_edge(forms: &[Vec<u8>]) -> Vec<f64> {
    let [sources, targets] = [[0, 1], [1, 2]];
    let ids = [sources, targets].map(|ids| list_for(forms, ids));
    graph_times(
        forms,
        |src, out| ohg_new_edge(src, 9, &ids[0], &ids[1], out),
        |graph, _| {
            let interface = Hyperedge {
                sources: sources.map(NodeId).to_vec(),
                targets: targets.map(NodeId).to_vec(),
            };
            graph.new_edge(to_label(9), interface)
        },
    )
}

/// Two sources and two targets.
pub fn new_operation(forms: &[Vec<u8>]) -> Vec<f64> {
    let labels = label_bytes(2);
    graph_times(
        forms,
        |src, out| ohg_new_operation(src, 9, &labels, &labels, out),
        |graph, _| graph.new_operation(to_label(9), vec![0, 1], vec![0, 1]),
    )
}

pub fn unify(forms: &[Vec<u8>]) -> Vec<f64> {
    graph_times(
        forms,
        |src, out| ohg_unify(src, 1, 2, out),
        |graph, _| graph.unify(NodeId(1), NodeId(2)),
    )
}

pub fn add_edge_source(forms: &[Vec<u8>]) -> Vec<f64> {
    graph_times(
        forms,
        |src, out| ohg_add_edge_source(src, 2, 7, out),
        |graph, _| graph.add_edge_source(EdgeId(2), 7),
    )
}

pub fn add_edge_target(forms: &[Vec<u8>]) -> Vec<f64> {
    graph_times(
        forms,
        |src, out| ohg_add_edge_target(src, 2, 7, out),
        |graph, _| graph.add_edge_target(EdgeId(2), 7),
    )
}
