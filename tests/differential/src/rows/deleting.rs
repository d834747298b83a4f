//! Deleting edges and nodes.

use crate::arguments::{bad_ids, counts, graph_and_node_list, with_ids_below, with_lists};
use crate::call::{Answer, Arguments, Outcome};
use crate::cases::{self, edge, p1, p8, p8_outgrown, plain, random, small};
use crate::form::{self, id_bytes, Drawing, VERSION_1, VERSION_2};
use crate::operation::Parameter::{Answered, Input, Room};
use crate::operation::{Forms, Group, Operation};
use crate::rng::Rng;
use crate::steps::{graph, id_list, made, node_list, stored};
use oracle::lax::EdgeId;

pub const GROUP: Group = Group {
    name: "deleting",
    operations: OPERATIONS,
    share: 1,
    fixed,
    every,
    step: 256,
    drawing: random::drawing_of,
    damaged: 1,
};

const OPERATIONS: &[Operation] = &[
    Operation {
        number: 12,
        name: "ohg_delete_edges",
        parameters: &[Input, Input, Answered, Room],
        refusals: &[1, 2, 3, 4, 5, 6, 13, 7, 10],
        picked: || picked(2),
        arguments: graph_and_edge_list,
        expected: delete_edges,
    },
    Operation {
        number: 13,
        name: "ohg_delete_nodes",
        parameters: &[Input, Input, Answered, Answered, Room],
        refusals: &[1, 2, 3, 4, 5, 6, 13, 7, 10],
        picked: || picked(3),
        arguments: graph_and_node_list,
        expected: delete_nodes,
    },
];

/// In a map of nodes, one that went: as many bytes of this as an id has.
const GONE: usize = u32::MAX as usize;

fn delete_edges(arguments: &Arguments) -> Outcome {
    let mut graph = graph(arguments)?;
    let ids = id_list(arguments, 1, graph.hypergraph.edges.len())?;
    let edges: Vec<EdgeId> = ids.into_iter().map(EdgeId).collect();
    graph.delete_edges(&edges);
    made(&graph, 0)
}

/// The graph, and the map that the original keeps to itself: `delete_nodes_witness` on a copy gives it.
fn delete_nodes(arguments: &Arguments) -> Outcome {
    let mut graph = graph(arguments)?;
    let nodes = node_list(arguments, 1, &graph)?;
    let map = graph.hypergraph.clone().delete_nodes_witness(&nodes);
    graph.delete_nodes(&nodes);
    let form = stored(&graph)?;
    let entries = map.iter().map(|new| new.unwrap_or(GONE));
    Ok(Answer {
        a: form.len() as u32,
        b: map.len() as u32,
        written: vec![form, id_bytes(entries, form::width(arguments.graph()))],
    })
}

fn graph_and_edge_list(graph: &[u8], rng: &mut Rng) -> Vec<Arguments> {
    let (_, edges) = counts(graph);
    with_ids_below(graph, edges, rng)
}

/// On P8, which has so many of what is deleted, in version 1, in version 2 because it has outgrown the other, and in
/// version 2 nevertheless: none, the middle one twice, all, a bad id, several of them, a broken end, also after a bad id, whole
/// entries of the other version, and more entries than 16 bits count. On P1: an id of none. Then what goes back to version 1.
fn picked(count: usize) -> Vec<Arguments> {
    let forms = [
        form::write(&p8()),
        form::write(&p8_outgrown()),
        form::write_as(VERSION_2, &p8()),
    ];
    let mut picked = vec![];
    for graph in &forms {
        let width = form::width(graph);
        let mut lists = vec![vec![], vec![1, 1], vec![count - 1, 0, 1], vec![count, 0]];
        lists.extend(bad_ids(count, width).into_iter().map(|id| vec![0, id]));
        lists.extend([vec![0, 1, count], vec![1, count, 0, count]]);
        lists.push(vec![1; 65_537]);
        let lists = lists.into_iter().map(|ids| id_bytes(ids, width));
        let bad_and_broken = id_bytes([count, 0], width)[..2 * width - 1].to_vec();
        let broken = [1, 2, 3, 5, 6, 7].map(|bytes| vec![0; bytes]);
        let of_the_other = [vec![1, 0, 0, 0], vec![0, 0, 1, 0]];
        let lists: Vec<Vec<u8>> = lists
            .chain([bad_and_broken])
            .chain(broken)
            .chain(of_the_other)
            .collect();
        picked.extend(with_lists(graph, &lists));
    }
    picked.extend(with_lists(&form::write(&p1()), &[vec![], vec![0, 0]]));
    picked.extend(outgrown().iter().flat_map(|drawing| {
        let lists = [[0, 0], [1, 1], [0, 1]].map(|ids| id_bytes(ids, VERSION_2.width));
        with_lists(&form::write(drawing), &lists)
    }));
    picked
}

/// Of each kind one or two more than version 1 holds, and node 1 and edge 1 mostly alone decide whether they go.
fn outgrown() -> Vec<Drawing> {
    let most = VERSION_1.most;
    let blank = edge(9, &[], &[]);
    let ports = [edge(9, &[0], &[1]), edge(9, &vec![1; most.ports - 1], &[0])];
    let two = plain(2, &[blank.clone(), blank.clone()]);
    let mut drawings = vec![plain(2, &ports)];
    for more in [1, 2] {
        drawings.push(plain(most.nodes + more, &two.edges));
        drawings.push(plain(2, &vec![blank.clone(); most.edges + more]));
        let entries: Vec<u32> = (0..most.sources + more)
            .map(|i| (i % 3 != 0) as u32)
            .collect();
        drawings.push(Drawing {
            sources: entries.clone(),
            ..two.clone()
        });
        drawings.push(Drawing {
            targets: entries.clone(),
            ..two.clone()
        });
        drawings.push(Drawing {
            pairs: entries.into_iter().map(|id| (id, 0)).collect(),
            ..plain(3, &two.edges)
        });
    }
    drawings
}

fn fixed(rng: &mut Rng) -> Vec<Vec<u8>> {
    cases::at_limits(rng, true)
}

fn every(mut rng: Rng) -> Forms {
    let largest = cases::at_largest(Rng::new(rng.number()), true);
    let small = small::graphs([3, 2, 3], true, rng).map(|drawing| form::write(&drawing));
    Box::new(largest.chain(small))
}

#[cfg(test)]
mod tests {
    use super::*;

    #[test]
    fn p8_without_nodes_1_and_1() {
        let list = id_bytes([1, 1], 2);
        let arguments = Arguments::new(&[], &[&form::write(&p8()), &list]);
        let answer = delete_nodes(&arguments).expect("it is answered");
        let drawing = form::read(&answer.written[0]).expect("it is a good form");
        assert_eq!(drawing.edges, [edge(9, &[0], &[0]), edge(10, &[1], &[1])]);
        assert_eq!(drawing.pairs, [(1, 0)]);
        assert_eq!(answer.written[1], id_bytes([0, 65_535, 1], 2));
        assert_eq!(answer.b, 3);
    }

    /// The map is as wide as the graph that was read, whatever version the answer has.
    #[test]
    fn a_graph_goes_back_to_version_1() {
        let graph = form::write(&plain(2049, &[]));
        let arguments = Arguments::new(&[], &[&graph, &id_bytes([1, 1], 4)]);
        let answer = delete_nodes(&arguments).expect("it is answered");
        assert_eq!(answer.written[0], form::write(&plain(2048, &[])));
        assert_eq!(form::width(&answer.written[0]), 2);
        let map = id_bytes([0, u32::MAX as usize].into_iter().chain(1..2048), 4);
        assert_eq!(answer.written[1], map);
        assert_eq!(answer.b, 2049);
    }
}
