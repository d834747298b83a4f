//! Arguments that several operations are tried with on a stored form: good ones mostly, broken ones now and then.

use crate::call::Arguments;
use crate::form::{self, id_bytes};
use crate::rng::Rng;

/// For a function that takes a stored graph and no more.
pub fn graph_alone(graph: &[u8], _: &mut Rng) -> Vec<Arguments> {
    vec![Arguments::new(&[], &[graph])]
}

/// For a function that takes a stored graph and a list of its nodes.
pub fn graph_and_node_list(graph: &[u8], rng: &mut Rng) -> Vec<Arguments> {
    let (nodes, _) = counts(graph);
    with_ids_below(graph, nodes, rng)
}

/// The graph with lists of ids below a count: one by chance, and another one, or, of up to three ids, all subsets. A form
/// that is refused goes with one list.
pub fn with_ids_below(graph: &[u8], count: usize, rng: &mut Rng) -> Vec<Arguments> {
    let width = form::width(graph);
    let mut lists = vec![id_list(rng, count, width)];
    if form::sizes(graph).is_ok() {
        match count {
            0..=3 => lists.extend((0..1 << count).map(|set| subset(rng, set, width))),
            _ => lists.push(id_list(rng, count, width)),
        }
    }
    with_lists(graph, &lists)
}

/// The graph with each of some lists.
pub fn with_lists(graph: &[u8], lists: &[Vec<u8>]) -> Vec<Arguments> {
    let with = |list: &Vec<u8>| Arguments::new(&[], &[graph, list]);
    lists.iter().map(with).collect()
}

/// The nodes and edges of a good form; some numbers where it is refused.
pub fn counts(form: &[u8]) -> (usize, usize) {
    form::sizes(form).map_or((3, 3), |sizes| (sizes.nodes, sizes.edges))
}

/// The ids whose bits are set, in some order, now and then one of them again.
fn subset(rng: &mut Rng, set: usize, width: usize) -> Vec<u8> {
    let mut ids = vec![];
    for id in (0..3).filter(|id| set >> id & 1 == 1) {
        for _ in 0..rng.pick(&[1, 1, 2]) {
            let at = rng.between(0, ids.len());
            ids.insert(at, id);
        }
    }
    id_bytes(ids, width)
}

/// A list of ids of so many bytes: none, one, some with repeats, all up or down, very many; now and then with bad ids, a broken end, or both.
pub fn id_list(rng: &mut Rng, count: usize, width: usize) -> Vec<u8> {
    let mut ids: Vec<usize> = match rng.below(10) {
        0 => vec![],
        1 => (0..count).collect(),
        2 => (0..count).rev().collect(),
        3 | 4 => some_ids(rng, count, 1),
        5 if rng.once_in(100) => some_ids(rng, count, 9000),
        _ => {
            let n = rng.below(8);
            some_ids(rng, count, n)
        }
    };
    if rng.once_in(12) {
        for _ in 0..rng.pick(&[1, 1, 2, 3]) {
            let at = rng.between(0, ids.len());
            ids.insert(at, rng.pick(&bad_ids(count, width)));
        }
        // A broken end comes before them.
        if rng.once_in(4) {
            ids.push(count);
            let mut list = id_bytes(ids, width);
            list.pop();
            return list;
        }
    }
    broken(rng, id_bytes(ids, width))
}

/// Ids that are not below a count: the next one and the highest; where they have 4 bytes, also the highest of 2 bytes, and
/// those whose low two bytes are good.
pub fn bad_ids(count: usize, width: usize) -> Vec<usize> {
    match width {
        2 => vec![count, 65_535],
        _ => vec![count, 65_535, 65_536, 1 << 31, u32::MAX as usize],
    }
}

fn some_ids(rng: &mut Rng, count: usize, n: usize) -> Vec<usize> {
    let n = if count == 0 { 0 } else { n };
    (0..n).map(|_| rng.below(count)).collect()
}

/// Now and then a byte or more of another entry at the end.
pub fn broken(rng: &mut Rng, mut list: Vec<u8>) -> Vec<u8> {
    if rng.once_in(12) {
        let more = rng.between(1, 3);
        list.extend(rng.bytes(more));
    }
    list
}
