//! All drawings of some small kinds.

use super::edge;
use super::joined::label_alike;
use super::random::{label, some_ids};
use crate::form::{Drawing, Edge, SPIDER};
use crate::rng::Rng;

/// All drawings of up to two nodes and two edges, each edge an operation or a spider with up to two ports, each global
/// list of up to one entry and up to one pair.
pub fn drawings() -> impl Iterator<Item = Drawing> {
    (0..=2).flat_map(|nodes| {
        let edges = up_to(2, &operations_and_spiders(nodes));
        combined(nodes, edges, 1, up_to(1, &pairs_of(nodes)))
    })
}

/// All drawings of up to so many nodes, so many edges, so many ports an edge and so many entries in each global list.
pub fn with_lists(
    [nodes, most_edges, ports, entries]: [usize; 4],
) -> impl Iterator<Item = Drawing> {
    (0..=nodes as u32).flat_map(move |nodes| {
        let edges = up_to(most_edges, &edges(nodes, ports));
        combined(nodes, edges, entries, vec![vec![]])
    })
}

/// All drawings of so many nodes with some of these edges, up to so many entries in each global list and some of these
/// pairs.
fn combined(
    nodes: u32,
    edges: Vec<Vec<Edge>>,
    entries: usize,
    pairs: Vec<Vec<(u32, u32)>>,
) -> impl Iterator<Item = Drawing> {
    let lists = up_to(entries, &(0..nodes).collect::<Vec<_>>());
    let total = edges.len() * lists.len() * lists.len() * pairs.len();
    (0..total).map(move |k| {
        let mut digits = k;
        Drawing {
            labels: vec![0x0403_0201, u32::MAX, 0][..nodes as usize].to_vec(),
            edges: edges[place(&mut digits, edges.len())].clone(),
            sources: lists[place(&mut digits, lists.len())].clone(),
            targets: lists[place(&mut digits, lists.len())].clone(),
            pairs: pairs[place(&mut digits, pairs.len())].clone(),
        }
    })
}

/// The next digit of a mixed-radix number.
pub fn place(digits: &mut usize, radix: usize) -> usize {
    let digit = *digits % radix;
    *digits /= radix;
    digit
}

/// All lists of up to so many of the given entries.
fn up_to<T: Clone>(most: usize, entries: &[T]) -> Vec<Vec<T>> {
    let mut lists = vec![vec![]];
    let mut longest = lists.clone();
    for _ in 0..most {
        longest = longest
            .iter()
            .flat_map(|list| {
                entries
                    .iter()
                    .map(move |e| [list.as_slice(), std::slice::from_ref(e)].concat())
            })
            .collect();
        lists.extend_from_slice(&longest);
    }
    lists
}

fn pairs_of(nodes: u32) -> Vec<(u32, u32)> {
    (0..nodes)
        .flat_map(|v| (0..nodes).map(move |w| (v, w)))
        .collect()
}

fn operations_and_spiders(nodes: u32) -> Vec<Edge> {
    let labelled = |edge: Edge| {
        [9, SPIDER].map(|label| Edge {
            label,
            ..edge.clone()
        })
    };
    edges(nodes, 2).into_iter().flat_map(labelled).collect()
}

/// All edges with up to so many ports on so many nodes.
fn edges(nodes: u32, ports: usize) -> Vec<Edge> {
    let mut edges = vec![];
    for ports in up_to(ports, &(0..nodes).collect::<Vec<_>>()) {
        for split in 0..=ports.len() {
            edges.push(edge(9, &ports[..split], &ports[split..]));
        }
    }
    edges
}

/// All graphs of up to so many nodes, so many edges and so many ports an edge, in every order of edges and ports.
/// Labels, spiders and global lists are left to chance, and so are pairs where they are wanted, which mostly can be merged.
pub fn graphs(
    [nodes, most_edges, ports]: [usize; 3],
    pairs: bool,
    mut rng: Rng,
) -> impl Iterator<Item = Drawing> {
    let all = (0..=nodes).flat_map(move |nodes| {
        let edges = edges(nodes as u32, ports);
        (0..=most_edges as u32).flat_map(move |count| {
            let edges = edges.clone();
            (0..edges.len().pow(count)).map(move |k| {
                let mut digits = k;
                let some = (0..count).map(|_| edges[place(&mut digits, edges.len())].clone());
                (nodes, some.collect())
            })
        })
    });
    all.map(move |(nodes, edges)| dressed(&mut rng, nodes, edges, pairs))
}

fn dressed(rng: &mut Rng, nodes: usize, mut edges: Vec<Edge>, pairs: bool) -> Drawing {
    for edge in &mut edges {
        edge.label = label(rng);
    }
    let mut short_list = |most: usize| {
        let n = rng.below(most + 1);
        some_ids(rng, if nodes == 0 { 0 } else { n }, nodes)
    };
    let (sources, targets) = (short_list(3), short_list(3));
    let most_pairs = if pairs { 2 } else { 0 };
    let (left, right) = (short_list(most_pairs), short_list(most_pairs));
    let mut drawing = Drawing {
        labels: (0..nodes).map(|_| label(rng)).collect(),
        edges,
        sources,
        targets,
        pairs: left.into_iter().zip(right).collect(),
    };
    if !rng.once_in(4) {
        label_alike(&mut drawing);
    }
    drawing
}

/// All drawings of up to so many nodes, each of one of two labels, with up to so many pairs. Their two edges, of up to two
/// sources and two targets each, and the global lists are left to chance.
pub fn joined([nodes, most_pairs]: [usize; 2], mut rng: Rng) -> impl Iterator<Item = Drawing> {
    let all = (0..=nodes).flat_map(move |nodes| {
        let pairs = up_to(most_pairs, &pairs_of(nodes as u32));
        (0..pairs.len() << nodes).map(move |k| {
            let mut digits = k;
            let pairs = pairs[place(&mut digits, pairs.len())].clone();
            let labels = (0..nodes).map(|_| 6 + place(&mut digits, 2) as u32);
            (labels.collect::<Vec<_>>(), pairs)
        })
    });
    all.map(move |(labels, pairs)| {
        let nodes = labels.len();
        let most_ids = nodes.min(2);
        let mut ids = || {
            let n = rng.between(0, most_ids);
            some_ids(&mut rng, n, nodes)
        };
        let edges = [(); 2].map(|_| edge(9, &ids(), &ids())).to_vec();
        Drawing {
            labels,
            pairs,
            ..dressed(&mut rng, nodes, edges, false)
        }
    })
}
