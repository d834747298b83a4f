//! Drawings of a shape that the choice depends on: loops of several kinds, hubs, trees, ties.

use crate::cases::random::{label, some_ids};
use crate::cases::{edge, limits, plain};
use crate::form::{Drawing, Edge};
use crate::rng::Rng;

/// A family gives a drawing of so many nodes, of which there is at least one, and of no more edges, within the limits of
/// the version that so many nodes go with.
pub type Family = fn(&mut Rng, usize) -> Drawing;

pub const FAMILIES: [Family; 9] = [
    sparse,
    dense,
    ring,
    small_rings,
    heavy_ring,
    tree,
    hub,
    ladder,
    self_loops,
];

/// As many edges as nodes, each from one node to another by chance.
pub fn sparse(rng: &mut Rng, nodes: usize) -> Drawing {
    by_chance(rng, nodes, 1)
}

/// As many edges as nodes, each with up to eight sources and eight targets by chance.
pub fn dense(rng: &mut Rng, nodes: usize) -> Drawing {
    by_chance(rng, nodes, (limits(nodes).ports / 2 / nodes).min(8))
}

fn by_chance(rng: &mut Rng, nodes: usize, ends: usize) -> Drawing {
    let mut ids = || some_ids(rng, ends, nodes);
    let edges = (0..nodes).map(|_| edge(9, &ids(), &ids()));
    plain(nodes, &edges.collect::<Vec<_>>())
}

/// All nodes in one ring.
pub fn ring(_: &mut Rng, nodes: usize) -> Drawing {
    rings(nodes, nodes)
}

/// Rings of up to four nodes.
fn small_rings(rng: &mut Rng, nodes: usize) -> Drawing {
    rings(nodes, rng.between(1, 4))
}

/// Rings of so many nodes each; the last one may be smaller.
pub fn rings(nodes: usize, of: usize) -> Drawing {
    let next = |node: usize| {
        let start = node - node % of;
        let end = nodes.min(start + of);
        if node + 1 < end {
            node + 1
        } else {
            start
        }
    };
    let edges = (0..nodes).map(|node| edge(9, &[node as u32], &[next(node) as u32]));
    plain(nodes, &edges.collect::<Vec<_>>())
}

/// All nodes in one ring, each entered as many times at the edge to it as at the edge from it; now and then some of them
/// very often, so that scores are large.
pub fn heavy_ring(rng: &mut Rng, nodes: usize) -> Drawing {
    let ports = limits(nodes).ports;
    let most = if rng.once_in(8) { ports } else { 4 };
    let most = most.min(ports / 2 / nodes);
    let entries: Vec<Vec<u32>> = (0..nodes)
        .map(|node| vec![node as u32; rng.between(1, most)])
        .collect();
    let edges = (0..nodes).map(|node| edge(9, &entries[node], &entries[(node + 1) % nodes]));
    plain(nodes, &edges.collect::<Vec<_>>())
}

/// Drawings of so many ports, of which there are a multiple of four: the largest score that there can be, alone and beside
/// others; a node and an edge with all ports but one on one side, and with all of them; and the longest queues of
/// candidates, since an edge that leads nowhere is removed freely and with it as many entries of nodes that stay.
pub fn heaviest(ports: usize) -> Vec<Drawing> {
    let (half, quarter) = (ports / 2, ports / 4);
    let on = |node: u32, sources: usize, targets: usize| {
        edge(9, &vec![node; sources], &vec![node; targets])
    };
    let all: Vec<u32> = (0..quarter as u32).collect();
    vec![
        plain(1, &[on(0, half, half)]),
        plain(2, &[on(0, quarter, quarter), on(1, quarter, quarter)]),
        plain(2, &[on(0, 1, half - 1), on(1, quarter, quarter)]),
        plain(1, &[on(0, ports - 1, 1)]),
        plain(1, &[on(0, 1, ports - 1)]),
        plain(1, &[on(0, ports, 0)]),
        plain(1, &[on(0, 0, ports)]),
        plain(1, &[on(0, half, 0), on(0, 0, half)]),
        plain(1, &[on(0, 1, 1), on(0, ports - 2, 0)]),
        plain(1, &[on(0, 0, ports - 2), on(0, 1, 1)]),
        plain(
            quarter,
            &[edge(9, &all, &all), edge(9, &all.repeat(2), &[])],
        ),
    ]
}

/// Each node but the first is fed by one before it: no loop.
pub fn tree(rng: &mut Rng, nodes: usize) -> Drawing {
    let edges = (1..nodes).map(|node| edge(9, &[rng.below(node) as u32], &[node as u32]));
    plain(nodes, &edges.collect::<Vec<_>>())
}

/// The first node feeds all others, two by an edge, and is fed by them.
pub fn hub(_: &mut Rng, nodes: usize) -> Drawing {
    let others: Vec<u32> = (1..nodes as u32).collect();
    let both_ways = |two: &[u32]| [edge(9, &[0], two), edge(9, two, &[0])];
    let edges = others.chunks_exact(2).flat_map(both_ways);
    plain(nodes, &edges.collect::<Vec<_>>())
}

/// Two rings side by side, each node feeding the next in its ring and the one beside it: all scores are equal.
fn ladder(_: &mut Rng, nodes: usize) -> Drawing {
    let half = nodes / 2;
    let rung = |i: usize| {
        let next = (i + 1) % half;
        let [here, beside] = [i, half + i].map(|node| node as u32);
        let [after, after_beside] = [next, half + next].map(|node| node as u32);
        [
            edge(9, &[here], &[after, beside]),
            edge(9, &[beside], &[after_beside, here]),
        ]
    };
    plain(nodes, &(0..half).flat_map(rung).collect::<Vec<_>>())
}

/// Each node with an edge from it to itself, entered up to twice either way.
fn self_loops(rng: &mut Rng, nodes: usize) -> Drawing {
    let mut entries = |node: usize| vec![node as u32; rng.between(1, 2)];
    let edges = (0..nodes).map(|node| edge(9, &entries(node), &entries(node)));
    plain(nodes, &edges.collect::<Vec<_>>())
}

/// A drawing of one family or of two side by side, often with repeated ports, a few edges across, other labels, global
/// lists, and nodes and edges in another order.
pub fn mixed(rng: &mut Rng, most: usize) -> Drawing {
    let nodes = rng.between(1, most);
    let mut drawing = rng.pick(&FAMILIES)(rng, nodes);
    if rng.once_in(4) {
        let more = rng.between(1, most);
        add_beside(&mut drawing, rng.pick(&FAMILIES)(rng, more));
    }
    if rng.once_in(3) {
        repeat_ports(rng, &mut drawing);
    }
    if rng.once_in(3) {
        add_across(rng, &mut drawing);
    }
    if !rng.once_in(4) {
        shuffle(rng, &mut drawing);
    }
    dress(rng, &mut drawing);
    drawing
}

/// The second drawing's nodes and edges after the first's, where both go within the limits.
fn add_beside(drawing: &mut Drawing, more: Drawing) {
    let (size, other) = (drawing.sizes(), more.sizes());
    let most = limits(size.nodes.max(other.nodes));
    if size.nodes + other.nodes > most.nodes || size.ports + other.ports > most.ports {
        return;
    }
    for edge in more.edges {
        let moved = |ids: Vec<u32>| ids.iter().map(|id| id + size.nodes as u32).collect();
        drawing.edges.push(Edge {
            label: edge.label,
            sources: moved(edge.sources),
            targets: moved(edge.targets),
        });
    }
    drawing.labels.extend(more.labels);
}

/// Enters some ports again, as many times as there are edges.
fn repeat_ports(rng: &mut Rng, drawing: &mut Drawing) {
    let size = drawing.sizes();
    let space = limits(size.nodes).ports - size.ports;
    for _ in 0..drawing.edges.len().min(space) {
        let at = rng.below(drawing.edges.len());
        let edge = &mut drawing.edges[at];
        let list = if rng.once_in(2) {
            &mut edge.sources
        } else {
            &mut edge.targets
        };
        if !list.is_empty() {
            list.push(rng.pick(list));
        }
    }
}

/// Up to three edges from one node to another.
fn add_across(rng: &mut Rng, drawing: &mut Drawing) {
    let size = drawing.sizes();
    let most = limits(size.nodes);
    let space = (most.edges - size.edges).min((most.ports - size.ports) / 2);
    for _ in 0..rng.between(1, 3).min(space) {
        let [from, to] = [(); 2].map(|_| rng.below(size.nodes) as u32);
        drawing.edges.push(edge(9, &[from], &[to]));
    }
}

/// Numbers the nodes in another order, and the edges too.
pub fn shuffle(rng: &mut Rng, drawing: &mut Drawing) {
    let mut new: Vec<u32> = (0..drawing.labels.len() as u32).collect();
    reorder(rng, &mut new);
    for edge in &mut drawing.edges {
        for id in edge.sources.iter_mut().chain(&mut edge.targets) {
            *id = new[*id as usize];
        }
    }
    reorder(rng, &mut drawing.edges);
}

fn reorder<T>(rng: &mut Rng, list: &mut [T]) {
    for end in (1..list.len()).rev() {
        list.swap(end, rng.between(0, end));
    }
}

/// Labels by chance, some of them a spider's, and short global lists.
fn dress(rng: &mut Rng, drawing: &mut Drawing) {
    let nodes = drawing.labels.len();
    drawing.labels.iter_mut().for_each(|l| *l = label(rng));
    drawing.edges.iter_mut().for_each(|e| e.label = label(rng));
    for list in [&mut drawing.sources, &mut drawing.targets] {
        let n = rng.below(4);
        *list = some_ids(rng, n, nodes);
    }
}

#[cfg(test)]
mod tests {
    use super::*;
    use crate::convert::to_lax;
    use crate::rows::choice::definition::{choice, no_loop};

    #[test]
    fn every_drawing_is_within_the_limits() {
        let mut rng = Rng::new(1);
        for family in FAMILIES {
            for nodes in [1, 2, 3, 50, 2047, 2048, 2049, 16_383, 16_384] {
                let sizes = family(&mut rng, nodes).sizes();
                assert!(sizes.within(&limits(nodes)));
            }
        }
        for most in [2048, 16_384] {
            for _ in 0..200 {
                assert!(mixed(&mut rng, most).sizes().within(&limits(most)));
            }
        }
        for ports in [8192, 65_536] {
            for drawing in heaviest(ports) {
                assert_eq!(drawing.sizes().ports, ports);
            }
        }
    }

    #[test]
    fn each_family_has_the_loops_that_it_is_named_for() {
        let mut rng = Rng::new(1);
        let mut chosen = |family: Family| choice(&to_lax(&family(&mut rng, 12))).0;
        assert_eq!(chosen(ring), [0]);
        assert_eq!(chosen(hub), [0]);
        assert_eq!(chosen(self_loops), (0..12).collect::<Vec<_>>());
        assert!(no_loop(&to_lax(&tree(&mut rng, 12))));
    }
}
