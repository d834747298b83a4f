//! Drawings by chance.

use super::damage::damaged;
use super::joined::label_alike;
use super::{edge, limits};
use crate::form::{self, Drawing, Edge, Sizes, SPIDER, VERSION_1, VERSION_2};
use crate::operation::Group;
use crate::rng::Rng;

/// The most nodes that a drawing is to have: mostly few, now and then many, and once in a long time as many as there may be.
fn size(rng: &mut Rng) -> usize {
    match rng.below(200) {
        0 if rng.once_in(20) => VERSION_2.most.nodes,
        0 => VERSION_1.most.nodes,
        1..=4 => 300,
        5..=30 => 40,
        31..=100 => 12,
        _ => 5,
    }
}

/// A drawing for a group's functions; some have outgrown version 1.
pub fn drawing_for(rng: &mut Rng, group: &Group) -> Drawing {
    let most = size(rng);
    let mut drawing = (group.drawing)(rng, most);
    if rng.once_in(12) {
        outgrow(rng, &mut drawing);
    }
    drawing
}

/// A form for a group's functions; some are in the version that is not theirs, and some are damaged.
pub fn form(rng: &mut Rng, group: &Group) -> Vec<u8> {
    let drawing = drawing_for(rng, group);
    let form = match rng.below(24) {
        0 => form::write_as(VERSION_1, &drawing),
        1 => form::write_as(VERSION_2, &drawing),
        _ => form::write(&drawing),
    };
    if rng.below(8) < group.damaged {
        damaged(rng, form)
    } else {
        form
    }
}

/// A drawing of up to so many nodes, with other sizes to match.
pub fn drawing_of(rng: &mut Rng, most: usize) -> Drawing {
    let wanted = Sizes {
        nodes: rng.between(0, most),
        edges: rng.between(0, most),
        ports: rng.between(0, (4 * most).min(limits(most).ports)),
        sources: short_list(rng, most),
        targets: short_list(rng, most),
        pairs: short_list(rng, most),
    };
    drawing(rng, wanted)
}

/// A length for a global list or the pairs, half of the time 0.
fn short_list(rng: &mut Rng, most: usize) -> usize {
    if rng.once_in(2) {
        0
    } else {
        rng.between(0, most.min(limits(most).sources))
    }
}

/// A drawing of the wanted sizes; no ids where there are no nodes. Mostly its pairs can be merged.
pub fn drawing(rng: &mut Rng, wanted: Sizes) -> Drawing {
    let nodes = wanted.nodes;
    let entries = |n: usize| if nodes == 0 { 0 } else { n };
    // Often only a few of the nodes occur, so that entries repeat; now and then one node alone.
    let among = match rng.below(6) {
        0 => 1,
        1 => nodes.min(3),
        _ => nodes,
    };
    let ends = if wanted.edges == 0 {
        vec![]
    } else {
        ends(rng, wanted.edges, entries(wanted.ports))
    };
    let mut drawing = Drawing {
        labels: (0..nodes).map(|_| label(rng)).collect(),
        edges: ends
            .iter()
            .map(|&(sources, targets)| Edge {
                label: label(rng),
                sources: some_ids(rng, sources, among),
                targets: some_ids(rng, targets, among),
            })
            .collect(),
        sources: some_ids(rng, entries(wanted.sources), among),
        targets: some_ids(rng, entries(wanted.targets), among),
        pairs: (0..entries(wanted.pairs))
            .map(|_| (rng.below(among) as u32, rng.below(among) as u32))
            .collect(),
    };
    if !rng.once_in(4) {
        label_alike(&mut drawing);
    }
    drawing
}

/// Gives a drawing more of one kind than version 1 holds; often just one more, so that little must go for it to fit again.
/// What costs many bytes is seldom.
pub fn outgrow(rng: &mut Rng, drawing: &mut Drawing) {
    let more = rng.pick(&[1, 1, 2, 30]);
    let most = VERSION_1.most;
    let nodes = drawing.labels.len();
    let kind = if nodes == 0 { 0 } else { rng.below(32) };
    let mut lengthen = |list: &mut Vec<u32>, most: usize| {
        let n = (most + more).saturating_sub(list.len());
        list.extend(some_ids(rng, n, nodes));
    };
    match kind {
        0..=11 => more_nodes(rng, drawing, most.nodes + more),
        12..=19 => lengthen(&mut drawing.sources, most.sources),
        20..=27 => lengthen(&mut drawing.targets, most.targets),
        28 | 29 => {
            let (mut left, mut right) = drawing.pairs.iter().copied().unzip();
            lengthen(&mut left, most.pairs);
            lengthen(&mut right, most.pairs);
            drawing.pairs = left.into_iter().zip(right).collect();
            label_alike(drawing);
        }
        30 => {
            let edges = drawing.edges.len().max(most.edges + more);
            drawing.edges.resize(edges, edge(9, &[], &[]));
        }
        _ => {
            let ports = drawing.sizes().ports;
            let mut last = edge(9, &[], &[]);
            lengthen(&mut last.sources, most.ports.saturating_sub(ports));
            drawing.edges.push(last);
        }
    }
}

/// Nodes up to so many, before those that are there or after them.
fn more_nodes(rng: &mut Rng, drawing: &mut Drawing, nodes: usize) {
    let more = nodes.saturating_sub(drawing.labels.len());
    let before = if rng.once_in(2) { more as u32 } else { 0 };
    let labels = (0..more).map(|_| label(rng));
    drawing.labels.extend(labels.collect::<Vec<_>>());
    drawing.labels.rotate_right(before as usize);
    let lists = drawing.edges.iter_mut();
    let of_edges = lists.flat_map(|edge| edge.sources.iter_mut().chain(&mut edge.targets));
    of_edges
        .chain(&mut drawing.sources)
        .chain(&mut drawing.targets)
        .chain(drawing.pairs.iter_mut().flat_map(|(v, w)| [v, w]))
        .for_each(|id| *id += before);
}

/// Deals ports out to the edges' two lists: evenly by chance, or most of them to one edge.
fn ends(rng: &mut Rng, edges: usize, ports: usize) -> Vec<(usize, usize)> {
    let heavy = rng.once_in(4).then(|| rng.below(edges));
    let mut ends = vec![(0, 0); edges];
    for _ in 0..ports {
        let edge = match heavy {
            Some(edge) if !rng.once_in(4) => edge,
            _ => rng.below(edges),
        };
        if rng.once_in(2) {
            ends[edge].0 += 1;
        } else {
            ends[edge].1 += 1;
        }
    }
    ends
}

pub fn some_ids(rng: &mut Rng, n: usize, among: usize) -> Vec<u32> {
    (0..n).map(|_| rng.below(among) as u32).collect()
}

pub fn label(rng: &mut Rng) -> u32 {
    match rng.below(8) {
        0 => 0,
        1 => SPIDER,
        2 => SPIDER - 1,
        3..=5 => rng.below(20) as u32,
        _ => rng.number() as u32,
    }
}
