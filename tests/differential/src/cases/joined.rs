//! Pending pairs of several shapes, and labels with which they can be merged or cannot.

use super::limits;
use super::random::some_ids;
use crate::classes::classes;
use crate::form::Drawing;
use crate::rng::Rng;

/// A shape gives up to so many pairs on so many nodes, of which there is at least one.
pub type Shape = fn(&mut Rng, usize, usize) -> Vec<(u32, u32)>;

pub const SHAPES: [Shape; 8] = [
    by_chance, rising, falling, star, halves, rings, selves, repeated,
];

fn by_chance(rng: &mut Rng, nodes: usize, pairs: usize) -> Vec<(u32, u32)> {
    let [left, right] = [(); 2].map(|_| some_ids(rng, pairs, nodes));
    left.into_iter().zip(right).collect()
}

/// A chain from the first node on, each pair up.
fn rising(_: &mut Rng, nodes: usize, pairs: usize) -> Vec<(u32, u32)> {
    let chain = 0..pairs.min(nodes - 1) as u32;
    chain.map(|node| (node, node + 1)).collect()
}

/// A chain from the last node on, each pair down.
fn falling(_: &mut Rng, nodes: usize, pairs: usize) -> Vec<(u32, u32)> {
    let last = nodes as u32 - 1;
    let chain = 0..pairs.min(nodes - 1) as u32;
    chain.map(|i| (last - i, last - i - 1)).collect()
}

/// One node with all others, from the last on.
fn star(rng: &mut Rng, nodes: usize, pairs: usize) -> Vec<(u32, u32)> {
    let middle = rng.below(nodes) as u32;
    let others = (0..nodes as u32).rev().filter(|&node| node != middle);
    others.map(|node| (middle, node)).take(pairs).collect()
}

/// Each node of the upper half with one of the lower, so that the classes lie across each other.
fn halves(_: &mut Rng, nodes: usize, pairs: usize) -> Vec<(u32, u32)> {
    let half = nodes as u32 / 2;
    let lower = 0..half.min(pairs as u32);
    lower.map(|node| (half + node, node)).collect()
}

/// Rings of up to four nodes side by side, whose last pair joins what is joined already.
fn rings(rng: &mut Rng, nodes: usize, pairs: usize) -> Vec<(u32, u32)> {
    let of = rng.between(2, 4) as u32;
    let starts = (0..nodes as u32).step_by(of as usize);
    let ring = |start: u32| {
        let end = (start + of).min(nodes as u32);
        let next = move |node: u32| if node + 1 < end { node + 1 } else { start };
        (start..end).map(move |node| (node, next(node)))
    };
    starts.flat_map(ring).take(pairs).collect()
}

/// Nodes each with itself.
fn selves(_: &mut Rng, nodes: usize, pairs: usize) -> Vec<(u32, u32)> {
    let nodes = 0..nodes as u32;
    nodes.cycle().take(pairs).map(|node| (node, node)).collect()
}

/// One pair over and over, both ways round.
fn repeated(rng: &mut Rng, nodes: usize, pairs: usize) -> Vec<(u32, u32)> {
    let [v, w] = [(); 2].map(|_| rng.below(nodes) as u32);
    [(v, w), (w, v)].into_iter().cycle().take(pairs).collect()
}

/// Gives a drawing pairs of some shape, often in another order or with their ends changed, and mostly labels with which
/// they can be merged.
pub fn join(rng: &mut Rng, drawing: &mut Drawing) {
    let nodes = drawing.labels.len();
    if nodes == 0 {
        return;
    }
    let pairs = rng.between(1, nodes.min(limits(nodes).pairs));
    drawing.pairs = rng.pick(&SHAPES)(rng, nodes, pairs);
    if rng.once_in(2) {
        for end in (1..drawing.pairs.len()).rev() {
            drawing.pairs.swap(end, rng.between(0, end));
        }
    }
    if rng.once_in(2) {
        for pair in &mut drawing.pairs {
            if rng.once_in(2) {
                *pair = (pair.1, pair.0);
            }
        }
    }
    match rng.below(8) {
        0 => {}
        1 => {
            label_alike(drawing);
            label_apart(rng, drawing);
        }
        _ => label_alike(drawing),
    }
}

/// Gives each node the label of the first in its class.
pub fn label_alike(drawing: &mut Drawing) {
    let pairs = drawing.pairs.iter();
    let pairs = pairs.map(|&(v, w)| (v as usize, w as usize));
    let classes = classes(drawing.labels.len(), pairs);
    let mut first = vec![];
    for (label, class) in drawing.labels.iter_mut().zip(classes) {
        if class == first.len() {
            first.push(*label);
        }
        *label = first[class];
    }
}

/// Changes one bit of the label of a node that is in a pair, where there is one.
pub fn label_apart(rng: &mut Rng, drawing: &mut Drawing) {
    if !drawing.pairs.is_empty() {
        let (v, w) = rng.pick(&drawing.pairs);
        let node = rng.pick(&[v, w]);
        drawing.labels[node as usize] ^= 1 << rng.below(32);
    }
}

#[cfg(test)]
mod tests {
    use super::*;
    use crate::cases::plain;
    use crate::classes::merged;
    use crate::convert::to_lax;

    /// How many nodes are left of so many, labelled alike, with so many pairs of a shape.
    fn left(shape: Shape, nodes: usize, pairs: usize) -> usize {
        let mut rng = Rng::new(1);
        let mut drawing = plain(nodes, &[]);
        drawing.labels = (0..nodes as u32).collect();
        drawing.pairs = shape(&mut rng, nodes, pairs);
        assert!(drawing.pairs.len() <= pairs);
        label_alike(&mut drawing);
        let (merged, _) = merged(&to_lax(&drawing)).expect("labels are alike");
        merged.hypergraph.nodes.len()
    }

    #[test]
    fn each_shape_joins_what_it_is_named_for() {
        for shape in [rising, falling, star] {
            assert_eq!(left(shape, 12, 11), 1);
            assert_eq!(left(shape, 16_384, 8192), 8192);
        }
        assert_eq!(left(halves, 12, 12), 6);
        assert_eq!(left(halves, 16_384, 8192), 8192);
        assert_eq!(left(selves, 12, 30), 12);
        assert_eq!(left(repeated, 12, 30), 11);
        for shape in SHAPES {
            assert_eq!(left(shape, 1, 3), 1);
            assert!(left(shape, 16_384, 8192) >= 8192);
        }
    }

    #[test]
    fn one_bit_sets_labels_apart() {
        let mut rng = Rng::new(1);
        let mut drawing = plain(8, &[]);
        drawing.pairs = rising(&mut rng, 8, 7);
        assert!(merged(&to_lax(&drawing)).is_some());
        label_apart(&mut rng, &mut drawing);
        assert!(merged(&to_lax(&drawing)).is_none());
    }
}
