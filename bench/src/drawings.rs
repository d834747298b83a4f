//! The drawings that are measured.

use crate::pricing::of_parts;
use differential::form::{self, id_bytes, Drawing, Edge, Sizes, Version, VERSION_1, VERSION_2};
use differential::rng::Rng;
use differential::rows::choice::families::{dense, hub, ring, rings, sparse, tree, Family};

/// The shapes that the choice is measured on, by their names.
pub const FAMILIES: [(&str, Family); 6] = [
    ("random sparse", sparse),
    ("random dense", dense),
    ("one long ring", ring),
    ("many small rings", |_, nodes| rings(nodes, 4)),
    ("tree", tree),
    ("hub", hub),
];

/// Nodes of the drawings of version 2 that are smaller than the largest.
pub const MANY: usize = 4000;

/// What is measured of a call that adds nothing, of version 1 and of version 2.
pub const MEASURED: [Sizes; 5] = [
    sizes(10, 3),
    sizes(500, 100),
    VERSION_1.most,
    sizes(MANY, MANY / 5),
    VERSION_2.most,
];

/// The sizes of a drawing with so many nodes, as many edges, four ports to an edge, and lists of some length.
pub const fn sizes(nodes: usize, lists: usize) -> Sizes {
    Sizes {
        nodes,
        edges: nodes,
        ports: 4 * nodes,
        sources: lists,
        targets: lists,
        pairs: lists,
    }
}

/// Forms of these sizes: random ids, the ports dealt out evenly.
pub fn forms_of(sizes: Sizes) -> Vec<Vec<u8>> {
    several(|rng| by_chance(rng, sizes))
}

fn by_chance(rng: &mut Rng, sizes: Sizes) -> Drawing {
    let mut ids =
        |n: usize| -> Vec<u32> { (0..n).map(|_| rng.below(sizes.nodes) as u32).collect() };
    let ports = sizes.ports / sizes.edges;
    Drawing {
        labels: (0..sizes.nodes as u32).collect(),
        edges: (0..sizes.edges as u32)
            .map(|label| Edge {
                label,
                sources: ids(ports / 2),
                targets: ids(ports - ports / 2),
            })
            .collect(),
        sources: ids(sizes.sources),
        targets: ids(sizes.targets),
        pairs: ids(sizes.pairs).into_iter().zip(ids(sizes.pairs)).collect(),
    }
}

/// So many nodes and as many parts with two sources and two targets, which are flow stores.
pub fn parts(rng: &mut Rng, nodes: usize) -> Drawing {
    let drawing = by_chance(rng, sizes(nodes, 0));
    of_parts(rng, drawing)
}

/// What merging is measured on, by the pairs: random drawings whose nodes have one label, so that any can be joined, with
/// half as many pairs and lists half as long.
pub const JOINED: [(&str, Family); 4] = [
    ("random pairs", random_pairs),
    ("rising chain", rising_chain),
    ("falling chain", falling_chain),
    ("no pairs", |rng, nodes| with_pairs(rng, nodes, vec![])),
];

pub fn random_pairs(rng: &mut Rng, nodes: usize) -> Drawing {
    Drawing {
        labels: vec![0; nodes],
        ..by_chance(rng, sizes(nodes, nodes / 2))
    }
}

fn with_pairs(rng: &mut Rng, nodes: usize, pairs: Vec<(u32, u32)>) -> Drawing {
    Drawing {
        pairs,
        ..random_pairs(rng, nodes)
    }
}

/// Each of half the nodes is joined to the next, from the first on.
pub fn rising_chain(rng: &mut Rng, nodes: usize) -> Drawing {
    with_pairs(rng, nodes, chain(nodes).collect())
}

/// The same from the last on.
pub fn falling_chain(rng: &mut Rng, nodes: usize) -> Drawing {
    with_pairs(rng, nodes, chain(nodes).rev().collect())
}

fn chain(nodes: usize) -> impl DoubleEndedIterator<Item = (u32, u32)> {
    (0..nodes as u32 / 2).map(|node| (node, node + 1))
}

/// The forms of as many drawings as are together about as large as the largest of their version. Of a small one alone,
/// called again and again, the processor would soon foresee each branch.
pub fn several(mut drawing: impl FnMut(&mut Rng) -> Drawing) -> Vec<Vec<u8>> {
    let mut rng = Rng::new(1);
    let first = form::write(&drawing(&mut rng));
    let most = version(&first).most;
    let more = ((most.nodes + most.ports) / size(&first)).max(1) - 1;
    let mut forms = vec![first];
    forms.extend((0..more).map(|_| form::write(&drawing(&mut rng))));
    forms
}

/// The nodes and ports of a form.
pub fn size(form: &[u8]) -> usize {
    let sizes = form::sizes(form).expect("it is a good form");
    sizes.nodes + sizes.ports
}

/// So many labels, as bytes.
pub fn label_bytes(n: usize) -> Vec<u8> {
    (0..n as u32).flat_map(u32::to_le_bytes).collect()
}

/// Every eighth node of forms that all have as many.
pub fn every_eighth(forms: &[Vec<u8>]) -> impl Iterator<Item = usize> + Clone {
    (0..nodes(&forms[0])).step_by(8)
}

/// A list of ids for calls on forms, which are all of one version.
pub fn list_for(forms: &[Vec<u8>], ids: impl IntoIterator<Item = usize>) -> Vec<u8> {
    id_bytes(ids, version(&forms[0]).width)
}

/// The version of a form.
pub fn version(form: &[u8]) -> Version {
    form::version(form).expect("it is a good form")
}

/// What a table says of forms of the same sizes.
pub fn described(forms: &[Vec<u8>]) -> String {
    let form = &forms[0];
    format!("{} nodes, {} bytes", nodes(form), form.len())
}

fn nodes(form: &[u8]) -> usize {
    form::sizes(form).expect("it is a good form").nodes
}
