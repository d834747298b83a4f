//! The stored forms that the calls are tried on, good and bad.

pub mod damage;
pub mod joined;
pub mod random;
pub mod small;

use crate::form::{self, Drawing, Edge, Sizes, VERSION_1, VERSION_2};
use crate::rng::Rng;

/// The drawings of document 01's P1 to P9; P3 and P5 ask of P2 and P4.
pub fn worked_by_hand() -> Vec<Drawing> {
    vec![p1(), p2(), p4(), p6(), p7(), p8(), p9()]
}

/// The same with so many nodes after their own that they are stored in version 2.
pub fn outgrown_by_hand() -> Vec<Drawing> {
    let mut drawings = worked_by_hand();
    for drawing in &mut drawings {
        drawing.labels.resize(VERSION_1.most.nodes + 1, 8);
    }
    drawings
}

pub fn p1() -> Drawing {
    plain(0, &[])
}

pub fn p2() -> Drawing {
    plain(1, &[edge(9, &[0], &[0])])
}

pub fn p4() -> Drawing {
    Drawing {
        sources: vec![0],
        targets: vec![0],
        ..plain(1, &[])
    }
}

pub fn p6() -> Drawing {
    plain(2, &[edge(9, &[0], &[1]), edge(10, &[1], &[0])])
}

pub fn p7() -> Drawing {
    plain(3, &[edge(9, &[0], &[0, 1, 1]), edge(10, &[1, 1, 2], &[2])])
}

pub fn p8() -> Drawing {
    Drawing {
        pairs: vec![(0, 1), (2, 0)],
        ..p7()
    }
}

pub fn p9() -> Drawing {
    Drawing {
        pairs: vec![(0, 1)],
        ..p6()
    }
}

/// So many nodes labelled 7, and edges.
pub fn plain(nodes: usize, edges: &[Edge]) -> Drawing {
    Drawing {
        labels: vec![7; nodes],
        edges: edges.to_vec(),
        ..Drawing::default()
    }
}

pub fn edge(label: u32, sources: &[u32], targets: &[u32]) -> Edge {
    Edge {
        label,
        sources: sources.to_vec(),
        targets: targets.to_vec(),
    }
}

/// Nodes of these labels with these pairs; edges and global lists have every node, up and down, so that all renaming shows.
pub fn joined_by(labels: &[u32], pairs: &[(u32, u32)]) -> Drawing {
    let up: Vec<u32> = (0..labels.len() as u32).collect();
    let down: Vec<u32> = up.iter().rev().copied().collect();
    Drawing {
        labels: labels.to_vec(),
        edges: vec![edge(9, &up, &down), edge(10, &down, &[])],
        sources: down,
        targets: up,
        pairs: pairs.to_vec(),
    }
}

/// The drawing with another label at its node 0.
pub fn labelled_apart(mut drawing: Drawing) -> Drawing {
    drawing.labels[0] += 1;
    drawing
}

/// P8 with one global source more than version 1 holds.
pub fn p8_outgrown() -> Drawing {
    Drawing {
        sources: vec![2; VERSION_1.most.sources + 1],
        ..p8()
    }
}

// ---- at the limits

const MIDDLE: Sizes = Sizes {
    nodes: 5,
    edges: 3,
    ports: 7,
    sources: 2,
    targets: 3,
    pairs: 1,
};

type Size = fn(&mut Sizes) -> &mut usize;

/// The sizes, pairs last.
const SIZES: [Size; 6] = [
    |sizes| &mut sizes.nodes,
    |sizes| &mut sizes.edges,
    |sizes| &mut sizes.ports,
    |sizes| &mut sizes.sources,
    |sizes| &mut sizes.targets,
    |sizes| &mut sizes.pairs,
];

/// The limits of the version that a drawing of so many nodes is stored in, as far as they decide.
pub fn limits(nodes: usize) -> Sizes {
    let sizes = Sizes {
        nodes,
        ..Sizes::default()
    };
    sizes.version().most
}

/// Forms with one size one below a limit of either version, at it and one above it, and the others small, each in version
/// 1 and in version 2; the same of version 1 with the others the largest there are; and the largest form of all. With
/// pairs, or without any.
pub fn at_limits(rng: &mut Rng, pairs: bool) -> Vec<Vec<u8>> {
    let mut forms = vec![];
    for version in [VERSION_1, VERSION_2] {
        for sizes in about(version.most, MIDDLE, pairs) {
            let drawing = random::drawing(rng, sizes);
            forms.extend([VERSION_1, VERSION_2].map(|version| form::write_as(version, &drawing)));
        }
    }
    let largest = about(VERSION_1.most, VERSION_1.most, pairs).chain([VERSION_2.most]);
    forms.extend(largest.map(|sizes| form::write(&random::drawing(rng, sizes))));
    forms
}

/// Forms with one size one below version 2's limit, at it and one above it, and the others the largest there are.
pub fn at_largest(mut rng: Rng, pairs: bool) -> impl Iterator<Item = Vec<u8>> {
    let sizes = about(VERSION_2.most, VERSION_2.most, pairs);
    sizes.map(move |sizes| form::write(&random::drawing(&mut rng, sizes)))
}

/// Some sizes, with one of them put to one below its limit, to the limit and to one above it.
fn about(most: Sizes, others: Sizes, pairs: bool) -> impl Iterator<Item = Sizes> {
    let kinds = if pairs { SIZES.len() } else { SIZES.len() - 1 };
    (0..3 * kinds).map(move |k| {
        let mut sizes = others;
        let size = SIZES[k / 3];
        *size(&mut sizes) = *size(&mut most.clone()) + k % 3 - 1;
        if !pairs {
            sizes.pairs = 0;
        }
        sizes
    })
}
