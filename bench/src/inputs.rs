//! What the growth of a call is measured on.

use crate::drawings::{
    falling_chain, forms_of, label_bytes, parts, random_pairs, rising_chain, several, size, sizes,
};
use crate::many::{step_lists, SOME};
use differential::form::{Sizes, Version, VERSION_1};
use differential::rows::choice::families::{ring, tree};

/// Inputs of some kind, from small to as large as a call can take.
#[derive(Clone, Copy)]
pub struct Inputs {
    pub words: &'static str,
    /// Nodes of a form, or labels in a list.
    fewest: usize,
    /// The most of them by a version's limits.
    most: fn(Sizes) -> usize,
    /// The nodes and ports of the drawing that is read or made of so many, and what is given to the call by turns.
    pub of: fn(usize) -> (usize, Vec<Vec<u8>>),
}

impl Inputs {
    /// The most nodes or labels that a version lets through.
    pub fn most(&self, version: Version) -> usize {
        (self.most)(version.most)
    }

    /// So many numbers of nodes or labels, up to the most of a version, each larger than the one before by the same factor.
    pub fn numbers(&self, version: Version, sizes: usize) -> Vec<usize> {
        let [fewest, most] = [self.fewest, self.most(version)].map(|number| number as f64);
        let factor = |step: usize| (most / fewest).powf(step as f64 / (sizes - 1) as f64);
        let number = |step| (fewest * factor(step)).round() as usize;
        let mut numbers: Vec<usize> = (0..sizes).map(number).collect();
        numbers.dedup();
        numbers
    }

    /// The nodes and ports up to which all that is read and made is of version 1.
    pub fn end_of_version_1(&self) -> usize {
        (self.of)(self.most(VERSION_1)).0
    }
}

/// As many edges as nodes, four ports to an edge, and lists half as long.
pub const RANDOM: Inputs = Inputs {
    words: "random drawings",
    fewest: 3,
    most: |most| most.nodes,
    of: |nodes| sized(forms_of(sizes(nodes, nodes / 2))),
};

/// An operation adds four nodes.
pub const TO_ADD_TO: Inputs = Inputs {
    most: |most| most.nodes - 4,
    ..RANDOM
};

/// Without pairs, which the choice refuses, and without global lists, of which spiderizing makes nodes.
pub const BARE: Inputs = Inputs {
    words: "random, no lists",
    of: |nodes| sized(forms_of(sizes(nodes, 0))),
    ..RANDOM
};

/// The same as parts: each edge is a flow store.
pub const PARTS: Inputs = Inputs {
    words: "random parts",
    of: |nodes| sized(several(|rng| parts(rng, nodes))),
    ..RANDOM
};

/// Of each a tenth of the nodes is kept.
pub const KEEPING: Inputs = Inputs {
    words: "random, a tenth kept",
    ..BARE
};

/// Each port gets a node of its own, and there are four to a node.
pub const TO_SPIDERIZE: Inputs = Inputs {
    most: |most| most.nodes / 5,
    ..BARE
};

/// The ports of every eighth node do so: by chance about half as many as there are nodes.
pub const EIGHTH_TO_SPIDERIZE: Inputs = Inputs {
    most: |most| most.nodes * 5 / 8,
    ..BARE
};

/// Half as many pairs, and all nodes have one label.
pub const JOINED: Inputs = Inputs {
    words: "random pairs",
    of: |nodes| sized(several(|rng| random_pairs(rng, nodes))),
    ..RANDOM
};

pub const RISING: Inputs = Inputs {
    words: "rising chain",
    of: |nodes| sized(several(|rng| rising_chain(rng, nodes))),
    ..RANDOM
};

pub const FALLING: Inputs = Inputs {
    words: "falling chain",
    of: |nodes| sized(several(|rng| falling_chain(rng, nodes))),
    ..RANDOM
};

/// Each port and each global entry gets a node of its own, five to a node, beside the merged ones.
pub const JOINED_TO_SPIDERIZE: Inputs = Inputs {
    most: |most| most.nodes / 6,
    ..JOINED
};

/// Those of the classes that every eighth node is in do so: by chance about two to a node.
pub const EIGHTH_OF_JOINED: Inputs = Inputs {
    most: |most| most.nodes / 3,
    ..JOINED
};

/// All of a drawing is taken away before the no-loop check says yes.
pub const TREES: Inputs = Inputs {
    words: "trees",
    fewest: 6,
    most: |most| most.nodes,
    of: |nodes| sized(several(|rng| tree(rng, nodes))),
};

/// All of a drawing is looked at before the once-fed check says yes.
pub const RINGS: Inputs = Inputs {
    words: "rings",
    of: |nodes| sized(several(|rng| ring(rng, nodes))),
    ..TREES
};

/// Steps from nothing, of which ten make eight nodes.
pub const STEPS: Inputs = Inputs {
    words: "steps from nothing",
    fewest: 7,
    most: |most| most.nodes,
    of: step_lists,
};

/// On each some steps are made, which add about as many nodes.
pub const WITH_STEPS: Inputs = Inputs {
    words: "50 steps on random drawings",
    most: |most| most.nodes - SOME,
    ..RANDOM
};

pub const NODES: Inputs = Inputs {
    words: "nodes alone",
    fewest: 16,
    most: |most| most.nodes,
    of: |labels| (labels, vec![label_bytes(labels)]),
};

pub const GLOBAL_NODES: Inputs = Inputs {
    words: "nodes, all global",
    most: |most| most.sources,
    ..NODES
};

/// A node and a port for each label.
pub const ONE_EDGE: Inputs = Inputs {
    words: "one edge",
    fewest: 8,
    of: |labels| (2 * labels, vec![label_bytes(labels)]),
    ..NODES
};

pub const NOTHING: Inputs = Inputs {
    words: "no input",
    fewest: 1,
    most: |_| 1,
    of: |_| (0, vec![vec![]]),
};

fn sized(forms: Vec<Vec<u8>>) -> (usize, Vec<Vec<u8>>) {
    (size(&forms[0]), forms)
}
