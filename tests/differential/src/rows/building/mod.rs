//! Making graphs, and adding to them.

mod expected;
mod picked;
mod tries;

use crate::cases::{self, random, small};
use crate::form;
use crate::operation::Parameter::{Answered, Input, Number};
use crate::operation::{Forms, Group, Operation};
use crate::rng::Rng;

pub const GROUP: Group = Group {
    name: "building",
    operations: OPERATIONS,
    share: 1,
    fixed,
    every,
    step: 256,
    drawing: random::drawing_of,
    damaged: 1,
};

const OPERATIONS: &[Operation] = &[
    Operation {
        number: 2,
        name: "ohg_empty",
        parameters: &[Answered],
        refusals: &[10],
        picked: picked::empty,
        arguments: tries::nothing,
        expected: expected::empty,
    },
    Operation {
        number: 3,
        name: "ohg_discrete",
        parameters: &[Input, Answered],
        refusals: &[7, 9, 10],
        picked: picked::discrete,
        arguments: tries::label_list,
        expected: expected::discrete,
    },
    Operation {
        number: 4,
        name: "ohg_identity",
        parameters: &[Input, Answered],
        refusals: &[7, 9, 10],
        picked: picked::identity,
        arguments: tries::label_list,
        expected: expected::identity,
    },
    Operation {
        number: 5,
        name: "ohg_singleton",
        parameters: &[Number, Input, Input, Answered],
        refusals: &[7, 9, 10],
        picked: picked::singleton,
        arguments: tries::label_and_two_label_lists,
        expected: expected::singleton,
    },
    Operation {
        number: 6,
        name: "ohg_new_node",
        parameters: &[Input, Number, Answered],
        refusals: &[1, 2, 3, 4, 5, 6, 13, 9, 10],
        picked: picked::new_node,
        arguments: tries::graph_and_label,
        expected: expected::new_node,
    },
    Operation {
        number: 7,
        name: "ohg_new_edge",
        parameters: &[Input, Number, Input, Input, Answered],
        refusals: &[1, 2, 3, 4, 5, 6, 13, 7, 9, 10],
        picked: picked::new_edge,
        arguments: tries::graph_label_and_two_node_lists,
        expected: expected::new_edge,
    },
    Operation {
        number: 8,
        name: "ohg_new_operation",
        parameters: &[Input, Number, Input, Input, Answered],
        refusals: &[1, 2, 3, 4, 5, 6, 13, 7, 9, 10],
        picked: picked::new_operation,
        arguments: tries::graph_label_and_two_label_lists,
        expected: expected::new_operation,
    },
    Operation {
        number: 9,
        name: "ohg_unify",
        parameters: &[Input, Number, Number, Answered],
        refusals: &[1, 2, 3, 4, 5, 6, 13, 7, 9, 10],
        picked: picked::unify,
        arguments: tries::graph_and_two_nodes,
        expected: expected::unify,
    },
    Operation {
        number: 10,
        name: "ohg_add_edge_source",
        parameters: &[Input, Number, Number, Answered],
        refusals: &[1, 2, 3, 4, 5, 6, 13, 7, 9, 10],
        picked: picked::add_edge_port,
        arguments: tries::graph_edge_and_label,
        expected: expected::add_edge_source,
    },
    Operation {
        number: 11,
        name: "ohg_add_edge_target",
        parameters: &[Input, Number, Number, Answered],
        refusals: &[1, 2, 3, 4, 5, 6, 13, 7, 9, 10],
        picked: picked::add_edge_port,
        arguments: tries::graph_edge_and_label,
        expected: expected::add_edge_target,
    },
];

fn fixed(rng: &mut Rng) -> Vec<Vec<u8>> {
    cases::at_limits(rng, true)
}

fn every(mut rng: Rng) -> Forms {
    let largest = cases::at_largest(Rng::new(rng.number()), true);
    let small = small::graphs([3, 2, 3], true, rng).map(|drawing| form::write(&drawing));
    Box::new(largest.chain(small))
}
