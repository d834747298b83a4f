//! Reading a stored graph, and writing it again.

use crate::arguments::graph_alone;
use crate::call::{Answer, Arguments, Outcome};
use crate::cases::{self, damage, random, small};
use crate::form::{self, VERSION_2};
use crate::operation::Parameter::{Answered, Input};
use crate::operation::{Forms, Group, Operation};
use crate::rng::Rng;
use crate::steps::{graph, graph_sizes, made};

pub const GROUP: Group = Group {
    name: "reading",
    operations: OPERATIONS,
    share: 1,
    fixed,
    every,
    step: 64,
    drawing: random::drawing_of,
    damaged: 4,
};

const OPERATIONS: &[Operation] = &[
    Operation {
        number: 0,
        name: "ohg_read",
        parameters: &[Input, Answered],
        refusals: &[1, 2, 3, 4, 5, 6, 13, 10],
        picked: Vec::new,
        arguments: graph_alone,
        expected: read,
    },
    Operation {
        number: 1,
        name: "ohg_rewrite",
        parameters: &[Input, Answered],
        refusals: &[1, 2, 3, 4, 5, 6, 13, 10],
        picked: Vec::new,
        arguments: graph_alone,
        expected: rewrite,
    },
];

/// Six sizes of 4 bytes.
fn read(arguments: &Arguments) -> Outcome {
    let sizes = graph_sizes(arguments)?.bytes();
    Ok(Answer {
        a: sizes.len() as u32,
        b: 0,
        written: vec![sizes],
    })
}

/// The same graph, by way of the original's.
fn rewrite(arguments: &Arguments) -> Outcome {
    made(&graph(arguments)?, 0)
}

fn fixed(rng: &mut Rng) -> Vec<Vec<u8>> {
    let mut forms = damage::port_sums();
    forms.extend(cases::at_limits(rng, true));
    forms.extend(cases::at_largest(Rng::new(rng.number()), true));
    forms
}

/// All short strings, headers and small drawings, and all damage to the forms worked by hand and to P8 in version 2, whether
/// that is its own or not.
fn every(_: Rng) -> Forms {
    let by_hand = cases::worked_by_hand().into_iter().map(|d| form::write(&d));
    let p8_in_2 = [cases::p8(), cases::p8_outgrown()].map(|d| form::write_as(VERSION_2, &d));
    let forms = by_hand.chain(p8_in_2);
    let damages = forms.flat_map(|form| damage::damages(&form).collect::<Vec<_>>());
    let strings = damage::short_strings().chain(damage::headers());
    let drawings = small::drawings().map(|drawing| form::write(&drawing));
    Box::new(damages.chain(strings).chain(drawings))
}
