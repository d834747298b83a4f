//! The call with steps beside the exported single calls in a row, each on what the one before it answered; lists cut at every byte;
//! and long lists beside the original.

use super::picked::one_of_each;
use super::step::{laid, Step};
use super::tries::{building, steps};
use super::{build, BUILD, GROUP};
use crate::call::{Answer, Arguments, Outcome};
use crate::cases::{p1, p8, p8_outgrown, plain, random};
use crate::convert::to_lax;
use crate::form::{self, id_bytes};
use crate::run::{Amount, Run};

/// How large its part of a run's calls is, beside the groups' parts.
pub const SHARE: u64 = 1;

const NEW_NODE: u8 = 6;
const NEW_EDGE: u8 = 7;
const NEW_OPERATION: u8 = 8;
const UNIFY: u8 = 9;
const ADD_EDGE_SOURCE: u8 = 10;
const ADD_EDGE_TARGET: u8 = 11;
const DELETE_EDGES: u8 = 12;
const DELETE_NODES: u8 = 13;

/// The most steps of a list, and how many lists of so many there are.
const LONG: usize = 20_000;
const LONG_LISTS: usize = 3;
const LONG_LISTS_IN_FULL: usize = 40;

pub fn follow(run: &mut Run, amount: Amount) {
    let end = run.calls() + SHARE * amount.per_share;
    cut_at_every_byte(run);
    let long = if amount.full {
        LONG_LISTS_IN_FULL
    } else {
        LONG_LISTS
    };
    for _ in 0..long {
        long_list(run);
    }
    // From nothing, and across the change of the versions there and back.
    let n = if amount.full { 3000 } else { 300 };
    let list = building(&mut run.rng, n);
    singly(run, &form::write(&p1()), &list);
    let full = form::write(&plain(2047, &[]));
    let node = Step::NewNode(7);
    let gone = Step::DeleteNodes(vec![5]);
    let list = [&node, &node, &gone, &node, &gone, &gone].map(Clone::clone);
    singly(run, &full, &list);
    while run.calls() < end {
        let drawing = random::drawing_for(&mut run.rng, &GROUP);
        let n = run.rng.pick(&[3, 8, 8, 20, 60]);
        let list = steps(&mut run.rng, to_lax(&drawing), n);
        singly(run, &form::write(&drawing), &list);
    }
}

/// Lists with a step of each kind, and lists by chance, cut at each byte.
fn cut_at_every_byte(run: &mut Run) {
    let mut lists = vec![one_of_each()];
    lists.extend((0..3).map(|_| steps(&mut run.rng, to_lax(&p8()), 8)));
    for (drawing, which) in [(p1(), 0..1), (p8(), 0..4), (p8_outgrown(), 0..2)] {
        let graph = form::write(&drawing);
        for list in &lists[which] {
            let bytes = laid(list);
            for n in 0..=bytes.len() {
                called(run, &graph, &bytes[..n], None);
            }
        }
    }
}

/// A list of very many steps on a drawing by chance, or on nothing.
fn long_list(run: &mut Run) {
    let mut drawing = random::drawing_for(&mut run.rng, &GROUP);
    if run.rng.once_in(3) {
        drawing = p1();
    }
    let n = run.rng.between(LONG / 10, LONG);
    let list = if run.rng.once_in(3) {
        building(&mut run.rng, n)
    } else {
        steps(&mut run.rng, to_lax(&drawing), n)
    };
    called(run, &form::write(&drawing), &laid(&list), None);
}

/// The steps by the port's single calls, and then by one call, which is due what they gave.
fn singly(run: &mut Run, graph: &[u8], list: &[Step]) {
    let mut form = graph.to_vec();
    let mut ended = None;
    for (index, step) in list.iter().enumerate() {
        let (number, arguments) = single(&form, step);
        let function = run.function(number);
        let outcome = (function.operation.expected)(&arguments);
        let call = function.exact(arguments, &outcome);
        if !run.call(&function, &call, function.due(&call, &outcome)) {
            return;
        }
        match outcome {
            Ok(mut answer) => form = answer.written.swap_remove(0),
            Err(refused) => {
                ended = Some(refused.at_step(index));
                break;
            }
        }
    }
    let due = match ended {
        Some(refused) => Err(refused),
        None => Ok(Answer {
            a: form.len() as u32,
            b: 0,
            written: vec![form],
        }),
    };
    called(run, graph, &laid(list), Some(due));
}

/// One call with steps, which is due what single calls gave, where they were made.
fn called(run: &mut Run, graph: &[u8], list: &[u8], singly: Option<Outcome>) {
    let function = run.function(BUILD);
    let arguments = Arguments::new(&[], &[graph, list]);
    let outcome = singly.unwrap_or_else(|| build(&arguments));
    let call = function.exact(arguments, &outcome);
    run.call(&function, &call, function.due(&call, &outcome));
}

/// The single call of a step on a form, whose lists are as wide as that form's. An id that does not fit becomes the highest that
/// does, which no graph has.
fn single(form: &[u8], step: &Step) -> (u8, Arguments) {
    let width = form::width(form);
    let highest = if width == 2 { 65_535 } else { u32::MAX };
    let ids = |list: &[u32]| id_bytes(list.iter().map(|&id| id.min(highest) as usize), width);
    let labels = |list: &[u32]| id_bytes(list.iter().map(|&label| label as usize), 4);
    let with = |numbers: &[u32], lists: &[Vec<u8>]| {
        let mut arguments = Arguments::new(numbers, &[form]);
        arguments.inputs.extend_from_slice(lists);
        arguments
    };
    match step {
        Step::NewNode(label) => (NEW_NODE, with(&[*label], &[])),
        Step::NewEdge(label, sources, targets) => {
            (NEW_EDGE, with(&[*label], &[ids(sources), ids(targets)]))
        }
        Step::NewOperation(label, sources, targets) => (
            NEW_OPERATION,
            with(&[*label], &[labels(sources), labels(targets)]),
        ),
        Step::Unify(v, w) => (UNIFY, with(&[*v, *w], &[])),
        Step::AddEdgeSource(edge, label) => (ADD_EDGE_SOURCE, with(&[*edge, *label], &[])),
        Step::AddEdgeTarget(edge, label) => (ADD_EDGE_TARGET, with(&[*edge, *label], &[])),
        Step::DeleteEdges(gone) => (DELETE_EDGES, with(&[], &[ids(gone)])),
        Step::DeleteNodes(gone) => (DELETE_NODES, with(&[], &[ids(gone)])),
    }
}
