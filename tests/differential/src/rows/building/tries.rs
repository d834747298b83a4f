//! The arguments that each building function is tried with, by chance.

use crate::arguments::{broken, counts, id_list};
use crate::call::Arguments;
use crate::cases::random::label;
use crate::form;
use crate::rng::Rng;

pub fn graph_and_label(graph: &[u8], rng: &mut Rng) -> Vec<Arguments> {
    vec![Arguments::new(&[label(rng)], &[graph])]
}

pub fn graph_and_two_nodes(graph: &[u8], rng: &mut Rng) -> Vec<Arguments> {
    let (nodes, _) = counts(graph);
    let pair = [single_id(rng, nodes), single_id(rng, nodes)];
    vec![Arguments::new(&pair, &[graph])]
}

pub fn graph_edge_and_label(graph: &[u8], rng: &mut Rng) -> Vec<Arguments> {
    let (_, edges) = counts(graph);
    let numbers = [single_id(rng, edges), label(rng)];
    vec![Arguments::new(&numbers, &[graph])]
}

pub fn graph_label_and_two_node_lists(graph: &[u8], rng: &mut Rng) -> Vec<Arguments> {
    let (nodes, _) = counts(graph);
    let width = form::width(graph);
    let lists = [(); 2].map(|_| id_list(rng, nodes, width));
    vec![Arguments::new(
        &[label(rng)],
        &[graph, &lists[0], &lists[1]],
    )]
}

pub fn graph_label_and_two_label_lists(graph: &[u8], rng: &mut Rng) -> Vec<Arguments> {
    let lists = [labels(rng), labels(rng)];
    vec![Arguments::new(
        &[label(rng)],
        &[graph, &lists[0], &lists[1]],
    )]
}

/// For a function without a graph. It is asked at every form, so it is tried only now and then.
pub fn nothing(_: &[u8], rng: &mut Rng) -> Vec<Arguments> {
    now_and_then(rng, |_| Arguments::new(&[], &[]))
}

pub fn label_list(_: &[u8], rng: &mut Rng) -> Vec<Arguments> {
    now_and_then(rng, |rng| Arguments::new(&[], &[&labels(rng)]))
}

pub fn label_and_two_label_lists(_: &[u8], rng: &mut Rng) -> Vec<Arguments> {
    now_and_then(rng, |rng| {
        Arguments::new(&[label(rng)], &[&labels(rng), &labels(rng)])
    })
}

fn now_and_then(rng: &mut Rng, arguments: impl Fn(&mut Rng) -> Arguments) -> Vec<Arguments> {
    if rng.once_in(4) {
        vec![arguments(rng)]
    } else {
        vec![]
    }
}

/// An id given singly: mostly a good one, else just past the last, or one whose low 16 bits are good.
fn single_id(rng: &mut Rng, count: usize) -> u32 {
    let good = rng.below(count.max(1));
    match rng.below(12) {
        0 => count as u32,
        1 => 65_536 + good as u32,
        2 => rng.number() as u32,
        _ => good as u32,
    }
}

/// A list of labels; now and then long, about the limits and past them, or with a broken end.
fn labels(rng: &mut Rng) -> Vec<u8> {
    let n = match rng.below(40) {
        0 => rng.pick(&[1023, 1024, 1025, 2047, 2048, 2049]),
        1 if rng.once_in(20) => rng.pick(&[8191, 8192, 8193, 16_383, 16_384, 16_385, 70_000]),
        _ => rng.below(5),
    };
    let labels: Vec<u8> = (0..n).flat_map(|_| label(rng).to_le_bytes()).collect();
    broken(rng, labels)
}
