//! The three sides of a call that makes a graph of a graph: the port, from stored form to stored form; the original on a
//! decoded graph; and the original from stored form to stored form. Those of a check are alike, with a plain check in
//! place of the original.
//!
//! Of all times, here and in the other modules, the port's come first, and last those of what takes and gives the same.

use crate::stored::{decode, decode_all, encode};
use crate::timing::{medians, Side};
use differential::convert::Graph;
use differential::form::VERSION_2;

/// The longest list or map of a call.
pub const MOST_LIST_BYTES: usize = VERSION_2.width * VERSION_2.most.nodes;

/// A graph in memory is about so many times as large as its form.
const IN_MEMORY: usize = 5;

/// The medians of the nanoseconds that a call takes on some inputs by turns, forms or lists of labels.
pub type Times = fn(&[Vec<u8>]) -> Vec<f64>;

/// The times of a call on forms, perhaps with something beside each. The original's part is given as what it does to a
/// graph.
#[track_caller]
pub fn graph_times<T: AsRef<[u8]>, R>(
    inputs: &[T],
    mut port: impl FnMut(&T, &mut [u8]) -> u64,
    original: impl Fn(&mut Graph, &T) -> R,
) -> Vec<f64> {
    let stored = |input: &T| {
        let mut graph = decode(input.as_ref());
        original(&mut graph, input);
        encode(&graph)
    };
    let mut out = vec![0; VERSION_2.most_bytes()];
    for input in inputs {
        assert_answered(port(input, &mut out), &out, &stored(input));
    }
    let decoded = |input| (decode(AsRef::as_ref(input)), input);
    let graphs: Vec<(Graph, &T)> = inputs.iter().map(decoded).collect();
    let bytes = IN_MEMORY * inputs[0].as_ref().len();
    medians(vec![
        Side::new(inputs, |input| port(input, &mut out)),
        Side::on_copies(&graphs, bytes, |(graph, input)| original(graph, input)),
        Side::new(inputs, stored),
    ])
}

/// The times of a check on forms, and of a plain one, which is given as what it says of a graph.
#[track_caller]
pub fn check_times(
    forms: &[Vec<u8>],
    mut port: impl FnMut(&[u8]) -> u64,
    plain: fn(&Graph) -> bool,
) -> Vec<f64> {
    let stored = |form: &Vec<u8>| plain(&decode(form));
    for form in forms {
        assert_eq!(answered(port(form)), Some(stored(form).into()));
    }
    let graphs = decode_all(forms);
    medians(vec![
        Side::new(forms, |form| port(form)),
        Side::new(&graphs, plain),
        Side::new(forms, stored),
    ])
}

/// That the port has returned the length of these bytes and has written them.
#[track_caller]
pub fn assert_answered(returned: u64, out: &[u8], due: &[u8]) {
    assert_eq!(answered(returned), Some(due.len()), "the lengths agree");
    assert!(out[..due.len()] == *due, "the answers agree");
}

/// The first number of an answer, where the call was not refused.
pub fn answered(returned: u64) -> Option<usize> {
    let a = returned >> 8 & 0xFF_FFFF;
    (returned & 0xFF == 0).then_some(a as usize)
}
