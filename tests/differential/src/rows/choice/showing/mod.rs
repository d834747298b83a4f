//! T-12 of document 02: one loop, found by a walk in the first core. The original finds none, so the walk is written here, and of
//! each loop it is asked what a loop is.

pub mod picked;

pub use picked::picked;

use super::keeping::stages::{arcs, has_cycle, vertices, within_core};
use super::{definition, unpaired};
use crate::call::{Answer, Arguments, Outcome};
use crate::convert::{sizes, Graph};
use crate::form::{self, id_bytes};
use std::collections::HashSet;

/// Graphs of up to so many ports go through [`by_rule`] too, which takes long.
const FEW: usize = 40;

/// The vertices of a loop, edges numbered on after the nodes, and the steps of the walk that found it.
#[derive(Debug, PartialEq, Eq)]
pub struct Shown {
    pub list: Vec<usize>,
    pub steps: usize,
}

const NONE_SHOWN: Shown = Shown {
    list: vec![],
    steps: 0,
};

/// 1 to 6, 13 and 8, and then the loop.
pub fn find_loop(arguments: &Arguments) -> Outcome {
    let graph = unpaired(arguments)?;
    let shown = walked(&graph);
    if sizes(&graph).ports <= FEW {
        assert_eq!(shown, by_rule(&graph), "the core found from nothing");
    }
    hold(&graph, &shown);
    Ok(Answer {
        a: shown.list.len() as u32,
        b: shown.steps as u32,
        written: vec![id_bytes(shown.list, form::width(arguments.graph()))],
    })
}

/// The walk from the lowest node of the core, which is left when all that is loose has been taken away.
pub fn walked(graph: &Graph) -> Shown {
    let onward = definition::lowest_in_core(graph);
    let nodes = 0..graph.hypergraph.nodes.len();
    let Some(start) = nodes.into_iter().find(|&node| onward[node].is_some()) else {
        return NONE_SHOWN;
    };
    let mut visits = vec![];
    let mut first_visit = vec![None; onward.len()];
    let mut vertex = start;
    while first_visit[vertex].is_none() {
        first_visit[vertex] = Some(visits.len());
        visits.push(vertex);
        vertex = onward[vertex].expect("the core leads on");
    }
    closed(visits, vertex)
}

/// The same word by word, every arc of the core looked at before each step.
fn by_rule(graph: &Graph) -> Shown {
    let arcs = within_core(arcs(graph));
    let mut nodes = 0..graph.hypergraph.nodes.len();
    let Some(mut vertex) = nodes.find(|node| arcs.iter().any(|arc| arc.0 == *node)) else {
        return NONE_SHOWN;
    };
    let mut visits = vec![];
    while !visits.contains(&vertex) {
        visits.push(vertex);
        let ends = arcs.iter().filter(|arc| arc.0 == vertex).map(|arc| arc.1);
        vertex = ends.min().expect("the core leads on");
    }
    closed(visits, vertex)
}

/// What is shown where a walk has met this vertex again: each vertex visited was left by one step.
fn closed(mut visits: Vec<usize>, again: usize) -> Shown {
    let steps = visits.len();
    let first = visits.iter().position(|&vertex| vertex == again);
    let list = visits.split_off(first.expect("it was visited"));
    Shown { list, steps }
}

/// Whether it is a directed cycle: from each vertex an arc leads to the next and from the last to the first, none is there twice,
/// there are none exactly if there is no cycle, and the steps are no fewer than they and no more than all vertices.
fn hold(graph: &Graph, shown: &Shown) {
    let Shown { list, steps } = shown;
    let all = vertices(graph);
    let loops = has_cycle(graph, &vec![true; all]);
    assert_eq!(!list.is_empty(), loops, "there is a loop to be shown");
    let arcs: HashSet<(usize, usize)> = arcs(graph).into_iter().collect();
    let next = list.iter().cycle().skip(1);
    for (&from, &to) in list.iter().zip(next) {
        assert!(arcs.contains(&(from, to)), "an arc leads on");
    }
    let once: HashSet<usize> = list.iter().copied().collect();
    assert_eq!(once.len(), list.len(), "each vertex is there once");
    assert!((list.len()..=all).contains(steps), "each is left once");
    assert_eq!(*steps == 0, list.is_empty(), "no steps without a loop");
}

#[cfg(test)]
mod tests {
    use super::*;
    use crate::cases::{edge, p1, p2, p4, p6, p7, p9, plain};
    use crate::form::{Drawing, Refusal};

    fn on(drawing: &Drawing) -> Outcome {
        find_loop(&Arguments::new(&[], &[&form::write(drawing)]))
    }

    /// The list and the steps.
    fn shown(drawing: &Drawing) -> (Vec<u8>, u32) {
        let answer = on(drawing).expect("it is answered");
        (answer.written[0].clone(), answer.b)
    }

    #[test]
    fn the_loops_worked_by_hand() {
        assert_eq!(shown(&p1()), (id_bytes([], 2), 0));
        assert_eq!(shown(&p2()), (id_bytes([0, 1], 2), 2));
        assert_eq!(shown(&p4()), (id_bytes([], 2), 0));
        assert_eq!(shown(&p6()), (id_bytes([0, 2, 1, 3], 2), 4));
        assert_eq!(shown(&p7()), (id_bytes([0, 3], 2), 2));
        let refused = on(&p9()).map(|answer| answer.a);
        assert_eq!(refused, Err(Refusal::Pair.nowhere()));
    }

    /// P7 with as many nodes that are no part of it as make it version 2.
    #[test]
    fn edges_are_numbered_on_after_all_nodes() {
        let outgrown = Drawing {
            labels: vec![7; 2049],
            ..p7()
        };
        assert_eq!(shown(&outgrown), (id_bytes([0, 2049], 4), 2));
    }

    /// 0>1, 1>2 1, 0>0: the first target of the second edge is not its lowest, and the walk comes back to where it has been last.
    #[test]
    fn the_way_to_a_loop_is_not_shown() {
        let edges = [
            edge(9, &[0], &[1]),
            edge(9, &[1], &[2, 1]),
            edge(9, &[0], &[0]),
        ];
        assert_eq!(shown(&plain(3, &edges)), (id_bytes([1, 4], 2), 4));
    }

    /// An edge is met again.
    #[test]
    fn a_loop_may_begin_at_an_edge() {
        let edges = [edge(9, &[0, 1], &[1]), edge(9, &[1], &[0])];
        assert_eq!(shown(&plain(2, &edges)), (id_bytes([2, 1], 2), 3));
    }

    fn held(list: &[usize], steps: usize) {
        let graph = crate::convert::to_lax(&p7());
        let list = list.to_vec();
        hold(&graph, &Shown { list, steps });
    }

    #[test]
    fn other_loops_are_loops_too() {
        held(&[3, 0], 5);
        held(&[2, 4], 4);
    }

    #[test]
    #[should_panic(expected = "there is a loop to be shown")]
    fn none_is_shown() {
        held(&[], 0);
    }

    #[test]
    #[should_panic(expected = "an arc leads on")]
    fn the_last_leads_to_the_first() {
        held(&[0, 3, 1, 4], 4);
    }

    #[test]
    #[should_panic(expected = "each vertex is there once")]
    fn no_vertex_is_there_twice() {
        held(&[0, 3, 0, 3], 4);
    }

    #[test]
    #[should_panic(expected = "each is left once")]
    fn the_closing_step_counts() {
        held(&[0, 3], 1);
    }
}
