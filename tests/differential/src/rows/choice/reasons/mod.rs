//! T-04 of document 02: why each node is chosen or freed. The original says nothing of it, so it is found here by what can be
//! reached: at each stage from the core and to it, through what remained when the stage began.

mod paths;
mod picked;

pub use picked::picked;

use super::definition::{self, Stage};
use super::keeping::stages::{arcs, vertices};
use super::{chosen_by_original, unpaired};
use crate::call::{Answer, Arguments, Outcome};
use crate::convert::{sizes, Graph};
use paths::by_paths;
use std::collections::HashSet;

/// Graphs of up to so many ports go through [`by_paths`] too, which takes long.
const FEW: usize = 40;

/// The bytes of an entry.
pub const ENTRY: usize = 16;

#[derive(Debug, Clone, Copy, PartialEq, Eq)]
pub enum Reason {
    Chosen {
        stage: usize,
        into: usize,
        out: usize,
    },
    /// Freed: no core vertex leads to it.
    NotLedTo { stage: usize },
    /// Freed: it leads to no core vertex, and the other does not hold.
    LeadsToNone { stage: usize },
}

/// 1 to 6, 13 and 8, and then a reason for each node.
pub fn reasons(arguments: &Arguments) -> Outcome {
    let graph = unpaired(arguments)?;
    let reasons = by_stages(&graph);
    if sizes(&graph).ports <= FEW {
        assert_eq!(reasons, by_paths(&graph), "each core found from nothing");
    }
    hold(&chosen_by_original(&graph), &reasons);
    let is_chosen = |reason: &&Reason| matches!(reason, Reason::Chosen { .. });
    Ok(Answer {
        a: reasons.len() as u32,
        b: reasons.iter().filter(is_chosen).count() as u32,
        written: vec![entries(&reasons)],
    })
}

/// The answer as bytes.
pub fn entries(reasons: &[Reason]) -> Vec<u8> {
    reasons.iter().flat_map(entry).collect()
}

/// Kind, stage, arcs in and arcs out, 4 bytes each.
fn entry(reason: &Reason) -> impl Iterator<Item = u8> {
    let numbers = match *reason {
        Reason::Chosen { stage, into, out } => [0, stage, into, out],
        Reason::NotLedTo { stage } => [1, stage, 0, 0],
        Reason::LeadsToNone { stage } => [2, stage, 0, 0],
    };
    let bytes = |n: usize| (n as u32).to_le_bytes();
    numbers.into_iter().flat_map(bytes)
}

/// The reasons of the nodes, stage by stage. A way from the core to a vertex that is freed leaves the core once for good, and goes on
/// through vertices that are freed with it; so these alone are looked at.
pub fn by_stages(graph: &Graph) -> Vec<Reason> {
    let stages = definition::stages(graph);
    let gone = leaving(&stages, vertices(graph));
    let [mut onto, mut from] = [(); 2].map(|_| vec![vec![]; gone.len()]);
    for (source, target) in arcs(graph) {
        onto[source].push(target);
        from[target].push(source);
    }
    let mut led = vec![false; gone.len()];
    let mut leads = vec![false; gone.len()];
    let mut reasons = vec![None; gone.len()];
    for (before, Stage { freed, chosen }) in stages.iter().enumerate() {
        let stage = 1 + before;
        let in_core = |v: usize| gone[v] > stage || chosen.is_some_and(|(best, _)| best == v);
        spread(freed, &from, &onto, in_core, &mut led);
        spread(freed, &onto, &from, in_core, &mut leads);
        for &vertex in freed {
            assert!(!led[vertex] || !leads[vertex], "one of the two holds");
            reasons[vertex] = Some(if led[vertex] {
                Reason::LeadsToNone { stage }
            } else {
                Reason::NotLedTo { stage }
            });
        }
        if let Some((best, [into, out])) = *chosen {
            reasons[best] = Some(Reason::Chosen { stage, into, out });
        }
    }
    reasons.truncate(graph.hypergraph.nodes.len());
    let each = reasons.into_iter().map(|reason| reason.expect("it went"));
    each.collect()
}

/// The stage in which each vertex goes, freed or chosen.
fn leaving(stages: &[Stage], vertices: usize) -> Vec<usize> {
    let mut gone = vec![0; vertices];
    for (before, Stage { freed, chosen }) in stages.iter().enumerate() {
        let best = chosen.iter().map(|(best, _)| best);
        best.chain(freed)
            .for_each(|&vertex| gone[vertex] = 1 + before);
    }
    gone
}

/// Marks those of the freed vertices that are reached from the core, where `back` has what each is reached from by one arc and `on` what it
/// reaches.
fn spread(
    freed: &[usize],
    back: &[Vec<usize>],
    on: &[Vec<usize>],
    in_core: impl Fn(usize) -> bool,
    reached: &mut [bool],
) {
    let mut waiting = vec![];
    for &vertex in freed {
        if back[vertex].iter().any(|&v| in_core(v)) {
            reached[vertex] = true;
            waiting.push(vertex);
        }
    }
    let freed: HashSet<usize> = freed.iter().copied().collect();
    while let Some(vertex) = waiting.pop() {
        for &next in &on[vertex] {
            if freed.contains(&next) && !reached[next] {
                reached[next] = true;
                waiting.push(next);
            }
        }
    }
}

/// Chosen is said of the ids that the choice answers; each stage but the last chooses one; the last frees what no core vertex leads
/// to, and no reason is of a stage behind it; and what is chosen has arcs in and out.
fn hold(chosen: &[usize], reasons: &[Reason]) {
    let (mut said, mut stages) = (vec![], vec![]);
    for (node, reason) in reasons.iter().enumerate() {
        if let Reason::Chosen { stage, into, out } = *reason {
            said.push(node);
            stages.push(stage);
            assert!(into * out > 0, "it is in the core");
        }
    }
    assert_eq!(said, chosen, "chosen is said of the choice");
    stages.sort_unstable();
    let each = 1..=chosen.len();
    assert!(stages.into_iter().eq(each), "each stage chooses one");
    let last = 1 + chosen.len();
    for reason in reasons {
        match *reason {
            Reason::NotLedTo { stage } => assert!((1..=last).contains(&stage), "it is a stage"),
            Reason::LeadsToNone { stage } => {
                assert!((1..last).contains(&stage), "the last has no core")
            }
            Reason::Chosen { .. } => {}
        }
    }
}

#[cfg(test)]
mod tests {
    use super::*;
    use crate::cases::{p1, p2, p4, p6, p7, p9, small};
    use crate::convert::to_lax;
    use crate::form::{self, Drawing, Refusal};
    use crate::rng::Rng;
    use picked::{packet_path, tailed};

    fn on(drawing: &Drawing) -> Outcome {
        reasons(&Arguments::new(&[], &[&form::write(drawing)]))
    }

    /// The entries as numbers, and how many are chosen.
    fn said(drawing: &Drawing) -> (Vec<[u32; 4]>, u32) {
        let answer = on(drawing).expect("it is answered");
        let number = |bytes: &[u8]| u32::from_le_bytes(bytes.try_into().unwrap());
        let entries = answer.written[0].chunks(ENTRY);
        let numbers = |entry: &[u8]| [0, 4, 8, 12].map(|at| number(&entry[at..at + 4]));
        assert_eq!(entries.len(), answer.a as usize);
        (entries.map(numbers).collect(), answer.b)
    }

    #[test]
    fn the_reasons_worked_by_hand() {
        assert_eq!(said(&p1()), (vec![], 0));
        assert_eq!(said(&p2()), (vec![[0, 1, 1, 1]], 1));
        assert_eq!(said(&p4()), (vec![[1, 1, 0, 0]], 0));
        assert_eq!(said(&p6()), (vec![[0, 1, 1, 1], [1, 2, 0, 0]], 1));
        let of_p7 = vec![[0, 2, 1, 1], [0, 1, 2, 2], [0, 3, 1, 1]];
        assert_eq!(said(&p7()), (of_p7, 3));
        let of_tailed = vec![[1, 1, 0, 0], [0, 1, 1, 1], [1, 1, 0, 0], [2, 1, 0, 0]];
        assert_eq!(said(&tailed()), (of_tailed, 1));
        let refused = on(&p9()).map(|answer| answer.a);
        assert_eq!(refused, Err(Refusal::Pair.nowhere()));
    }

    /// arrived, merged, body, key, server, health, ready, leaving, retry: examples/README.md says why.
    #[test]
    fn the_packet_path_worked_by_hand() {
        let of_path = vec![
            [1, 1, 0, 0],
            [0, 2, 1, 1],
            [1, 3, 0, 0],
            [2, 2, 0, 0],
            [0, 1, 1, 2],
            [1, 2, 0, 0],
            [1, 3, 0, 0],
            [2, 1, 0, 0],
            [1, 3, 0, 0],
        ];
        assert_eq!(said(&packet_path()), (of_path, 2));
        let stored = include_bytes!("../../../../../../examples/packet-path.ohg");
        assert_eq!(form::write(&packet_path()), stored);
    }

    /// P7 with as many nodes that are no part of it as make it version 2: entries are as long.
    #[test]
    fn an_entry_has_16_bytes_in_both_versions() {
        let outgrown = Drawing {
            labels: vec![7; 2049],
            ..p7()
        };
        let (entries, chosen) = said(&outgrown);
        assert_eq!((entries.len(), chosen), (2049, 3));
        assert_eq!(entries[..3], said(&p7()).0);
        assert!(entries[3..].iter().all(|entry| *entry == [1, 1, 0, 0]));
    }

    /// Both ways to find them agree on every small graph, which is asked where they are answered.
    #[test]
    fn every_small_graph_has_its_reasons() {
        for drawing in small::graphs([2, 2, 3], false, Rng::new(1)) {
            let (entries, _) = said(&drawing);
            assert_eq!(entries.len(), drawing.labels.len());
        }
    }

    fn held(reasons: &[Reason]) {
        hold(&chosen_by_original(&to_lax(&p6())), reasons);
    }

    const CHOSEN: Reason = Reason::Chosen {
        stage: 1,
        into: 1,
        out: 1,
    };

    #[test]
    #[should_panic(expected = "chosen is said of the choice")]
    fn another_node_chosen() {
        held(&[Reason::NotLedTo { stage: 2 }, CHOSEN]);
    }

    #[test]
    #[should_panic(expected = "each stage chooses one")]
    fn stages_from_zero() {
        let first = Reason::Chosen {
            stage: 0,
            into: 1,
            out: 1,
        };
        held(&[first, Reason::NotLedTo { stage: 1 }]);
    }

    #[test]
    #[should_panic(expected = "the last has no core")]
    fn the_second_kind_in_the_last_stage() {
        held(&[CHOSEN, Reason::LeadsToNone { stage: 2 }]);
    }

    #[test]
    #[should_panic(expected = "it is in the core")]
    fn chosen_without_arcs() {
        let none = Reason::Chosen {
            stage: 1,
            into: 0,
            out: 1,
        };
        held(&[none, Reason::NotLedTo { stage: 2 }]);
    }
}
