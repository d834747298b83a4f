//! The choice of cycle-breaking nodes, without kept nodes and with them, by both engines, its reasons, the search for a loop, and the
//! no-loop check.

pub mod definition;
pub mod families;
pub mod keeping;
pub mod reasons;
pub mod showing;

use crate::arguments::graph_alone;
use crate::call::{Answer, Arguments, Outcome};
use crate::cases::{self, random, small};
use crate::convert::Graph;
use crate::form::{self, id_bytes, Drawing, Refusal, VERSION_1, VERSION_2};
use crate::operation::Parameter::{Answered, Input, Room};
use crate::operation::{Forms, Group, Operation};
use crate::rng::Rng;
use crate::steps::{graph, Checked};
use oracle::lax::cycle;

pub const GROUP: Group = Group {
    name: "choice",
    operations: OPERATIONS,
    share: 3,
    fixed,
    every,
    step: 256,
    drawing,
    damaged: 1,
};

const OPERATIONS: &[Operation] = &[
    Operation {
        number: 14,
        name: "ohg_cycle_breaking_nodes",
        parameters: &[Input, Answered, Room],
        refusals: &[1, 2, 3, 4, 5, 6, 13, 8, 10],
        picked: Vec::new,
        arguments: graph_alone,
        expected: cycle_breaking_nodes,
    },
    Operation {
        number: 17,
        name: "ohg_no_loop",
        parameters: &[Input, Room],
        refusals: &[1, 2, 3, 4, 5, 6, 13, 8, 10],
        picked: Vec::new,
        arguments: graph_alone,
        expected: no_loop,
    },
    Operation {
        number: 20,
        name: "ohg_cycle_breaking_nodes_keeping",
        parameters: &[Input, Input, Answered, Room],
        refusals: &[1, 2, 3, 4, 5, 6, 13, 7, 8, 16, 10],
        picked: keeping::picked,
        arguments: keeping::graph_and_kept_list,
        expected: keeping::cycle_breaking_nodes_keeping,
    },
    Operation {
        number: 21,
        name: "ohg_cycle_breaking_nodes_scanning",
        parameters: &[Input, Input, Answered, Room],
        refusals: &[1, 2, 3, 4, 5, 6, 13, 7, 8, 16, 10],
        picked: keeping::picked,
        arguments: keeping::graph_and_kept_list,
        expected: keeping::cycle_breaking_nodes_keeping,
    },
    Operation {
        number: 22,
        name: "ohg_find_loop",
        parameters: &[Input, Answered, Room],
        refusals: &[1, 2, 3, 4, 5, 6, 13, 8, 10],
        picked: showing::picked,
        arguments: graph_alone,
        expected: showing::find_loop,
    },
    Operation {
        number: 23,
        name: "ohg_reasons",
        parameters: &[Input, Answered, Room],
        refusals: &[1, 2, 3, 4, 5, 6, 13, 8, 10],
        picked: reasons::picked,
        arguments: graph_alone,
        expected: reasons::reasons,
    },
];

/// The first engine's function, and that of the second, which is asked whatever the first is and due the same.
pub const ENGINES: [u8; 2] = [20, 21];

/// 1 to 6, 13 and 8.
pub fn unpaired(arguments: &Arguments) -> Checked<Graph> {
    strict(graph(arguments)?)
}

/// 8.
fn strict(graph: Graph) -> Checked<Graph> {
    if graph.hypergraph.is_strict() {
        Ok(graph)
    } else {
        Err(Refusal::Pair.nowhere())
    }
}

/// The original's list, and the free count of the definition, whose own list must be the same.
fn cycle_breaking_nodes(arguments: &Arguments) -> Outcome {
    let graph = unpaired(arguments)?;
    let chosen = chosen_by_original(&graph);
    let (defined, free) = definition::choice(&graph);
    assert_eq!(chosen, defined, "document 01's choice is the original's");
    Ok(Answer {
        a: chosen.len() as u32,
        b: free as u32,
        written: vec![id_bytes(chosen, form::width(arguments.graph()))],
    })
}

pub fn chosen_by_original(graph: &Graph) -> Vec<usize> {
    let chosen = cycle::cycle_breaking_nodes(graph).expect("there are no pairs");
    chosen.iter().map(|node| node.0).collect()
}

fn no_loop(arguments: &Arguments) -> Outcome {
    let graph = unpaired(arguments)?;
    Ok(yes_or_no(definition::no_loop(&graph)))
}

pub fn yes_or_no(yes: bool) -> Answer {
    Answer {
        a: yes.into(),
        b: 0,
        written: vec![],
    }
}

/// Forms at the limits, without pairs, the largest of each family in either version, and rings with large scores.
fn fixed(rng: &mut Rng) -> Vec<Vec<u8>> {
    let mut forms = cases::at_limits(rng, false);
    let mut largest = vec![];
    for version in [VERSION_1, VERSION_2] {
        largest.extend(families::FAMILIES.map(|family| family(rng, version.most.nodes)));
        largest.extend(families::heaviest(version.most.ports));
    }
    let heavy = (0..32).map(|i| families::heavy_ring(rng, 1 + i % 4));
    let drawings = largest.into_iter().chain(heavy);
    forms.extend(drawings.map(|drawing| form::write(&drawing)));
    forms
}

/// All multigraphs of up to three nodes and two edges with up to four ports each; with three edges, up to two ports
/// each, and up to three on two nodes. And the largest forms.
fn every(mut rng: Rng) -> Forms {
    let largest = cases::at_largest(Rng::new(rng.number()), false);
    let mut graphs = |sizes| small::graphs(sizes, false, Rng::new(rng.number()));
    let all = graphs([3, 2, 4])
        .chain(graphs([3, 3, 2]))
        .chain(graphs([2, 3, 3]));
    Box::new(largest.chain(all.map(|drawing| form::write(&drawing))))
}

/// One of a family, or any other; one in sixteen of these may have pairs.
pub fn drawing(rng: &mut Rng, most: usize) -> Drawing {
    if rng.once_in(2) {
        return families::mixed(rng, most);
    }
    let drawing = random::drawing_of(rng, most);
    if rng.once_in(16) {
        drawing
    } else {
        without_pairs(drawing)
    }
}

pub fn without_pairs(drawing: Drawing) -> Drawing {
    Drawing {
        pairs: vec![],
        ..drawing
    }
}

#[cfg(test)]
mod tests {
    use super::*;
    use crate::cases::{p1, p2, p4, p6, p7, p9};

    fn on(drawing: &Drawing) -> Arguments {
        Arguments::new(&[], &[&form::write(drawing)])
    }

    /// The list and the free count.
    fn chosen(drawing: Drawing) -> (Vec<u8>, u32) {
        let answer = cycle_breaking_nodes(&on(&drawing)).expect("it is answered");
        (answer.written[0].clone(), answer.b)
    }

    #[test]
    fn the_choices_worked_by_hand() {
        assert_eq!(chosen(p1()), (id_bytes([], 2), 0));
        assert_eq!(chosen(p2()), (id_bytes([0], 2), 1));
        assert_eq!(chosen(p4()), (id_bytes([], 2), 1));
        assert_eq!(chosen(p6()), (id_bytes([0], 2), 3));
        assert_eq!(chosen(p7()), (id_bytes([0, 1, 2], 2), 2));
        let refused = cycle_breaking_nodes(&on(&p9())).map(|answer| answer.a);
        assert_eq!(refused, Err(Refusal::Pair.nowhere()));
    }

    /// P7 with as many nodes that are no part of it as make it version 2.
    #[test]
    fn a_list_is_as_wide_as_the_graph_that_was_read() {
        let outgrown = Drawing {
            labels: vec![7; 2049],
            ..p7()
        };
        assert_eq!(chosen(outgrown), (id_bytes([0, 1, 2], 4), 2 + 2046));
    }

    #[test]
    fn no_loop_is_an_empty_choice() {
        for drawing in small::graphs([2, 2, 3], false, Rng::new(1)) {
            let yes = no_loop(&on(&drawing)).expect("it is answered").a == 1;
            assert_eq!(yes, chosen(drawing).0.is_empty());
        }
    }
}
