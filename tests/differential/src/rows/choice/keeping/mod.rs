//! T-10 of document 02: the choice among the nodes that are not kept. The original has no kept nodes; it is asked where the list
//! is empty.

mod picked;
pub mod stages;

pub use picked::picked;

use super::{chosen_by_original, definition, strict};
use crate::arguments::{counts, id_list, with_ids_below, with_lists};
use crate::call::{Answer, Arguments, Outcome};
use crate::convert::{sizes, to_lax, Graph};
use crate::form::{self, id_bytes, Refusal};
use crate::rng::Rng;
use crate::steps::{graph, id_list as read_ids};
use stages::{by_stages, has_cycle, vertices};

/// Graphs of up to so many ports go through [`by_stages`] too, which takes long.
const FEW: usize = 40;

/// 1 to 6, 13, 7, 8 and 16, and then the choice. What 16 stands for is decided apart from the stages, which must find the same.
pub fn cycle_breaking_nodes_keeping(arguments: &Arguments) -> Outcome {
    let graph = graph(arguments)?;
    let ids = read_ids(arguments, 1, graph.hypergraph.nodes.len())?;
    let graph = strict(graph)?;
    let mut kept = vec![false; graph.hypergraph.nodes.len()];
    ids.iter().for_each(|&id| kept[id] = true);
    let chosen = definition::choice_keeping(&graph, &kept);
    if sizes(&graph).ports <= FEW {
        let defined = by_stages(&graph, &kept);
        assert_eq!(chosen, defined, "each core found from nothing");
    }
    let kept_cycle = has_kept_cycle(&graph, &kept);
    assert_eq!(chosen.is_none(), kept_cycle, "16 is for a kept cycle");
    let (chosen, free) = chosen.ok_or(Refusal::KeptCycle.nowhere())?;
    if ids.is_empty() {
        let original = chosen_by_original(&graph);
        assert_eq!(chosen, original, "with no kept nodes all is as before");
    }
    hold(&graph, &kept, &chosen, free);
    Ok(Answer {
        a: chosen.len() as u32,
        b: free as u32,
        written: vec![id_bytes(chosen, form::width(arguments.graph()))],
    })
}

/// Whether some directed cycle has only kept nodes: one is left when all other nodes are taken away. No edge is.
fn has_kept_cycle(graph: &Graph, kept: &[bool]) -> bool {
    let mut stays = kept.to_vec();
    stays.resize(vertices(graph), true);
    has_cycle(graph, &stays)
}

/// Demand 3 of an answer: the list ascends and has no kept node, is empty exactly if there is no cycle, and meets every cycle;
/// and each vertex is listed or was removed freely.
fn hold(graph: &Graph, kept: &[bool], chosen: &[usize], free: usize) {
    let mut stays = vec![true; vertices(graph)];
    let loops = has_cycle(graph, &stays);
    chosen.iter().for_each(|&node| stays[node] = false);
    assert!(chosen.is_sorted_by(|one, next| one < next), "it ascends");
    assert!(chosen.iter().all(|&node| !kept[node]), "no node is kept");
    assert_eq!(chosen.is_empty(), !loops, "it is empty without a cycle");
    assert!(!has_cycle(graph, &stays), "it meets every cycle");
    assert_eq!(chosen.len() + free, stays.len(), "all vertices went");
}

/// The graph with kept lists: of up to three nodes one by chance and all subsets; of more two by chance, and none kept. A form
/// that is refused goes with one list.
pub fn graph_and_kept_list(form: &[u8], rng: &mut Rng) -> Vec<Arguments> {
    let (nodes, _) = counts(form);
    if nodes <= 3 || form::sizes(form).is_err() {
        return with_ids_below(form, nodes, rng);
    }
    let lists = [kept_list(form, rng), kept_list(form, rng), vec![]];
    with_lists(form, &lists)
}

/// A list for a good form that has nodes, in any order and with repeats: some of them, most or all but one; some or all of those
/// that would be chosen if none were kept; or any list, which may be broken.
pub fn kept_list(form: &[u8], rng: &mut Rng) -> Vec<u8> {
    let (nodes, _) = counts(form);
    let width = form::width(form);
    let all = 0..nodes;
    let mut ids: Vec<usize> = match rng.below(8) {
        0 | 1 => return id_list(rng, nodes, width),
        2 => all.filter(|_| rng.once_in(8)).collect(),
        3 => all.filter(|_| rng.once_in(2)).collect(),
        4 => all.filter(|_| !rng.once_in(8)).collect(),
        5 => {
            let free = rng.below(nodes);
            all.filter(|&id| id != free).collect()
        }
        _ => chosen_without(form),
    };
    if rng.once_in(3) {
        ids.retain(|_| rng.once_in(2));
    }
    for _ in 0..rng.pick(&[0, 0, 1, 3, ids.len().min(100)]) {
        if let Some(&first) = ids.first() {
            let other = rng.below(ids.len());
            ids.push(first);
            ids.swap(0, other);
        }
    }
    id_bytes(ids, width)
}

/// What is chosen where no node is kept; nothing where there are pairs.
fn chosen_without(form: &[u8]) -> Vec<usize> {
    let graph = to_lax(&form::read(form).expect("it is a good form"));
    strict(graph).map_or(vec![], |graph| chosen_by_original(&graph))
}

#[cfg(test)]
mod tests {
    use super::*;
    use crate::cases::{p1, p2, p4, p6, p7, p9, small};
    use crate::form::Drawing;
    use picked::p12;
    use stages::tests::{first_core, reached_from};

    fn keeping(drawing: &Drawing, kept: &[usize]) -> Outcome {
        let form = form::write(drawing);
        let list = id_bytes(kept.iter().copied(), form::width(&form));
        cycle_breaking_nodes_keeping(&Arguments::new(&[], &[&form, &list]))
    }

    /// The list and the free count, or the refusal.
    fn chosen(drawing: Drawing, kept: &[usize]) -> Result<(Vec<u8>, u32), u8> {
        match keeping(&drawing, kept) {
            Ok(answer) => Ok((answer.written[0].clone(), answer.b)),
            Err(refused) => Err(refused.refusal as u8),
        }
    }

    fn list<const N: usize>(ids: [usize; N], free: u32) -> Result<(Vec<u8>, u32), u8> {
        Ok((id_bytes(ids, 2), free))
    }

    #[test]
    fn the_choices_worked_by_hand() {
        assert_eq!(chosen(p1(), &[]), list([], 0));
        assert_eq!(chosen(p1(), &[0]), Err(7));
        assert_eq!(chosen(p2(), &[]), list([0], 1));
        assert_eq!(chosen(p2(), &[0]), Err(16));
        assert_eq!(chosen(p6(), &[]), list([0], 3));
        assert_eq!(chosen(p6(), &[0, 0]), list([1], 3));
        assert_eq!(chosen(p6(), &[1, 0]), Err(16));
        assert_eq!(chosen(p7(), &[1]), list([0, 2], 3));
        assert_eq!(chosen(p7(), &[2]), Err(16));
        assert_eq!(chosen(p9(), &[0, 1]), Err(8));
        assert_eq!(chosen(p9(), &[0, 2]), Err(7));
        assert_eq!(chosen(p12(), &[]), list([0, 1, 2], 2));
        assert_eq!(chosen(p12(), &[0]), list([1, 2], 3));
    }

    /// In every small graph and for all kept sets, what is promised holds by itself, since each choice is held to it. A kept node
    /// that is on no cycle does not decide about 16; one outside of the first core decides about nothing.
    #[test]
    fn a_kept_node_on_no_cycle() {
        for drawing in small::graphs([2, 2, 3], false, Rng::new(1)) {
            let nodes = drawing.labels.len();
            let graph = to_lax(&drawing);
            let on_cycle = |node: &usize| reached_from(&graph, *node).contains(node);
            let core = first_core(&graph);
            let in_core = |node: &usize| core.contains(node);
            for set in 0..1 << nodes {
                let kept: Vec<usize> = (0..nodes).filter(|node| set >> node & 1 == 1).collect();
                let answer = chosen(drawing.clone(), &kept);
                let of_cycles: Vec<usize> = kept.iter().copied().filter(on_cycle).collect();
                let without = chosen(drawing.clone(), &of_cycles);
                assert_eq!(answer.is_err(), without.is_err());
                let of_core: Vec<usize> = kept.into_iter().filter(in_core).collect();
                assert_eq!(answer, chosen(drawing.clone(), &of_core));
            }
        }
    }

    #[test]
    #[should_panic(expected = "no node is kept")]
    fn a_kept_node_chosen() {
        hold(&to_lax(&p6()), &[true, false], &[0], 3);
    }

    #[test]
    #[should_panic(expected = "meets every cycle")]
    fn a_cycle_missed() {
        hold(&to_lax(&p7()), &[false; 3], &[0, 1], 3);
    }

    #[test]
    #[should_panic(expected = "empty without a cycle")]
    fn a_node_too_many() {
        hold(&to_lax(&p4()), &[false], &[0], 0);
    }

    #[test]
    #[should_panic(expected = "all vertices went")]
    fn a_vertex_not_counted() {
        hold(&to_lax(&p6()), &[false; 2], &[0], 2);
    }
}
