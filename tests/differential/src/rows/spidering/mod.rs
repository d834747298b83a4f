//! Spiderizing, which merges first.

pub mod chain;
mod explicit;
mod picked;

use super::choice::{self, families};
use crate::arguments::{graph_alone, graph_and_node_list};
use crate::call::{Arguments, Outcome};
use crate::cases::joined::{join, SHAPES};
use crate::cases::{self, plain, small};
use crate::convert::Graph;
use crate::form::{self, Drawing, Refusal, Version, VERSION_1, VERSION_2};
use crate::operation::Parameter::{Answered, Input, Room};
use crate::operation::{Forms, Group, Operation};
use crate::rng::Rng;
use crate::steps::{graph, made, node_list, Checked};
use oracle::lax::spider::WithSpider;
use oracle::lax::OpenHypergraph;
use oracle::strict::vec::FiniteFunction;

pub const GROUP: Group = Group {
    name: "spidering",
    operations: OPERATIONS,
    share: 2,
    fixed,
    every,
    step: 256,
    drawing,
    damaged: 1,
};

const OPERATIONS: &[Operation] = &[
    Operation {
        number: 15,
        name: "ohg_spiderize",
        parameters: &[Input, Answered, Room],
        refusals: &[1, 2, 3, 4, 5, 6, 13, 11, 9, 10],
        picked: picked::spiderize,
        arguments: graph_alone,
        expected: spiderize,
    },
    Operation {
        number: 16,
        name: "ohg_spiderize_nodes",
        parameters: &[Input, Input, Answered, Room],
        refusals: &[1, 2, 3, 4, 5, 6, 13, 7, 11, 9, 10],
        picked: picked::spiderize_nodes,
        arguments: graph_and_node_list,
        expected: spiderize_nodes,
    },
];

/// The original's answer must be what T-11 says of it, also where it is past a limit.
fn spiderize(arguments: &Arguments) -> Outcome {
    let graph = graph(arguments)?;
    let spiderized = merged_first(graph.clone().spiderize())?;
    explicit::hold(&graph, &spiderized);
    made(&spiderized, 0)
}

/// 7 comes before 11: ids are looked at before anything is merged, and are those of the graph that was read.
fn spiderize_nodes(arguments: &Arguments) -> Outcome {
    let graph = graph(arguments)?;
    let nodes = node_list(arguments, 1, &graph)?;
    made(&merged_first(graph.spiderize_nodes(&nodes))?, 0)
}

/// A graph of the original's after spiderizing.
pub type Spiderized = OpenHypergraph<u32, WithSpider<WithSpider<u32>>>;

/// 11, where the original could not merge.
fn merged_first(spiderized: Result<Spiderized, FiniteFunction>) -> Checked<Graph> {
    let graph = spiderized.map_err(|_| Refusal::Labels.nowhere())?;
    Ok(flattened(graph))
}

/// What spiderizing gives, without the second `WithSpider`: an edge that was a spider stays one.
pub fn flattened(graph: Spiderized) -> Graph {
    graph.map_edges(|label| match label {
        WithSpider::Operation(inner) => inner,
        WithSpider::Spider => WithSpider::Spider,
    })
}

/// Forms at the limits, without pairs and with them; in either version of each family one about as large as may be spiderized
/// within it, as it is and joined, and as many nodes and pairs as it holds, of each shape.
fn fixed(rng: &mut Rng) -> Vec<Vec<u8>> {
    let mut forms = cases::at_limits(rng, false);
    forms.extend(cases::at_limits(rng, true));
    for version in [VERSION_1, VERSION_2] {
        for family in families::FAMILIES {
            let mut drawing = family(rng, most_spiderized(version));
            forms.push(form::write(&drawing));
            join(rng, &mut drawing);
            forms.push(form::write(&drawing));
        }
        let most = version.most;
        for shape in SHAPES {
            let drawing = Drawing {
                sources: vec![0],
                targets: vec![most.nodes as u32 - 1],
                pairs: shape(rng, most.nodes, most.pairs),
                ..plain(most.nodes, &[])
            };
            forms.push(form::write(&drawing));
        }
    }
    forms
}

/// Of more nodes, a drawing with an edge for each goes past the version: three edges would come of one.
fn most_spiderized(version: Version) -> usize {
    version.most.edges / 3
}

/// All graphs of up to three nodes, two edges and three ports an edge, without pairs and with pairs by chance; all drawings of
/// up to three nodes of two labels with up to three pairs. Each is tried with all subsets of its nodes. And the largest forms.
fn every(mut rng: Rng) -> Forms {
    let mut another = || Rng::new(rng.number());
    let largest = [false, true].map(|pairs| cases::at_largest(another(), pairs));
    let graphs = [false, true].map(|pairs| small::graphs([3, 2, 3], pairs, another()));
    let joined = small::joined([3, 3], another());
    let small = graphs.into_iter().flatten().chain(joined);
    let small = small.map(|drawing| form::write(&drawing));
    Box::new(largest.into_iter().flatten().chain(small))
}

/// Large drawings are often kept so small that all of their nodes can be spiderized; one in three is joined.
fn drawing(rng: &mut Rng, most: usize) -> Drawing {
    let version = rng.pick(&[VERSION_1, VERSION_2]);
    let most = if rng.once_in(4) {
        most
    } else {
        most.min(most_spiderized(version) / 2)
    };
    let mut drawing = choice::drawing(rng, most);
    if rng.once_in(3) {
        join(rng, &mut drawing);
    }
    drawing
}

#[cfg(test)]
mod tests {
    use super::*;
    use crate::cases::{edge, labelled_apart, p2, p4, p9};
    use crate::form::{id_bytes, Edge, SPIDER};

    fn answered(outcome: Outcome) -> Drawing {
        form::read(&outcome.expect("it is answered").written[0]).expect("it is a good form")
    }

    fn spider(sources: &[u32], targets: &[u32]) -> Edge {
        edge(SPIDER, sources, targets)
    }

    #[test]
    fn p3_is_p2_spiderized() {
        let arguments = Arguments::new(&[], &[&form::write(&p2()), &id_bytes([0], 2)]);
        let p3 = answered(spiderize_nodes(&arguments));
        let spiders = [spider(&[], &[0, 1]), spider(&[0, 2], &[])];
        assert_eq!(p3.edges[0], edge(9, &[1], &[2]));
        assert_eq!(p3.edges[1..], spiders);
        assert_eq!(p3.labels, [7; 3]);
    }

    /// Document 01's run, with the listed node in one source entry and nowhere else: 2,048 nodes are answered in version 2,
    /// and 16,384 are refused.
    #[test]
    fn a_node_past_version_1_and_past_version_2() {
        let of = |nodes: usize| {
            let graph = form::write(&plain(nodes, &[edge(9, &[0], &[])]));
            let list = id_bytes([0], form::width(&graph));
            spiderize_nodes(&Arguments::new(&[], &[&graph, &list]))
        };
        for nodes in [2047, 2048, 16_383] {
            let answer = of(nodes).expect("it is answered");
            let sizes = form::sizes(&answer.written[0]).expect("it is a good form");
            assert_eq!(sizes.nodes, nodes + 1);
            assert_eq!(
                sizes.version(),
                if nodes < 2048 { VERSION_1 } else { VERSION_2 }
            );
        }
        let refused = Err(Refusal::Result.nowhere());
        assert_eq!(of(16_384).map(|answer| answer.a), refused);
    }

    #[test]
    fn p5_is_p4_spiderized() {
        let p5 = answered(spiderize(&Arguments::new(&[], &[&form::write(&p4())])));
        assert_eq!(p5.edges, [spider(&[1], &[0]), spider(&[0], &[2])]);
        assert_eq!((p5.sources, p5.targets), (vec![1], vec![2]));
    }

    /// P9's nodes are one, so either of them, both and all give the same.
    #[test]
    fn p9_is_merged_first() {
        let form = form::write(&p9());
        let all = answered(spiderize(&Arguments::new(&[], &[&form])));
        let spiders = [spider(&[], &[0, 1, 3]), spider(&[0, 2, 4], &[])];
        assert_eq!(all.edges[..2], [edge(9, &[1], &[2]), edge(10, &[3], &[4])]);
        assert_eq!(all.edges[2..], spiders);
        assert_eq!((all.labels, all.pairs), (vec![7; 5], vec![]));
        for list in [vec![0], vec![1], vec![1, 0, 1]] {
            let arguments = Arguments::new(&[], &[&form, &id_bytes(list, 2)]);
            assert_eq!(answered(spiderize_nodes(&arguments)).edges, all.edges);
        }
        let none = spiderize_nodes(&Arguments::new(&[], &[&form, &[]]));
        assert_eq!(answered(none).labels, [7]);
    }

    #[test]
    fn labels_that_differ_are_refused_after_the_list() {
        let form = form::write(&labelled_apart(p9()));
        let refused = |list: &[u8]| {
            let outcome = spiderize_nodes(&Arguments::new(&[], &[&form, list]));
            outcome.map_or_else(|refused| refused.refusal as u8, |_| 0)
        };
        assert_eq!(refused(&id_bytes([0, 2], 2)), 7);
        assert_eq!(refused(&[0]), 7);
        assert_eq!(refused(&id_bytes([0, 1], 2)), 11);
        assert_eq!(refused(&[]), 11);
    }
}
