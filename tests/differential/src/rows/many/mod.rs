//! Many building and deleting steps in one call: what the original gives by one call for each. The replaying program makes no
//! call with steps, so its row is in no recorded list.

mod picked;
pub mod singly;
pub mod step;
mod tries;

use crate::call::{Arguments, Outcome};
use crate::cases::{self, random, small};
use crate::convert::{sizes, to_label, Graph};
use crate::form::{self, Refusal, Sizes};
use crate::operation::Parameter::{Answered, Input, Room};
use crate::operation::{Forms, Group, Operation};
use crate::place::{in_id, in_ids};
use crate::rng::Rng;
use crate::steps::{graph, made, Checked};
use oracle::lax::{EdgeId, Hyperedge, NodeId};
use step::Step;

pub const GROUP: Group = Group {
    name: "many steps",
    operations: OPERATIONS,
    share: 1,
    fixed,
    every,
    step: 256,
    drawing: random::drawing_of,
    damaged: 1,
};

/// The row's number.
pub const BUILD: u8 = 24;

const OPERATIONS: &[Operation] = &[Operation {
    number: BUILD,
    name: "ohg_build",
    parameters: &[Input, Input, Answered, Room],
    refusals: &[1, 2, 3, 4, 5, 6, 13, 12, 7, 9, 10],
    picked: picked::build,
    arguments: tries::graph_and_steps,
    expected: build,
}];

/// The original's graph while steps change it, and its sizes, which are counted along: to count the ports anew at each of 20,000
/// steps would take long.
pub struct Built {
    pub graph: Graph,
    pub sizes: Sizes,
}

impl Built {
    pub fn on(graph: Graph) -> Built {
        let sizes = sizes(&graph);
        Built { graph, sizes }
    }

    /// One step: 7, the original's call, and 9.
    pub fn step(&mut self, step: &Step) -> Checked<()> {
        let (nodes, edges) = (self.sizes.nodes, self.sizes.edges);
        let graph = &mut self.graph;
        match step {
            Step::NewNode(label) => {
                graph.new_node(*label);
                self.sizes.nodes += 1;
            }
            Step::NewEdge(label, sources, targets) => {
                in_ids(sources, nodes)?;
                in_ids(targets, nodes)?;
                let [sources, targets] = [sources, targets].map(|ids| all(ids, NodeId));
                self.sizes.ports += sources.len() + targets.len();
                graph.new_edge(to_label(*label), Hyperedge { sources, targets });
                self.sizes.edges += 1;
            }
            Step::NewOperation(label, sources, targets) => {
                graph.new_operation(to_label(*label), sources.clone(), targets.clone());
                self.sizes.nodes += sources.len() + targets.len();
                self.sizes.ports += sources.len() + targets.len();
                self.sizes.edges += 1;
            }
            Step::Unify(v, w) => {
                in_id(*v, nodes)?;
                in_id(*w, nodes)?;
                graph.unify(NodeId(*v as usize), NodeId(*w as usize));
                self.sizes.pairs += 1;
            }
            Step::AddEdgeSource(edge, label) => {
                in_id(*edge, edges)?;
                graph.add_edge_source(EdgeId(*edge as usize), *label);
                self.sizes.nodes += 1;
                self.sizes.ports += 1;
            }
            Step::AddEdgeTarget(edge, label) => {
                in_id(*edge, edges)?;
                graph.add_edge_target(EdgeId(*edge as usize), *label);
                self.sizes.nodes += 1;
                self.sizes.ports += 1;
            }
            Step::DeleteEdges(ids) => {
                in_ids(ids, edges)?;
                graph.delete_edges(&all(ids, EdgeId));
                self.sizes = sizes(graph);
            }
            Step::DeleteNodes(ids) => {
                in_ids(ids, nodes)?;
                graph.delete_nodes(&all(ids, NodeId));
                self.sizes = sizes(graph);
            }
        }
        if self.sizes.within_limits() {
            Ok(())
        } else {
            Err(Refusal::Result.nowhere())
        }
    }
}

fn all<T>(ids: &[u32], id: fn(usize) -> T) -> Vec<T> {
    ids.iter().map(|&n| id(n as usize)).collect()
}

/// The steps one after the other: 12 where one is not all there, 7 and 9, each with the step's index.
pub fn build(arguments: &Arguments) -> Outcome {
    let mut built = Built::on(graph(arguments)?);
    let mut rest = &arguments.inputs[1][..];
    for index in 0.. {
        if rest.is_empty() {
            break;
        }
        let step = Step::take(&mut rest).map_err(|refused| refused.at_step(index))?;
        built
            .step(&step)
            .map_err(|refused| refused.at_step(index))?;
    }
    assert_eq!(built.sizes, sizes(&built.graph), "sizes are counted along");
    made(&built.graph, 0)
}

fn fixed(rng: &mut Rng) -> Vec<Vec<u8>> {
    cases::at_limits(rng, true)
}

fn every(mut rng: Rng) -> Forms {
    let largest = cases::at_largest(Rng::new(rng.number()), true);
    let small = small::graphs([3, 2, 3], true, rng).map(|drawing| form::write(&drawing));
    Box::new(largest.chain(small))
}

#[cfg(test)]
mod tests {
    use super::*;
    use crate::cases::{edge, p1, p6, p7, plain};
    use step::laid;

    fn built(drawing: &form::Drawing, steps: &[u8]) -> Outcome {
        build(&Arguments::new(&[], &[&form::write(drawing), steps]))
    }

    fn drawn(drawing: &form::Drawing, steps: &[Step]) -> form::Drawing {
        let answer = built(drawing, &laid(steps)).expect("it is answered");
        assert_eq!((answer.a as usize, answer.b), (answer.written[0].len(), 0));
        form::read(&answer.written[0]).expect("it is a good form")
    }

    fn refused(drawing: &form::Drawing, steps: &[u8]) -> (u8, u32, u32) {
        let refused = built(drawing, steps).expect_err("it is refused");
        (refused.refusal as u8, refused.step, refused.place)
    }

    #[test]
    fn p6_is_built_and_p8_cut_from_p7() {
        let steps = [
            Step::NewNode(7),
            Step::NewNode(7),
            Step::NewEdge(9, vec![0], vec![1]),
            Step::NewEdge(10, vec![1], vec![0]),
        ];
        assert_eq!(drawn(&p1(), &steps), p6());
        assert_eq!(drawn(&p7(), &[]), p7());
        let steps = [
            Step::Unify(0, 1),
            Step::Unify(2, 0),
            Step::DeleteNodes(vec![1, 1]),
        ];
        let cut = form::Drawing {
            pairs: vec![(1, 0)],
            ..plain(2, &[edge(9, &[0], &[0]), edge(10, &[1], &[1])])
        };
        assert_eq!(drawn(&p7(), &steps), cut);
        let steps = [
            Step::NewOperation(3, vec![1], vec![2, 4]),
            Step::AddEdgeSource(0, 8),
            Step::AddEdgeTarget(0, 9),
        ];
        let operation = form::Drawing {
            labels: vec![1, 2, 4, 8, 9],
            edges: vec![edge(3, &[0, 3], &[1, 2, 4])],
            ..p1()
        };
        assert_eq!(drawn(&p1(), &steps), operation);
        let steps = [&steps[..], &[Step::DeleteEdges(vec![0])]].concat();
        assert!(drawn(&p1(), &steps).edges.is_empty());
    }

    /// The rows of T-02's definition by hand.
    #[test]
    fn refusals_have_their_step_and_place() {
        let node = Step::NewNode(5).bytes();
        let after = |step: &[u8]| [&node, step].concat();
        assert_eq!(refused(&p7(), &[0]), (12, 0, 0));
        assert_eq!(refused(&p7(), &after(&[255])), (12, 1, 0));
        assert_eq!(refused(&p7(), &after(&[1, 5, 0, 0])), (12, 1, 0));
        // 12 before the step's own checks, and after an earlier step's 7
        assert_eq!(refused(&p7(), &[7, 2, 0, 0, 0, 9, 0, 0, 0]), (12, 0, 0));
        let bad = Step::DeleteEdges(vec![9]).bytes();
        assert_eq!(refused(&p7(), &[&bad[..], &[0]].concat()), (7, 0, 0));
        assert_eq!(
            refused(&p7(), &after(&Step::Unify(3, 4).bytes())),
            (7, 1, 0)
        );
        let bad = |sources: &[u32], targets: &[u32]| {
            refused(
                &p7(),
                &Step::NewEdge(5, sources.to_vec(), targets.to_vec()).bytes(),
            )
        };
        assert_eq!(bad(&[0, 3], &[0]), (7, 0, 1));
        assert_eq!(bad(&[0, 2], &[3]), (7, 0, 0));
        let bad = Step::DeleteNodes(vec![0, 65_536]).bytes();
        assert_eq!(refused(&p7(), &bad), (7, 0, 1));
        let full = plain(16_384, &[]);
        let gone = Step::DeleteNodes(vec![0]);
        assert_eq!(
            refused(&full, &laid(&[Step::NewNode(7), gone.clone()])),
            (9, 0, 0)
        );
        assert_eq!(drawn(&full, &[gone, Step::NewNode(7)]), full);
    }

    #[test]
    fn an_index_past_24_bits_is_the_highest() {
        let at = |index: usize| Refusal::Step.nowhere().at_step(index).step;
        assert_eq!(at(16_777_214), 16_777_214);
        assert_eq!(at(16_777_215), 16_777_215);
        assert_eq!(at(16_777_216), 16_777_215);
    }
}
