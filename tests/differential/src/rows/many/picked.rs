//! Steps picked by hand: each refusal at a step, the limits passed and come back to, and the change between the versions.

use super::step::{laid, Step};
use crate::call::Arguments;
use crate::cases::{edge, p1, p7, p8, p8_outgrown, plain};
use crate::form::{self, Drawing, SPIDER, VERSION_1, VERSION_2};

pub fn build() -> Vec<Arguments> {
    let mut picked = vec![
        Arguments::new(&[], &[&form::write(&p1()), &laid(&one_of_each())]),
        // The graph read is refused before any step is looked at, also by 13.
        Arguments::new(&[], &[&form::write(&p7())[..58], &[0]]),
        Arguments::new(&[], &[&form::write_as(VERSION_2, &p8()), &[0]]),
    ];
    for drawing in [p8(), p8_outgrown()] {
        let graph = form::write(&drawing);
        let lists = on_p8();
        picked.extend(
            lists
                .iter()
                .map(|list| Arguments::new(&[], &[&graph, list])),
        );
    }
    picked.extend(at_limits());
    picked
}

/// A step of each kind, in a row that is good on a graph of nothing and on P8.
pub fn one_of_each() -> Vec<Step> {
    vec![
        Step::NewNode(5),
        Step::NewOperation(3, vec![1], vec![2, SPIDER]),
        Step::NewEdge(SPIDER, vec![0, 0], vec![1]),
        Step::AddEdgeSource(0, 8),
        Step::AddEdgeTarget(1, 9),
        Step::Unify(0, 1),
        Step::AddEdgeSource(0, 8),
        Step::DeleteEdges(vec![1]),
        Step::DeleteNodes(vec![0, 2, 0]),
    ]
}

/// Lists for P8, which has 3 nodes and 2 edges.
fn on_p8() -> Vec<Vec<u8>> {
    let node = Step::NewNode(5);
    let good = [
        vec![],
        one_of_each(),
        // ids are those of the graph that the earlier steps gave: node 3 is new, then gone
        vec![node.clone(), Step::DeleteNodes(vec![3])],
        vec![
            node.clone(),
            Step::DeleteNodes(vec![0]),
            Step::NewEdge(9, vec![2], vec![2, 0]),
        ],
        // an edge's ports stand in the order in which they came
        vec![
            Step::AddEdgeSource(1, 6),
            Step::AddEdgeTarget(0, 6),
            Step::AddEdgeSource(0, 6),
            Step::AddEdgeTarget(0, 6),
        ],
        // one deletion after another, of edges and of nodes
        vec![Step::DeleteNodes(vec![0]), Step::DeleteNodes(vec![0])],
        vec![
            Step::DeleteNodes(vec![1]),
            Step::DeleteEdges(vec![0]),
            Step::DeleteNodes(vec![1]),
        ],
        vec![Step::DeleteEdges(vec![0]), Step::DeleteEdges(vec![0])],
        vec![Step::DeleteEdges(vec![]), Step::DeleteNodes(vec![])],
        vec![
            Step::DeleteNodes(vec![2, 1, 0]),
            node.clone(),
            Step::NewEdge(9, vec![0], vec![0]),
        ],
        // gone, and made anew
        vec![
            Step::DeleteEdges(vec![1, 0]),
            Step::NewOperation(4, vec![], vec![1]),
        ],
    ];
    let bad = [
        // 7: an id given singly, the entries of lists, an id that was there, one that is of version 2's width
        vec![Step::Unify(3, 0)],
        vec![node.clone(), Step::Unify(0, 4)],
        vec![Step::AddEdgeSource(2, 5)],
        vec![Step::AddEdgeTarget(65_536, 5), node.clone()],
        vec![
            node.clone(),
            node.clone(),
            Step::NewEdge(5, vec![0, 5], vec![5]),
        ],
        vec![Step::NewEdge(5, vec![0, 1, 2], vec![0, 1, 3])],
        vec![Step::DeleteNodes(vec![0]), Step::DeleteNodes(vec![2])],
        vec![Step::DeleteEdges(vec![1]), Step::AddEdgeTarget(1, 5)],
        vec![Step::DeleteEdges(vec![0]), Step::DeleteEdges(vec![0, 1])],
        vec![node.clone(), Step::DeleteNodes(vec![3, 0, 4])],
        vec![Step::DeleteEdges(vec![1, 0, 1, 2])],
        vec![Step::DeleteNodes(vec![0, u32::MAX])],
        vec![Step::NewEdge(5, vec![65_536], vec![])],
    ];
    let lists = good.iter().chain(&bad).map(|steps| laid(steps));
    let node = node.bytes();
    let broken = [
        vec![0],
        vec![9],
        vec![255; 30],
        [&node[..], &[0]].concat(),
        [&node[..], &node[..4]].concat(),
        // before the step's own checks, and after an earlier step's
        vec![7, 2, 0, 0, 0, 9, 0, 0, 0],
        [&Step::DeleteEdges(vec![9]).bytes()[..], &[0]].concat(),
        // counts that run past the list, one more than it has, or whose sum passes 32 bits
        [&[2], &[0; 4][..], &[1, 0, 0, 0], &[1, 0, 0, 0], &[0; 4]].concat(),
        [&[3], &[255; 12][..], &[0; 40]].concat(),
        [
            &[2],
            &[0; 4][..],
            &[255, 255, 255, 255],
            &[1, 0, 0, 0],
            &[0; 8],
        ]
        .concat(),
        [&[8], &[0, 0, 0, 64][..], &[0; 16]].concat(),
        [&[7], &[255; 4][..]].concat(),
    ];
    lists.chain(broken).collect()
}

/// Of each kind that steps can add to: at a limit of either version one step past it and back, one below it, and back first.
fn at_limits() -> Vec<Arguments> {
    let mut picked = vec![];
    for version in [VERSION_1, VERSION_2] {
        let most = version.most;
        let ports = |n: usize| plain(2, &[edge(9, &vec![0; n - 1], &[1]), edge(9, &[], &[])]);
        let pairs = |n: usize| Drawing {
            pairs: (0..n).map(|i| (0, u32::from(i == 0))).collect(),
            ..plain(2, &[])
        };
        let rows: Vec<(Drawing, Step, Step)> = [0, 1]
            .iter()
            .flat_map(|less| {
                [
                    (
                        plain(most.nodes - less, &[edge(9, &[0], &[1])]),
                        Step::NewNode(5),
                        Step::DeleteNodes(vec![1]),
                    ),
                    (
                        plain(most.nodes - less, &[edge(9, &[0], &[1])]),
                        Step::NewOperation(5, vec![], vec![6]),
                        Step::DeleteNodes(vec![0]),
                    ),
                    (
                        plain(1, &vec![edge(9, &[], &[]); most.edges - less]),
                        Step::NewEdge(5, vec![0], vec![]),
                        Step::DeleteEdges(vec![0]),
                    ),
                    (
                        ports(most.ports - less),
                        Step::AddEdgeSource(1, 5),
                        Step::DeleteNodes(vec![1]),
                    ),
                    (
                        ports(most.ports - less),
                        Step::AddEdgeTarget(0, 5),
                        Step::DeleteEdges(vec![0]),
                    ),
                    (
                        pairs(most.pairs - less),
                        Step::Unify(1, 0),
                        Step::DeleteNodes(vec![1]),
                    ),
                ]
            })
            .collect();
        for (drawing, more, back) in rows {
            let graph = form::write(&drawing);
            for steps in [
                vec![more.clone()],
                vec![more.clone(), back.clone()],
                vec![back.clone(), more.clone()],
                vec![more.clone(), more.clone(), back.clone()],
            ] {
                picked.push(Arguments::new(&[], &[&graph, &laid(&steps)]));
            }
        }
    }
    // More at once than any limit, and more than 16 bits count.
    let far = [
        Step::NewOperation(5, vec![1; 65_537], vec![]),
        Step::NewEdge(5, vec![0; 65_536], vec![1]),
        Step::NewEdge(5, vec![0; 65_536], vec![]),
        Step::DeleteNodes(vec![1; 65_537]),
    ];
    let graph = form::write(&plain(2, &[]));
    picked.extend(far.map(|step| Arguments::new(&[], &[&graph, &step.bytes()])));
    picked
}
