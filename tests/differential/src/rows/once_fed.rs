//! The once-fed check.

use super::choice::{self, unpaired, yes_or_no};
use crate::arguments::graph_alone;
use crate::call::{Arguments, Outcome};
use crate::cases::random::some_ids;
use crate::cases::{self, edge, plain, small};
use crate::convert::Graph;
use crate::form::{self, Drawing, VERSION_1, VERSION_2};
use crate::operation::Parameter::{Input, Room};
use crate::operation::{Forms, Group, Operation};
use crate::rng::Rng;

pub const GROUP: Group = Group {
    name: "once-fed",
    operations: OPERATIONS,
    share: 1,
    fixed,
    every,
    step: 64,
    drawing,
    damaged: 1,
};

const OPERATIONS: &[Operation] = &[Operation {
    number: 18,
    name: "ohg_once_fed",
    parameters: &[Input, Room],
    refusals: &[1, 2, 3, 4, 5, 6, 13, 8, 10],
    picked: Vec::new,
    arguments: graph_alone,
    expected: once_fed,
}];

fn once_fed(arguments: &Arguments) -> Outcome {
    Ok(yes_or_no(is_once_fed(&unpaired(arguments)?)))
}

/// Each node fed exactly once, counting edge targets and global sources, and used exactly once, counting edge sources
/// and global targets.
pub fn is_once_fed(graph: &Graph) -> bool {
    let mut fed = vec![0; graph.hypergraph.nodes.len()];
    let mut used = fed.clone();
    for edge in &graph.hypergraph.adjacency {
        edge.targets.iter().for_each(|node| fed[node.0] += 1);
        edge.sources.iter().for_each(|node| used[node.0] += 1);
    }
    graph.sources.iter().for_each(|node| fed[node.0] += 1);
    graph.targets.iter().for_each(|node| used[node.0] += 1);
    fed.iter().chain(&used).all(|&times| times == 1)
}

/// Forms at the limits, without pairs, and the largest of either version and the least of version 2 that are once-fed or
/// nearly so.
fn fixed(rng: &mut Rng) -> Vec<Vec<u8>> {
    let mut forms = cases::at_limits(rng, false);
    let [one, two] = [VERSION_1, VERSION_2].map(|version| version.most.nodes);
    for nodes in [one, one + 1, two] {
        let drawings = (0..8).map(|_| nearly_once_fed(rng, nodes));
        forms.extend(drawings.map(|drawing| form::write(&drawing)));
    }
    forms
}

/// All drawings of up to three nodes, two edges with up to two ports each and two entries in each global list; and all
/// graphs of up to three nodes and two edges with up to three ports each, whose global lists are left to chance. And the
/// largest forms.
fn every(mut rng: Rng) -> Forms {
    let largest = cases::at_largest(Rng::new(rng.number()), false);
    let all = small::with_lists([3, 2, 2, 2]).chain(small::graphs([3, 2, 3], false, rng));
    Box::new(largest.chain(all.map(|drawing| form::write(&drawing))))
}

fn drawing(rng: &mut Rng, most: usize) -> Drawing {
    let nodes = rng.between(1, most);
    match rng.below(2) {
        0 => nearly_once_fed(rng, nodes),
        _ => choice::drawing(rng, most),
    }
}

/// Each node dealt out once to what feeds, targets of edges and global sources, and once to what uses, sources of edges
/// and global targets. Half of the time one of these lists has then an entry more, one less or another one.
fn nearly_once_fed(rng: &mut Rng, nodes: usize) -> Drawing {
    let mut edges = vec![edge(9, &[], &[]); rng.between(1, nodes)];
    let (mut sources, mut targets) = (vec![], vec![]);
    for node in (0..nodes as u32).rev() {
        let [one, other] = [(); 2].map(|_| rng.below(edges.len()));
        let global = [(); 2].map(|_| rng.once_in(4));
        let fed = &mut edges[one].targets;
        if global[0] { &mut sources } else { fed }.push(node);
        let used = &mut edges[other].sources;
        if global[1] { &mut targets } else { used }.push(node);
    }
    if rng.once_in(2) {
        let at = rng.below(edges.len());
        let list = match rng.below(4) {
            0 => &mut edges[at].sources,
            1 => &mut edges[at].targets,
            2 => &mut sources,
            _ => &mut targets,
        };
        let change = rng.below(3);
        if change != 0 {
            list.pop();
        }
        if change != 1 {
            list.extend(some_ids(rng, 1, nodes));
        }
    }
    Drawing {
        sources,
        targets,
        ..plain(nodes, &edges)
    }
}

#[cfg(test)]
mod tests {
    use super::*;
    use crate::cases::{p1, p2, p4, p6, p7};
    use crate::convert::to_lax;

    fn yes(drawing: Drawing) -> bool {
        is_once_fed(&to_lax(&drawing))
    }

    fn with_lists(drawing: Drawing, sources: &[u32], targets: &[u32]) -> Drawing {
        Drawing {
            sources: sources.to_vec(),
            targets: targets.to_vec(),
            ..drawing
        }
    }

    #[test]
    fn drawings_worked_by_hand() {
        assert!(yes(p1()));
        assert!(yes(p2()));
        assert!(yes(p4()));
        assert!(yes(p6()));
        assert!(!yes(p7()));
        // What P3 and P5 give.
        let p3 = [
            edge(9, &[1], &[2]),
            edge(9, &[], &[0, 1]),
            edge(9, &[0, 2], &[]),
        ];
        assert!(yes(plain(3, &p3)));
        let p5 = plain(3, &[edge(9, &[1], &[0]), edge(9, &[0], &[2])]);
        assert!(yes(with_lists(p5, &[1], &[2])));
    }

    #[test]
    fn exactly_once_in_each_way() {
        // Nothing uses it, nothing feeds it, neither does.
        assert!(!yes(with_lists(p4(), &[0], &[])));
        assert!(!yes(with_lists(p4(), &[], &[0])));
        assert!(!yes(plain(1, &[])));
        // A block and a global entry.
        assert!(!yes(with_lists(p2(), &[0], &[])));
        assert!(!yes(with_lists(p2(), &[], &[0])));
        // A node twice in one list.
        assert!(!yes(plain(1, &[edge(9, &[0, 0], &[0])])));
        assert!(!yes(plain(1, &[edge(9, &[0], &[0, 0])])));
        assert!(!yes(with_lists(p4(), &[0, 0], &[0])));
        assert!(!yes(with_lists(p4(), &[0], &[0, 0])));
        // Two nodes, one of which has the entries of both.
        assert!(!yes(with_lists(plain(2, &[]), &[0, 0], &[1, 1])));
    }
}
