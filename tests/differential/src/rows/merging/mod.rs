//! Merging the nodes that pending pairs join.

mod picked;

use super::choice::families;
use crate::arguments::graph_alone;
use crate::call::{Answer, Arguments, Outcome};
use crate::cases::joined::{join, label_alike, label_apart, SHAPES};
use crate::cases::random::{self, label};
use crate::cases::{self, small};
use crate::classes::merged;
use crate::convert::Graph;
use crate::form::{self, id_bytes, Drawing, Refusal, VERSION_1, VERSION_2};
use crate::operation::Parameter::{Answered, Input, Room};
use crate::operation::{Forms, Group, Operation};
use crate::rng::Rng;
use crate::steps::{graph, stored};

pub const GROUP: Group = Group {
    name: "merging",
    operations: OPERATIONS,
    share: 1,
    fixed,
    every,
    step: 256,
    drawing,
    damaged: 1,
};

const OPERATIONS: &[Operation] = &[Operation {
    number: 19,
    name: "ohg_quotient",
    parameters: &[Input, Answered, Answered, Room],
    refusals: &[1, 2, 3, 4, 5, 6, 13, 11, 10],
    picked: picked::quotient,
    arguments: graph_alone,
    expected: quotient,
}];

fn quotient(arguments: &Arguments) -> Outcome {
    let (graph, map) = merged_by_both(graph(arguments)?).ok_or(Refusal::Labels.nowhere())?;
    let form = stored(&graph)?;
    Ok(Answer {
        a: form.len() as u32,
        b: map.len() as u32,
        written: vec![form, id_bytes(map, form::width(arguments.graph()))],
    })
}

/// What the original makes of a graph, which must be what document 02's definition makes of it. Where labels differ the
/// original has taken the node labels out of the graph and leaves the rest; its map is of no use then.
fn merged_by_both(mut graph: Graph) -> Option<(Graph, Vec<usize>)> {
    let before = graph.clone();
    let defined = merged(&before);
    let Ok(map) = graph.quotient() else {
        assert!(defined.is_none(), "the definition merges it");
        assert_eq!(graph.hypergraph.nodes, [], "the node labels are lost");
        graph.hypergraph.nodes = before.hypergraph.nodes.clone();
        assert!(graph == before, "the rest stays");
        return None;
    };
    let defined = defined.expect("the definition merges it");
    assert_eq!(
        map.table.0, defined.1,
        "document 02's numbers are the original's"
    );
    assert!(graph == defined.0, "document 02's graph is the original's");
    Some(defined)
}

/// Forms at the limits; and of either version the largest graphs with as many pairs as they may have, of each shape, with
/// labels that are alike in each class and then with one that is not.
fn fixed(rng: &mut Rng) -> Vec<Vec<u8>> {
    let mut forms = cases::at_limits(rng, true);
    for version in [VERSION_1, VERSION_2] {
        let most = version.most;
        for shape in SHAPES {
            let mut drawing = families::sparse(rng, most.nodes);
            drawing.labels.iter_mut().for_each(|l| *l = label(rng));
            drawing.pairs = shape(rng, most.nodes, most.pairs);
            label_alike(&mut drawing);
            forms.push(form::write(&drawing));
            label_apart(rng, &mut drawing);
            forms.push(form::write(&drawing));
        }
    }
    forms
}

/// All drawings of up to three nodes of two labels with up to four pairs, and of four nodes with up to three, whose edges
/// and global lists are left to chance; all graphs of up to three nodes, two edges and three ports an edge, whose pairs are
/// left to chance. And the largest forms.
fn every(mut rng: Rng) -> Forms {
    let largest = cases::at_largest(Rng::new(rng.number()), true);
    let mut joined = |sizes| small::joined(sizes, Rng::new(rng.number()));
    let joined = joined([3, 4]).chain(joined([4, 3]));
    let small = joined.chain(small::graphs([3, 2, 3], true, rng));
    Box::new(largest.chain(small.map(|drawing| form::write(&drawing))))
}

/// One of a family, joined, or any other.
fn drawing(rng: &mut Rng, most: usize) -> Drawing {
    if rng.once_in(2) {
        return random::drawing_of(rng, most);
    }
    let mut drawing = families::mixed(rng, most);
    join(rng, &mut drawing);
    drawing
}

#[cfg(test)]
mod tests {
    use super::*;
    use crate::cases::{edge, p6, p8, p9, plain};
    use crate::convert::to_lax;
    use crate::form::Sizes;

    fn answered(drawing: &Drawing) -> (Drawing, Vec<u8>) {
        let arguments = Arguments::new(&[], &[&form::write(drawing)]);
        let answer = quotient(&arguments).expect("it is answered");
        let merged = form::read(&answer.written[0]).expect("it is a good form");
        assert_eq!(answer.b as usize, drawing.labels.len());
        (merged, answer.written[1].clone())
    }

    #[test]
    fn drawings_worked_by_hand() {
        assert_eq!(answered(&p6()), (p6(), id_bytes([0, 1], 2)));
        let one = plain(1, &[edge(9, &[0], &[0]), edge(10, &[0], &[0])]);
        assert_eq!(answered(&p9()), (one, id_bytes([0, 0], 2)));
        let edges = [edge(9, &[0], &[0, 0, 0]), edge(10, &[0, 0, 0], &[0])];
        assert_eq!(answered(&p8()), (plain(1, &edges), id_bytes([0; 3], 2)));
    }

    /// The global lists too, and the classes in order of their least members, whatever the order of the pairs.
    #[test]
    fn every_entry_is_renamed() {
        let drawing = Drawing {
            labels: vec![5, 6, 5, 6, 5],
            edges: vec![edge(9, &[4, 3], &[2])],
            sources: vec![1, 4],
            targets: vec![3, 0],
            pairs: vec![(3, 1), (4, 2)],
        };
        let merged = Drawing {
            labels: vec![5, 6, 5],
            edges: vec![edge(9, &[2, 1], &[2])],
            sources: vec![1, 2],
            targets: vec![1, 0],
            pairs: vec![],
        };
        assert_eq!(answered(&drawing), (merged, id_bytes([0, 1, 2, 1, 2], 2)));
    }

    /// What the original does where labels differ: no graph, and its own is left without node labels.
    #[test]
    fn labels_that_differ_are_refused_and_the_original_loses_them() {
        let drawing = Drawing {
            labels: vec![5, 6],
            sources: vec![0],
            ..p9()
        };
        let arguments = Arguments::new(&[], &[&form::write(&drawing)]);
        let refused = quotient(&arguments).map(|answer| answer.a);
        assert_eq!(refused, Err(Refusal::Labels.nowhere()));

        let mut graph = to_lax(&drawing);
        let failed = graph.quotient().expect_err("labels differ");
        assert_eq!((failed.table.0, failed.target), (vec![0, 0], 1));
        let left = crate::convert::from_lax(&graph);
        assert_eq!(left.labels, []);
        assert_eq!((left.edges, left.sources), (drawing.edges, drawing.sources));
        assert_eq!(left.pairs, drawing.pairs);
        // Asked again, there is no node for its pairs.
        let again = std::panic::catch_unwind(move || graph.clone().quotient().is_ok());
        assert!(again.is_err());
    }

    /// The map is as wide as the graph that was read, whatever version the answer has.
    #[test]
    fn a_graph_goes_back_to_version_1() {
        let drawing = Drawing {
            pairs: vec![(2048, 0)],
            ..plain(2049, &[])
        };
        let (merged, map) = answered(&drawing);
        let sizes = Sizes {
            nodes: 2048,
            ..Sizes::default()
        };
        assert_eq!((merged.sizes(), sizes.version()), (sizes, VERSION_1));
        assert_eq!(map, id_bytes((0..2048).chain([0]), 4));
    }
}
