//! Drawings picked by hand for the search for a loop: where another walk would go another way, the deepest walks, and what is
//! refused.

use crate::call::Arguments;
use crate::cases::{edge, p8_outgrown, p9, plain};
use crate::form::{self, put_number, Drawing, Edge, VERSION_1, VERSION_2};
use crate::rng::Rng;
use crate::rows::choice::families::{rings, shuffle};

pub fn picked() -> Vec<Arguments> {
    let mut forms: Vec<Vec<u8>> = turns().iter().map(form::write).collect();
    for drawing in turns() {
        forms.push(form::write(&outgrown(drawing)));
    }
    for version in [VERSION_1, VERSION_2] {
        forms.extend(deepest(version.most.nodes).iter().map(form::write));
    }
    forms.extend(with_pairs());
    let on = |form: &Vec<u8>| Arguments::new(&[], &[form]);
    forms.iter().map(on).collect()
}

/// 8; 13 before it, and 6 before both. The last id is that of a pair.
pub fn with_pairs() -> Vec<Vec<u8>> {
    let mut forms = [p9(), p8_outgrown()]
        .map(|drawing| form::write(&drawing))
        .to_vec();
    let mut p9_in_2 = form::write_as(VERSION_2, &p9());
    forms.push(p9_in_2.clone());
    let last = p9_in_2.len() - VERSION_2.width;
    put_number(&mut p9_in_2, last, VERSION_2.width, 2);
    forms.push(p9_in_2);
    forms
}

/// Small drawings on which the walk has to choose.
fn turns() -> Vec<Drawing> {
    let e = |sources: &[u32], targets: &[u32]| edge(9, sources, targets);
    vec![
        // Node 0, edge 0 and what enters it alone go freely; so neither the first target of edge 1 counts nor its lowest.
        plain(5, &[e(&[1, 3], &[]), e(&[1], &[0, 2, 1]), e(&[2], &[1])]),
        // The lowest target stands last.
        plain(
            4,
            &[e(&[0], &[3, 2, 1]), e(&[3, 2], &[0]), e(&[1], &[2, 3])],
        ),
        // The same entries many times.
        plain(2, &[e(&[1, 1, 0, 0], &[1, 1, 0, 1]), e(&[0, 0], &[1, 1])]),
        // Edges are passed in falling order.
        plain(
            3,
            &[
                e(&[2], &[0]),
                e(&[1], &[2]),
                e(&[0, 0], &[1]),
                e(&[0], &[2]),
            ],
        ),
        // A way, and then a loop of one node; the first node has a loop of its own, at a higher edge.
        plain(
            3,
            &[e(&[0], &[1]), e(&[1], &[2]), e(&[2], &[2]), e(&[0], &[0])],
        ),
        // A way to an edge that is met again.
        plain(3, &[e(&[0], &[1]), e(&[1, 2], &[2]), e(&[0], &[0])]),
        // Two loops and what lies between them, which is in the core.
        plain(
            5,
            &[
                e(&[4], &[4, 2]),
                e(&[2], &[3]),
                e(&[3, 1], &[1]),
                e(&[1], &[1]),
            ],
        ),
        // The lowest node of the core is on no loop.
        plain(3, &[e(&[1], &[1, 0]), e(&[0, 2], &[2])]),
    ]
}

/// With one global source more than version 1 holds.
pub fn outgrown(drawing: Drawing) -> Drawing {
    Drawing {
        sources: vec![0; VERSION_1.most.sources + 1],
        ..drawing
    }
}

/// On so many nodes and as many edges: a ring of all, as it is and in another order; long ways to an edge that is met again, to
/// a loop of one node and to one of half of all; and a loop at an edge whose lowest target stands last of very many.
fn deepest(nodes: usize) -> Vec<Drawing> {
    let ring = rings(nodes, nodes);
    let mut shuffled = ring.clone();
    shuffle(&mut Rng::new(1), &mut shuffled);
    let last = nodes as u32 - 1;
    let others: Vec<u32> = (1..=last).rev().collect();
    vec![
        ring,
        shuffled,
        way_to(nodes, edge(9, &[last - 1, last], &[last])),
        way_to(nodes, edge(9, &[last - 1], &[last - 1])),
        way_to(nodes, edge(9, &[last - 1], &[last / 2])),
        plain(nodes, &[edge(9, &[0], &others), edge(9, &others, &[0])]),
    ]
}

/// From each node but the last two to the next, and then this edge; and one more keeps the first node in the core.
fn way_to(nodes: usize, end: Edge) -> Drawing {
    let way = (0..nodes as u32 - 2).map(|node| edge(9, &[node], &[node + 1]));
    let edges = way.chain([end, edge(9, &[0], &[0])]);
    plain(nodes, &edges.collect::<Vec<_>>())
}

#[cfg(test)]
mod tests {
    use super::*;
    use crate::rows::choice::showing::find_loop;

    /// The vertices and the steps.
    fn shown(drawing: &Drawing) -> (u32, u32) {
        let on = Arguments::new(&[], &[&form::write(drawing)]);
        let answer = find_loop(&on).expect("it is answered");
        (answer.a, answer.b)
    }

    #[test]
    fn the_deepest_walks_visit_all_or_nearly_all() {
        for nodes in [2048, 16_384] {
            let n = nodes as u32;
            let walked: Vec<(u32, u32)> = deepest(nodes).iter().map(shown).collect();
            let all = 2 * n;
            let due = [
                (all, all),
                (all, all),
                (2, all - 1),
                (2, all - 2),
                (n, all - 2),
                (4, 4),
            ];
            assert_eq!(walked, due);
        }
    }

    #[test]
    fn each_turn_is_taken() {
        let due = [
            (2, 2),
            (6, 6),
            (2, 2),
            (6, 6),
            (2, 6),
            (2, 5),
            (2, 2),
            (2, 3),
        ];
        let walked: Vec<(u32, u32)> = turns().iter().map(shown).collect();
        assert_eq!(walked, due);
    }
}
