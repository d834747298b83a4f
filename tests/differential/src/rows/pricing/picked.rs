//! Arguments picked by hand.

use crate::call::Arguments;
use crate::cases::{edge, plain};
use crate::form::{self, Drawing, Edge, SPIDER, VERSION_1};

/// Three parts in a row without a loop; a loop beside a spider; one of each kind, all loops by way of node 0; 15 before 14, and
/// 14 before 15.
pub fn by_hand() -> [Drawing; 5] {
    [
        of_three(&[edge(1, &[], &[0]), edge(9, &[0], &[1]), edge(2, &[1], &[])]),
        of_three(&[edge(8, &[0], &[0]), edge(SPIDER, &[1, 1], &[])]),
        of_three(&[
            edge(1, &[], &[0]),
            edge(2, &[0], &[]),
            edge(3, &[0], &[1, 2]),
            edge(4, &[0, 1], &[2]),
            edge(5, &[0], &[1]),
            edge(6, &[0, 1], &[2]),
            edge(7, &[0, 1], &[2]),
            edge(8, &[0], &[1]),
            edge(9, &[0], &[1]),
            edge(10, &[0], &[1, 2]),
            edge(11, &[0, 1], &[2]),
            edge(12, &[0, 1], &[0, 2]),
        ]),
        of_three(&[edge(1, &[], &[0]), edge(9, &[0], &[]), edge(13, &[], &[])]),
        of_three(&[edge(0, &[], &[]), edge(9, &[0], &[])]),
    ]
}

fn of_three(edges: &[Edge]) -> Drawing {
    plain(3, edges)
}

/// These, as they are, in version 2 by nodes that no edge has, and with a pair, which is told before an edge; and the loop of a
/// part whose label is another one's in its low bytes.
pub fn picked() -> Vec<Arguments> {
    let mut drawings = by_hand().to_vec();
    drawings.push(of_three(&[edge(9 + 65_536, &[0], &[0])]));
    drawings.push(of_three(&[edge(9 + 256, &[0], &[0])]));
    let outgrown = drawings.clone().into_iter().map(|drawing| Drawing {
        labels: vec![8; VERSION_1.most.nodes + 1],
        ..drawing
    });
    let paired = drawings.clone().into_iter().map(|drawing| Drawing {
        pairs: vec![(0, 1)],
        ..drawing
    });
    let more: Vec<Drawing> = outgrown.chain(paired).collect();
    drawings.extend(more);
    drawings
        .iter()
        .map(|drawing| Arguments::new(&[], &[&form::write(drawing)]))
        .collect()
}
