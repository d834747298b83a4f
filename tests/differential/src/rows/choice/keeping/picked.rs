//! Arguments picked by hand for the choice with kept nodes: what is refused by 7, 8 and 16, also where several of them could be
//! given, and what is answered.

use crate::arguments::{bad_ids, with_lists};
use crate::call::Arguments;
use crate::cases::{edge, p1, p2, p4, p6, p7, p8_outgrown, p9, plain};
use crate::form::{self, id_bytes, put_number, Drawing, VERSION_1, VERSION_2};
use crate::rows::choice::families::rings;
use crate::rows::choice::without_pairs;

pub fn picked() -> Vec<Arguments> {
    let mut picked = vec![on(&p1(), &[]), on(&p1(), &[0])];
    let p7_outgrown = without_pairs(p8_outgrown());
    for drawing in [&p2(), &p4(), &p6(), &p7(), &p12(), &p7_outgrown] {
        picked.extend(all_sets(drawing));
    }
    // In another order and with repeats; the choice of the second is stuck after its first stage.
    for drawing in [&p7(), &p7_outgrown] {
        picked.push(on(drawing, &[1, 0, 1]));
        picked.push(on(drawing, &[2, 2, 1, 2]));
        picked.push(on(drawing, &[1; 65_537]));
    }
    for form in [form::write(&p7()), form::write(&p7_outgrown)] {
        picked.extend(with_lists(&form, &bad_lists(form::width(&form))));
    }
    // 7 before 8, and 8 before 16: each drawing has a cycle of two nodes or less.
    for drawing in [p9(), p8_outgrown()] {
        let nodes = drawing.labels.len();
        for ids in [&[][..], &[0], &[1, 0], &[0, nodes], &[nodes - 1, 1, 0]] {
            picked.push(on(&drawing, ids));
        }
        picked.extend(with_lists(&form::write(&drawing), &[vec![0]]));
    }
    // 13 before 7, 8 and 16, and 6 before all of them; the last id is that of a pair.
    let mut p9_in_2 = form::write_as(VERSION_2, &p9());
    let lists = [vec![], vec![0], id_bytes([2], 4), id_bytes([0, 1], 4)];
    picked.extend(with_lists(&p9_in_2, &lists));
    let last = p9_in_2.len() - VERSION_2.width;
    put_number(&mut p9_in_2, last, VERSION_2.width, 2);
    picked.extend(with_lists(&p9_in_2, &lists));
    picked.extend(largest());
    picked
}

/// Three nodes; 1>1 0, 0 2>2: node 0 is on no directed cycle, but between two, and has the largest score.
pub fn p12() -> Drawing {
    plain(3, &[edge(9, &[1], &[1, 0]), edge(10, &[0, 2], &[2])])
}

/// A drawing with each set of its nodes kept.
fn all_sets(drawing: &Drawing) -> Vec<Arguments> {
    let nodes = drawing.labels.len();
    let kept = |set: usize| (0..nodes).filter(|node| set >> node & 1 == 1).collect();
    let sets = (0..1 << nodes).map(kept);
    sets.map(|kept: Vec<usize>| on(drawing, &kept)).collect()
}

/// Lists that are refused of a graph of three nodes: bad ids, several of them, broken ends, also after a bad id, and, among
/// others that are not, whole entries of the other version.
fn bad_lists(width: usize) -> Vec<Vec<u8>> {
    let bad = bad_ids(3, width).into_iter().map(|id| vec![0, id]);
    let ids = bad.chain([vec![3, 2], vec![0, 1, 3], vec![1, 3, 0, 3]]);
    let mut lists: Vec<Vec<u8>> = ids.map(|ids| id_bytes(ids, width)).collect();
    lists.push(id_bytes([3, 0], width)[..2 * width - 1].to_vec());
    lists.extend([1, 2, 3, 5, 6, 7].map(|bytes| vec![0; bytes]));
    lists.extend([vec![1, 0, 0, 0], vec![0, 0, 1, 0]]);
    lists
}

/// The largest rings of either version: of all nodes with all of them kept, all but the first and all but the last, up and down;
/// and of four nodes each, with all kept but one of each ring, and with the last ring wholly kept.
fn largest() -> Vec<Arguments> {
    let mut picked = vec![];
    for version in [VERSION_1, VERSION_2] {
        let nodes = version.most.nodes;
        let ring = rings(nodes, nodes);
        picked.push(on(&ring, &(0..nodes).collect::<Vec<_>>()));
        picked.push(on(&ring, &(1..nodes).rev().collect::<Vec<_>>()));
        picked.push(on(&ring, &(0..nodes - 1).collect::<Vec<_>>()));
        let four = rings(nodes, 4);
        let one_free = (0..nodes).filter(|node| node % 4 != 3);
        picked.push(on(&four, &one_free.collect::<Vec<_>>()));
        picked.push(on(&four, &(nodes - 4..nodes).collect::<Vec<_>>()));
    }
    picked
}

fn on(drawing: &Drawing, ids: &[usize]) -> Arguments {
    let graph = form::write(drawing);
    let list = id_bytes(ids.iter().copied(), form::width(&graph));
    Arguments::new(&[], &[&graph, &list])
}
