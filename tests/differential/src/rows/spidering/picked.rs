//! Arguments picked by hand for spiderizing: what is refused by 7, 11 and 9, and the last that is not, before merging and after.

use crate::arguments::{bad_ids, with_lists};
use crate::call::Arguments;
use crate::cases::{edge, joined_by, labelled_apart, p1, p7, p8_outgrown, p9, plain};
use crate::form::{self, id_bytes, put_number, Drawing, SPIDER, VERSION_1, VERSION_2};
use crate::rows::choice::without_pairs;

/// Spiders that are there already; nodes that are joined, and that cannot be; the last result within either version's limit
/// of edges, and the first past it; the same of nodes, and of both where the result is within it only because nodes were
/// merged.
pub fn spiderize() -> Vec<Arguments> {
    let mut drawings = vec![with_spiders(), without_pairs(p8_outgrown())];
    drawings.extend([p9(), joined(), p8_outgrown()]);
    drawings.extend([p9(), joined(), p8_outgrown()].map(labelled_apart));
    for most in [2048, 16_384] {
        let half = most / 2;
        drawings.push(plain(half, &[]));
        drawings.push(plain(half, &[edge(9, &[], &[])]));
        drawings.push(of_ports(most - 1));
        drawings.push(of_ports(most));
        drawings.push(paired(plain(half + 1, &[])));
        drawings.push(paired(plain(half + 2, &[])));
        // 11 before 9
        drawings.push(labelled_apart(paired(plain(half + 2, &[]))));
        // Without the merge there would be a node more.
        drawings.push(paired(of_ports_on_two(most - 1)));
        drawings.push(paired(of_ports_on_two(most)));
    }
    let forms = drawings.iter().map(form::write);
    forms.map(|form| Arguments::new(&[], &[&form])).collect()
}

pub fn spiderize_nodes() -> Vec<Arguments> {
    let mut picked = vec![];
    // With no list P7 is answered by its own 59 bytes, for which 58 and 60 are lent too.
    for drawing in [p7(), without_pairs(p8_outgrown())] {
        let graph = form::write(&drawing);
        let width = form::width(&graph);
        let lists = [vec![], vec![1], vec![2, 0, 2, 1]];
        let bad = bad_ids(3, width).into_iter().map(|id| vec![0, id]);
        picked.extend(lists.into_iter().chain(bad).map(|ids| on(&drawing, &ids)));
        picked.push(on(&drawing, &[0, 1, 3]));
        picked.push(on(&drawing, &[1, 3, 0, 3]));
        picked.push(on(&drawing, &[1; 65_537]));
        // Broken ends, also after a bad id, and whole entries of the other version.
        let bad_and_broken = id_bytes([3, 0], width)[..2 * width - 1].to_vec();
        picked.extend(with_lists(&graph, &[bad_and_broken]));
        let broken = [1, 2, 3, 5, 6, 7].map(|bytes| vec![0; bytes]);
        let of_the_other = [vec![1, 0, 0, 0], vec![0, 0, 1, 0]];
        picked.extend(with_lists(&graph, &broken));
        picked.extend(with_lists(&graph, &of_the_other));
    }
    picked.extend([
        on(&p1(), &[0]),
        on(&with_spiders(), &[0]),
        on(&p8_outgrown(), &[3]),
        on(&p8_outgrown(), &[1]),
    ]);
    // Ids of nodes that are joined: none, one or several of a class, of one class or of both.
    for ids in [&[][..], &[0], &[1], &[2], &[3, 1], &[2, 1, 0, 2]] {
        picked.push(on(&joined(), ids));
    }
    // 7 before 11, and 11 whatever is listed
    for drawing in [p9(), p8_outgrown()] {
        let nodes = drawing.labels.len();
        let apart = labelled_apart(drawing);
        for ids in [&[][..], &[1], &[0, nodes]] {
            picked.push(on(&apart, ids));
        }
        picked.extend(with_lists(&form::write(&apart), &[vec![0]]));
    }
    // 13 before 7 and 11, and 6 before all of them; the last id is that of a pair.
    let mut p9_in_2 = form::write_as(VERSION_2, &labelled_apart(p9()));
    let lists = [vec![], vec![0], id_bytes([2], 4)];
    picked.extend(with_lists(&p9_in_2, &lists));
    let last = p9_in_2.len() - VERSION_2.width;
    put_number(&mut p9_in_2, last, VERSION_2.width, 2);
    picked.extend(with_lists(&p9_in_2, &lists));
    picked.extend(at_limits());
    picked.extend(merged_at_limits());
    picked
}

/// Two classes of two nodes each, which lie across each other.
fn joined() -> Drawing {
    joined_by(&[5, 6, 5, 6], &[(3, 1), (0, 2)])
}

/// The first node and the last joined.
fn paired(drawing: Drawing) -> Drawing {
    Drawing {
        pairs: vec![(drawing.labels.len() as u32 - 1, 0)],
        ..drawing
    }
}

/// An edge that is a spider already, a node entered several times, and global lists.
fn with_spiders() -> Drawing {
    let edges = [edge(SPIDER, &[0, 0], &[1]), edge(9, &[1], &[0])];
    Drawing {
        sources: vec![0, 1, 0],
        targets: vec![1, 0, 0],
        ..plain(2, &edges)
    }
}

/// The last result within each limit of either version, and the first past it.
fn at_limits() -> Vec<Arguments> {
    let mut picked = vec![];
    for most in [VERSION_1.most, VERSION_2.most] {
        // The listed node stands in one source entry and nowhere else.
        for nodes in [most.nodes - 1, most.nodes] {
            picked.push(on(&plain(nodes, &[edge(9, &[0], &[])]), &[0]));
        }
        for edges in [most.edges - 2, most.edges - 1] {
            picked.push(on(&plain(1, &vec![edge(9, &[], &[]); edges]), &[0]));
        }
        // The other node's ports stay; the listed one's two entries and its own two make four more ports than there were.
        for ports in [most.ports - 6, most.ports - 5] {
            let others = edge(9, &vec![1; ports], &[]);
            picked.push(on(&plain(2, &[others, edge(9, &[0], &[0])]), &[0]));
        }
        // Each global entry makes a node.
        for nodes in [1, 2] {
            let drawing = Drawing {
                sources: vec![0; most.sources],
                targets: vec![0; most.targets - 1],
                ..plain(nodes, &[])
            };
            picked.push(on(&drawing, &[0]));
        }
    }
    picked
}

/// Results that stand at the limits of either version because of the first node and the last having become one.
fn merged_at_limits() -> Vec<Arguments> {
    let mut picked = vec![];
    for most in [VERSION_1.most, VERSION_2.most] {
        let last = most.nodes - 1;
        // One node goes, and one comes: within the limit, where it would be past it. Then it has an entry more.
        for ids in [&[0][..], &[0, 0]] {
            let drawing = plain(most.nodes, &[edge(9, ids, &[])]);
            picked.push(on(&paired(drawing.clone()), &[0]));
            picked.push(on(&paired(drawing), &[last]));
        }
        // The last node's three entries are the listed one's too: past the limit, where it would be within it.
        let entries = [0, last as u32 - 1, last as u32 - 1, last as u32 - 1];
        let drawing = paired(plain(last, &[edge(9, &entries, &[])]));
        picked.push(on(&drawing, &[0]));
        picked.push(on(&without_pairs(drawing.clone()), &[0]));
        // 11 before 9
        picked.push(on(&labelled_apart(drawing), &[0]));
        // Two ids of one class make two spiders, and not four.
        for edges in [most.edges - 2, most.edges - 1] {
            let drawing = plain(2, &vec![edge(9, &[], &[]); edges]);
            picked.push(on(&paired(drawing), &[1, 0]));
        }
        // Either of the two that are one has an entry, which makes four more ports than there were.
        for ports in [most.ports - 6, most.ports - 5] {
            let others = edge(9, &vec![1; ports], &[]);
            let drawing = plain(3, &[others, edge(9, &[0], &[2])]);
            picked.push(on(&paired(drawing), &[0]));
        }
    }
    picked
}

/// Two nodes by turns in so many ports.
fn of_ports_on_two(ports: usize) -> Drawing {
    let ids: Vec<u32> = (0..ports as u32).map(|port| port % 2).collect();
    plain(2, &[edge(9, &ids, &[])])
}

/// One node in so many ports.
fn of_ports(ports: usize) -> Drawing {
    plain(1, &[edge(9, &vec![0; ports], &[])])
}

fn on(drawing: &Drawing, ids: &[usize]) -> Arguments {
    let graph = form::write(drawing);
    let list = id_bytes(ids.iter().copied(), form::width(&graph));
    Arguments::new(&[], &[&graph, &list])
}
