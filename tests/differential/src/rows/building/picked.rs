//! Arguments picked by hand for each building function: what is refused by 7 and by 9, the last that is not, and the last
//! that is answered in version 1. What is read in version 1 and answered in version 2 has lists of version 1's width.

use crate::call::Arguments;
use crate::cases::{edge, p1, p8, p8_outgrown, plain};
use crate::form::{self, id_bytes, Drawing, Edge, SPIDER, VERSION_2};

/// Lengths past the limits and past what 16 bits count.
const FAR: [usize; 2] = [65_536, 65_537];

/// The last sizes below a limit of either version, the limit, and the first past it.
const NODES: [usize; 6] = [2047, 2048, 2049, 16_383, 16_384, 16_385];
const GLOBALS: [usize; 6] = [1023, 1024, 1025, 8191, 8192, 8193];

pub fn empty() -> Vec<Arguments> {
    vec![Arguments::new(&[], &[])]
}

pub fn discrete() -> Vec<Arguments> {
    label_lists(NODES)
}

/// Each label also makes an entry in either global list.
pub fn identity() -> Vec<Arguments> {
    label_lists(GLOBALS)
}

fn label_lists(lengths: [usize; 6]) -> Vec<Arguments> {
    let whole = [0, 3].iter().chain(&lengths).chain(&FAR);
    let broken = [1, 2, 3, 13, 8199].map(|bytes| vec![1; bytes]);
    let lists = whole.map(|&n| labels(n)).chain(broken);
    lists.map(|list| Arguments::new(&[], &[&list])).collect()
}

pub fn singleton() -> Vec<Arguments> {
    let mut picked = vec![];
    let alone = GLOBALS.iter().flat_map(|&n| [(n, 0), (0, n)]);
    let both = [(0, 0), (2, 3), (1024, 1024), (1025, 1024), (FAR[0], 0)];
    let full = [(8192, 8192), (8192, 8193)];
    for (sources, targets) in both.into_iter().chain(alone).chain(full) {
        picked.push(Arguments::new(&[9], &[&labels(sources), &labels(targets)]));
    }
    picked.push(Arguments::new(&[SPIDER], &[&labels(1), &labels(1)]));
    picked.extend(broken_lists(&[], 4));
    picked
}

pub fn new_node() -> Vec<Arguments> {
    let mut graphs = vec![p8(), p8_outgrown()];
    graphs.extend(NODES[..5].iter().map(|&nodes| of_nodes(nodes)));
    let with = |graph: &Drawing| Arguments::new(&[7], &[&form::write(graph)]);
    graphs.iter().map(with).collect()
}

pub fn new_edge() -> Vec<Arguments> {
    let p8_in_2 = form::write_as(VERSION_2, &p8());
    let mut picked = vec![
        // 13 before 7.
        Arguments::new(&[9], &[&p8_in_2, &id_bytes([3], 4), &[]]),
        Arguments::new(&[9], &[&p8_in_2, &[0], &[]]),
    ];
    for drawing in [p8(), p8_outgrown()] {
        let graph = form::write(&drawing);
        let width = form::width(&graph);
        let mut on_graph = |label: u32, sources: &[usize], targets: &[usize]| {
            let lists = [sources, targets].map(|list| id_bytes(list.iter().copied(), width));
            picked.push(Arguments::new(&[label], &[&graph, &lists[0], &lists[1]]));
        };
        on_graph(9, &[], &[]);
        on_graph(9, &[2, 0, 2], &[1]);
        on_graph(SPIDER, &[0], &[0]);
        on_graph(9, &[0, 3], &[]);
        on_graph(9, &[0, 1, 3], &[3]);
        on_graph(9, &[0], &[1, 2, 3, 3]);
        on_graph(9, &[], &[65_535]);
        on_graph(9, &[65_536], &[]);
        on_graph(9, &[], &[0, u32::MAX as usize]);
        // P8 has 8 ports.
        for most in [8192, 65_536] {
            on_graph(9, &vec![0; most - 9], &[]);
            on_graph(9, &vec![0; most - 8], &[]);
            on_graph(9, &vec![0; most - 8], &[1]);
        }
        on_graph(9, &[], &[2; 8185]);
        on_graph(9, &[0; FAR[1]], &[0; 65_535]);
        picked.extend(broken_lists(&[&graph], width));
        // A bad id in the first list comes before a broken end in the second, which comes before a bad id there.
        let bad = id_bytes([2, 3, 0], width);
        let bad_and_broken = &bad[..3 * width - 1];
        picked.push(Arguments::new(&[9], &[&graph, &bad, bad_and_broken]));
        picked.push(Arguments::new(&[9], &[&graph, &[], bad_and_broken]));
        picked.push(Arguments::new(&[9], &[&graph, bad_and_broken, &bad]));
        // Whole entries of the other version.
        picked.push(Arguments::new(&[9], &[&graph, &[0; 2], &[0; 4]]));
        picked.push(Arguments::new(&[9], &[&graph, &[0, 0, 1, 0], &[]]));
    }
    for &edges in &NODES[..5] {
        let graph = form::write(&plain(1, &vec![edge(9, &[], &[]); edges]));
        let list = id_bytes([0], form::width(&graph));
        picked.push(Arguments::new(&[9], &[&graph, &list, &[]]));
    }
    picked
}

pub fn new_operation() -> Vec<Arguments> {
    let graphs = [
        (p8(), 2, 3),
        (p8_outgrown(), 2, 3),
        (p8(), FAR[0], 0),
        (p8(), 65_535, 65_535),
        // P8 has 3 nodes.
        (p8(), 8191, 8190),
        (p8(), 8191, 8191),
        (of_nodes(2045), 1, 2),
        (of_nodes(2046), 1, 2),
        (of_nodes(2048), 0, 0),
        (of_nodes(2048), 0, 1),
        (of_nodes(16_381), 1, 2),
        (of_nodes(16_382), 1, 2),
        (of_nodes(16_384), 0, 0),
        (of_nodes(16_384), 0, 1),
        (of_edges(2047), 1, 0),
        (of_edges(2048), 0, 0),
        (of_edges(16_383), 1, 0),
        (of_edges(16_384), 0, 0),
        (plain(1, &[of_ports(8189)]), 1, 2),
        (plain(1, &[of_ports(8189)]), 2, 2),
        (plain(1, &[of_ports(65_533)]), 1, 2),
        (plain(1, &[of_ports(65_533)]), 2, 2),
    ];
    let with = |(drawing, sources, targets): &(Drawing, usize, usize)| {
        let lists = [labels(*sources), labels(*targets)];
        Arguments::new(&[9], &[&form::write(drawing), &lists[0], &lists[1]])
    };
    let mut picked: Vec<Arguments> = graphs.iter().map(with).collect();
    picked.extend(broken_lists(&[&form::write(&p8())], 4));
    picked.extend(broken_lists(&[&form::write(&p8_outgrown())], 4));
    // 13 before 7.
    picked.extend(broken_lists(&[&form::write_as(VERSION_2, &p8())], 4));
    picked
}

pub fn unify() -> Vec<Arguments> {
    let pairs = [
        [0, 0],
        [2, 1],
        [3, 0],
        [0, 3],
        [65_536, 0],
        [0, u32::MAX],
        [65_535, 65_535],
    ];
    // 13 before 7.
    let graphs = [
        form::write(&p8()),
        form::write(&p8_outgrown()),
        form::write_as(VERSION_2, &p8()),
    ];
    let mut picked = vec![Arguments::new(&[0, 0], &[&form::write(&p1())])];
    for graph in &graphs {
        picked.extend(pairs.iter().map(|pair| Arguments::new(pair, &[graph])));
    }
    for &pairs in &GLOBALS[..5] {
        let drawing = Drawing {
            pairs: vec![(0, 0); pairs],
            ..plain(1, &[])
        };
        picked.push(Arguments::new(&[0, 0], &[&form::write(&drawing)]));
    }
    picked
}

/// For a source and for a target.
pub fn add_edge_port() -> Vec<Arguments> {
    let mut graphs = vec![(p1(), 0)];
    for drawing in [p8(), p8_outgrown()] {
        let edges = [0, 1, 2, 65_536, u32::MAX];
        graphs.extend(edges.map(|edge| (drawing.clone(), edge)));
    }
    for &nodes in &NODES[..5] {
        graphs.push((plain(nodes, &[edge(9, &[], &[])]), 0));
    }
    for ports in [8191, 8192, 8193, 65_535, 65_536] {
        graphs.push((plain(1, &[of_ports(ports)]), 0));
    }
    let with =
        |(drawing, edge): &(Drawing, u32)| Arguments::new(&[*edge, 7], &[&form::write(drawing)]);
    let mut picked: Vec<Arguments> = graphs.iter().map(with).collect();
    // 13 before 7.
    picked.push(Arguments::new(
        &[2, 7],
        &[&form::write_as(VERSION_2, &p8())],
    ));
    picked
}

/// A call with a label and two lists of entries of so many bytes: either list broken, both, and the first also too long.
fn broken_lists(graph: &[&[u8]], width: usize) -> Vec<Arguments> {
    let lists = [
        [vec![0; width + 1], vec![]],
        [vec![0; width], vec![0; width - 1]],
        [vec![0; 2 * width + 1], vec![0; width + 1]],
        [vec![], vec![0; 3 * width + 1]],
        [vec![0; width * 17_000 - 1], vec![]],
    ];
    lists
        .iter()
        .map(|[one, two]| Arguments::new(&[9], &[graph, &[one, two]].concat()))
        .collect()
}

fn labels(n: usize) -> Vec<u8> {
    (0..n as u32).flat_map(u32::to_le_bytes).collect()
}

fn of_nodes(nodes: usize) -> Drawing {
    plain(nodes, &[])
}

fn of_edges(edges: usize) -> Drawing {
    plain(0, &vec![edge(9, &[], &[]); edges])
}

/// An edge with so many ports, all on node 0.
fn of_ports(ports: usize) -> Edge {
    edge(9, &vec![0; ports / 2], &vec![0; ports - ports / 2])
}
