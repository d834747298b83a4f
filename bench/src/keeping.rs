//! The choice among nodes that are not kept: where none is, beside the original; where some are, beside itself with none,
//! since the original knows no kept nodes.

use crate::choice::{choice_times, chosen, measure_families, original_list, NODES_1, NODES_2};
use crate::drawings::{several, version, FAMILIES};
use crate::sides::{answered, MOST_LIST_BYTES};
use crate::spidering::Listed;
use crate::stored::decode;
use crate::table::{mean, Table, ORIGINAL};
use crate::timing::{medians, Side};
use differential::convert::Graph;
use differential::form::{number, width};
use differential::rng::Rng;
use differential::rooms::Rooms;
use oracle::lax::NodeId;

mod exported {
    crate::port::functions! {
        pub fn ohg_cycle_breaking_nodes_keeping(
            src: *const u8,
            src_len: usize,
            kept: *const u8,
            kept_len: usize,
            list: *mut u8,
            list_len: usize,
            room: *mut u8,
            room_len: usize,
        ) -> u64;
    }
}

pub fn ohg_cycle_breaking_nodes_keeping(
    src: &[u8],
    kept: &[u8],
    list: &mut [u8],
    room: &mut [u8],
) -> u64 {
    // SAFETY: each part is lent for the call, with its own length.
    unsafe {
        exported::ohg_cycle_breaking_nodes_keeping(
            src.as_ptr(),
            src.len(),
            kept.as_ptr(),
            kept.len(),
            list.as_mut_ptr(),
            list.len(),
            room.as_mut_ptr(),
            room.len(),
        )
    }
}

/// Prints two tables and answers the one beside the original.
pub fn measure(rooms: &Rooms) -> Result<Vec<Table>, String> {
    let mut room = vec![0; rooms.of("ohg_cycle_breaking_nodes_keeping")?];
    let words = &["family", "nodes", "ports", "chosen (mean)"];
    let title = "`ohg_cycle_breaking_nodes_keeping`, none kept";
    let mut none = Table::begin(title, words, &ORIGINAL);
    let number = |graphs: &[Graph]| mean(graphs.iter().map(|graph| chosen(graph).len()));
    measure_families(&mut none, number, |forms| {
        choice_times(forms, |form, list| {
            ohg_cycle_breaking_nodes_keeping(form, &[], list, &mut room)
        })
    });

    let words = &[
        "family",
        "nodes",
        "kept (mean)",
        "chosen (mean)",
        "none kept, chosen (mean)",
    ];
    let title = "`ohg_cycle_breaking_nodes_keeping`, a tenth kept";
    let mut some = Table::begin(title, words, &["none kept"]);
    for nodes in NODES_1.into_iter().chain(NODES_2) {
        for (name, family) in FAMILIES {
            let forms = several(|rng| family(rng, nodes));
            let inputs = a_tenth_kept(&forms);
            let words = [
                name.to_string(),
                nodes.to_string(),
                mean(inputs.iter().map(|input| input.nodes.len())),
                mean(inputs.iter().map(|input| spared(input, &mut room).len())),
                mean(forms.iter().map(|form| chosen(&decode(form)).len())),
            ];
            let times = keeping_some(&inputs, &mut room);
            some.row(version(&forms[0]), &words, &times);
        }
    }
    some.version_means();
    Ok(vec![none])
}

/// The times of the call where these are kept, and where none is.
fn keeping_some(inputs: &[Listed], room: &mut [u8]) -> Vec<f64> {
    let mut list = vec![0; MOST_LIST_BYTES];
    let mut none_list = list.clone();
    let mut none_room = room.to_vec();
    medians(vec![
        Side::new(inputs, |input| {
            ohg_cycle_breaking_nodes_keeping(&input.form, &input.ids, &mut list, room)
        }),
        Side::new(inputs, |input| {
            ohg_cycle_breaking_nodes_keeping(&input.form, &[], &mut none_list, &mut none_room)
        }),
    ])
}

/// The times of the call where a tenth is kept, and of the original, which keeps none.
pub fn keeping_a_tenth(forms: &[Vec<u8>], room: &mut [u8]) -> Vec<f64> {
    let inputs = a_tenth_kept(forms);
    let mut list = vec![0; MOST_LIST_BYTES];
    for input in &inputs {
        spared(input, room);
    }
    medians(vec![
        Side::new(&inputs, |input| {
            ohg_cycle_breaking_nodes_keeping(&input.form, &input.ids, &mut list, room)
        }),
        Side::new(forms, |form| original_list(form)),
    ])
}

/// The answered list, in which no kept node is.
fn spared(input: &Listed, room: &mut [u8]) -> Vec<usize> {
    let mut list = vec![0; MOST_LIST_BYTES];
    let returned = ohg_cycle_breaking_nodes_keeping(&input.form, &input.ids, &mut list, room);
    let count = answered(returned).expect("no cycle has only kept nodes");
    let width = width(&input.form);
    let id = |i| number(&list, i * width, width) as usize;
    let list: Vec<usize> = (0..count).map(id).collect();
    assert!(input.nodes.iter().all(|node| !list.contains(&node.0)));
    list
}

/// Forms with a tenth of their nodes, by chance, but so that no directed cycle has only these: else the call is refused.
fn a_tenth_kept(forms: &[Vec<u8>]) -> Vec<Listed> {
    let mut rng = Rng::new(1);
    let with_list = |form: &Vec<u8>| Listed::new(form, acyclic_tenth(&mut rng, &decode(form)));
    forms.iter().map(with_list).collect()
}

fn acyclic_tenth(rng: &mut Rng, graph: &Graph) -> Vec<NodeId> {
    let nodes = graph.hypergraph.nodes.len();
    let mut order: Vec<usize> = (0..nodes).collect();
    for last in (1..nodes).rev() {
        order.swap(last, rng.below(last + 1));
    }
    let next = successors(graph);
    let mut kept = vec![false; nodes];
    let mut list = vec![];
    for node in order {
        if list.len() == nodes / 10 {
            break;
        }
        kept[node] = !closes(node, &next, &kept);
        if kept[node] {
            list.push(NodeId(node));
        }
    }
    list
}

/// The nodes that each node leads to by one edge.
fn successors(graph: &Graph) -> Vec<Vec<usize>> {
    let mut next = vec![vec![]; graph.hypergraph.nodes.len()];
    for edge in &graph.hypergraph.adjacency {
        for source in &edge.sources {
            next[source.0].extend(edge.targets.iter().map(|target| target.0));
        }
    }
    next
}

/// Whether a node leads back to itself through kept nodes alone.
fn closes(node: usize, next: &[Vec<usize>], kept: &[bool]) -> bool {
    let mut seen = vec![false; next.len()];
    let mut waiting = vec![node];
    while let Some(from) = waiting.pop() {
        for &to in &next[from] {
            if to == node {
                return true;
            }
            if kept[to] && !seen[to] {
                seen[to] = true;
                waiting.push(to);
            }
        }
    }
    false
}
