//! The choice of cycle-breaking nodes, and the no-loop check.

use crate::drawings::{several, size, version, FAMILIES, MANY};
use crate::sides::{answered, check_times, MOST_LIST_BYTES};
use crate::stored::{decode, decode_all};
use crate::table::{mean, yes_or_no, Table, ORIGINAL, PLAIN_CHECK};
use crate::timing::{medians, Side};
use differential::convert::Graph;
use differential::form::{id_bytes, width, VERSION_1, VERSION_2};
use differential::rooms::Rooms;
use differential::rows::choice::definition;
use oracle::lax::{cycle, NodeId};

mod exported {
    crate::port::functions! {
        pub fn ohg_cycle_breaking_nodes(
            src: *const u8,
            src_len: usize,
            list: *mut u8,
            list_len: usize,
            room: *mut u8,
            room_len: usize,
        ) -> u64;
        pub fn ohg_no_loop(src: *const u8, src_len: usize, room: *mut u8, room_len: usize) -> u64;
    }
}

// SAFETY, of both: each part is lent for the call, with its own length.

pub fn ohg_cycle_breaking_nodes(src: &[u8], list: &mut [u8], room: &mut [u8]) -> u64 {
    unsafe {
        exported::ohg_cycle_breaking_nodes(
            src.as_ptr(),
            src.len(),
            list.as_mut_ptr(),
            list.len(),
            room.as_mut_ptr(),
            room.len(),
        )
    }
}

fn ohg_no_loop(src: &[u8], room: &mut [u8]) -> u64 {
    unsafe { exported::ohg_no_loop(src.as_ptr(), src.len(), room.as_mut_ptr(), room.len()) }
}

/// The nodes with which each family is measured, in version 1 and in version 2.
pub const NODES_1: [usize; 3] = [50, 500, VERSION_1.most.nodes];
pub const NODES_2: [usize; 2] = [MANY, VERSION_2.most.nodes];

pub fn measure(rooms: &Rooms) -> Result<Vec<Table>, String> {
    let mut room = vec![0; rooms.of("ohg_cycle_breaking_nodes")?];
    let words = &["family", "nodes", "ports", "chosen (mean)"];
    let mut choice = Table::begin("`ohg_cycle_breaking_nodes`", words, &ORIGINAL);
    let number = |graphs: &[Graph]| mean(graphs.iter().map(|graph| chosen(graph).len()));
    measure_families(&mut choice, number, |forms| {
        cycle_breaking_nodes(forms, &mut room)
    });

    let mut room = vec![0; rooms.of("ohg_no_loop")?];
    let words = &["family", "nodes", "ports", "answer"];
    let mut check = Table::begin("`ohg_no_loop`", words, &PLAIN_CHECK);
    let answers = |graphs: &[Graph]| yes_or_no(graphs.iter().map(definition::no_loop));
    measure_families(&mut check, answers, |forms| no_loop(forms, &mut room));
    Ok(vec![choice, check])
}

/// Measures each family at each size, and prints the means over the families. What is answered is told in words.
pub fn measure_families(
    table: &mut Table,
    answers: impl Fn(&[Graph]) -> String,
    mut times: impl FnMut(&[Vec<u8>]) -> Vec<f64>,
) {
    let sizes = NODES_1.into_iter().chain(NODES_2);
    for nodes in sizes.clone() {
        for (name, family) in FAMILIES {
            let forms = several(|rng| family(rng, nodes));
            let words = [
                name.to_string(),
                nodes.to_string(),
                (size(&forms[0]) - nodes).to_string(),
                answers(&decode_all(&forms)),
            ];
            table.row(version(&forms[0]), &words, &times(&forms));
        }
    }
    for (i, nodes) in sizes.enumerate() {
        let start = i * FAMILIES.len();
        table.mean(&format!("{nodes} nodes"), start..start + FAMILIES.len());
    }
    table.version_means();
}

/// The original's choice.
pub fn chosen(graph: &Graph) -> Vec<NodeId> {
    cycle::cycle_breaking_nodes(graph).expect("there are no pairs")
}

/// The list of it, from a stored form.
pub fn original_list(form: &[u8]) -> Vec<u8> {
    let nodes = chosen(&decode(form));
    id_bytes(nodes.iter().map(|node| node.0), width(form))
}

pub fn cycle_breaking_nodes(forms: &[Vec<u8>], room: &mut [u8]) -> Vec<f64> {
    choice_times(forms, |form, list| {
        ohg_cycle_breaking_nodes(form, list, room)
    })
}

/// The times of a call that answers the original's list, and those of the original.
pub fn choice_times(forms: &[Vec<u8>], mut port: impl FnMut(&[u8], &mut [u8]) -> u64) -> Vec<f64> {
    let mut list = vec![0; MOST_LIST_BYTES];
    for form in forms {
        let due = original_list(form);
        let returned = port(form, &mut list);
        assert_eq!(answered(returned), Some(due.len() / width(form)));
        assert_eq!(list[..due.len()], due, "the lists agree");
    }
    let graphs = decode_all(forms);
    medians(vec![
        Side::new(forms, |form| port(form, &mut list)),
        Side::new(&graphs, chosen),
        Side::new(forms, |form| original_list(form)),
    ])
}

/// The original has no such check, so it is a plain one: vertices are taken away when no arc leads to them any more.
pub fn no_loop(forms: &[Vec<u8>], room: &mut [u8]) -> Vec<f64> {
    check_times(forms, |form| ohg_no_loop(form, room), definition::no_loop)
}
