//! Merging joined nodes.

use crate::choice::{NODES_1, NODES_2};
use crate::drawings::{several, version, JOINED};
use crate::sides::{graph_times, MOST_LIST_BYTES};
use crate::stored::decode;
use crate::table::{mean, Table, ORIGINAL};
use differential::convert::{sizes, Graph};
use differential::form::{id_bytes, width, Sizes, VERSION_2};
use differential::rooms::Rooms;

mod exported {
    crate::port::functions! {
        pub fn ohg_quotient(
            src: *const u8,
            src_len: usize,
            out: *mut u8,
            out_len: usize,
            map: *mut u8,
            map_len: usize,
            room: *mut u8,
            room_len: usize,
        ) -> u64;
    }
}

fn ohg_quotient(src: &[u8], out: &mut [u8], map: &mut [u8], room: &mut [u8]) -> u64 {
    // SAFETY: each part is lent for the call, with its own length.
    unsafe {
        exported::ohg_quotient(
            src.as_ptr(),
            src.len(),
            out.as_mut_ptr(),
            out.len(),
            map.as_mut_ptr(),
            map.len(),
            room.as_mut_ptr(),
            room.len(),
        )
    }
}

/// A row's version is that of the graphs read.
pub fn measure(rooms: &Rooms) -> Result<Vec<Table>, String> {
    let mut room = vec![0; rooms.of("ohg_quotient")?];
    let words = &[
        "family",
        "nodes",
        "nodes left (mean)",
        "bytes answered (mean)",
    ];
    let mut table = Table::begin("`ohg_quotient`", words, &ORIGINAL);
    for nodes in NODES_1.into_iter().chain(NODES_2) {
        for (name, family) in JOINED {
            let forms = several(|rng| family(rng, nodes));
            let results: Vec<Sizes> = forms.iter().map(|form| result(form)).collect();
            let words = [
                name.to_string(),
                nodes.to_string(),
                mean(results.iter().map(|sizes| sizes.nodes)),
                mean(results.iter().map(Sizes::form_bytes)),
            ];
            table.row(version(&forms[0]), &words, &quotient(&forms, &mut room));
        }
    }
    table.version_means();
    Ok(vec![table])
}

/// How large the drawing becomes.
fn result(form: &[u8]) -> Sizes {
    let mut graph = decode(form);
    merge(&mut graph);
    sizes(&graph)
}

/// The original gives its map as it is, and no bytes are made of it.
pub fn quotient(forms: &[Vec<u8>], room: &mut [u8]) -> Vec<f64> {
    let mut map = vec![0; MOST_LIST_BYTES];
    let mut out = vec![0; VERSION_2.most_bytes()];
    for form in forms {
        let due = id_bytes(merge(&mut decode(form)), width(form));
        ohg_quotient(form, &mut out, &mut map, room);
        assert!(map[..due.len()] == due, "the maps agree");
    }
    graph_times(
        forms,
        |src, out| ohg_quotient(src, out, &mut map, room),
        |graph, _| merge(graph),
    )
}

/// What the original merges, and its map.
fn merge(graph: &mut Graph) -> Vec<usize> {
    graph.quotient().expect("there is one label").table.0
}
