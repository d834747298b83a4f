//! Deleting edges and nodes.

use crate::drawings::{described, every_eighth, forms_of, list_for, version, MEASURED};
use crate::sides::{graph_times, MOST_LIST_BYTES};
use crate::table::{Table, ORIGINAL};
use differential::rooms::Rooms;
use oracle::lax::{EdgeId, NodeId};

mod exported {
    crate::port::functions! {
        pub fn ohg_delete_edges(
            src: *const u8,
            src_len: usize,
            ids: *const u8,
            ids_len: usize,
            out: *mut u8,
            out_len: usize,
            room: *mut u8,
            room_len: usize,
        ) -> u64;
        pub fn ohg_delete_nodes(
            src: *const u8,
            src_len: usize,
            ids: *const u8,
            ids_len: usize,
            out: *mut u8,
            out_len: usize,
            map: *mut u8,
            map_len: usize,
            room: *mut u8,
            room_len: usize,
        ) -> u64;
    }
}

// SAFETY, of both: each part is lent for the call, with its own length.

pub fn ohg_delete_edges(src: &[u8], ids: &[u8], out: &mut [u8], room: &mut [u8]) -> u64 {
    unsafe {
        exported::ohg_delete_edges(
            src.as_ptr(),
            src.len(),
            ids.as_ptr(),
            ids.len(),
            out.as_mut_ptr(),
            out.len(),
            room.as_mut_ptr(),
            room.len(),
        )
    }
}

pub fn ohg_delete_nodes(
    src: &[u8],
    ids: &[u8],
    out: &mut [u8],
    map: &mut [u8],
    room: &mut [u8],
) -> u64 {
    unsafe {
        exported::ohg_delete_nodes(
            src.as_ptr(),
            src.len(),
            ids.as_ptr(),
            ids.len(),
            out.as_mut_ptr(),
            out.len(),
            map.as_mut_ptr(),
            map.len(),
            room.as_mut_ptr(),
            room.len(),
        )
    }
}

pub fn measure(rooms: &Rooms) -> Result<Vec<Table>, String> {
    let mut edges_room = vec![0; rooms.of("ohg_delete_edges")?];
    let mut nodes_room = vec![0; rooms.of("ohg_delete_nodes")?];
    let mut table = Table::begin("Deleting every eighth", &["call", "drawing"], &ORIGINAL);
    for forms in MEASURED.map(forms_of) {
        let version = version(&forms[0]);
        let words = |call: &str| [format!("`{call}`"), described(&forms)];
        let times = delete_edges(&forms, &mut edges_room);
        table.row(version, &words("ohg_delete_edges"), &times);
        let times = delete_nodes(&forms, &mut nodes_room);
        table.row(version, &words("ohg_delete_nodes"), &times);
    }
    Ok(vec![table])
}

/// Every eighth edge goes; there are as many edges as nodes.
pub fn delete_edges(forms: &[Vec<u8>], room: &mut [u8]) -> Vec<f64> {
    let ids = every_eighth(forms);
    let list = list_for(forms, ids.clone());
    let edges: Vec<EdgeId> = ids.map(EdgeId).collect();
    graph_times(
        forms,
        |src, out| ohg_delete_edges(src, &list, out, room),
        |graph, _| graph.delete_edges(&edges),
    )
}

/// Every eighth node goes. The original keeps the map of the nodes to itself.
pub fn delete_nodes(forms: &[Vec<u8>], room: &mut [u8]) -> Vec<f64> {
    let ids = every_eighth(forms);
    let list = list_for(forms, ids.clone());
    let nodes: Vec<NodeId> = ids.map(NodeId).collect();
    let mut map = vec![0; MOST_LIST_BYTES];
    graph_times(
        forms,
        |src, out| ohg_delete_nodes(src, &list, out, &mut map, room),
        |graph, _| graph.delete_nodes(&nodes),
    )
}
