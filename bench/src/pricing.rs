//! The priced parts list: beside the choice alone, which is most of it, and beside a plain pricing above the original's choice. And
//! the report on 1,000 drawings: beside as many single calls, and beside a plain report above the plain pricing.

use crate::choice::{ohg_cycle_breaking_nodes, NODES_1, NODES_2};
use crate::drawings::{several, size, version, FAMILIES};
use crate::sides::{assert_answered, MOST_LIST_BYTES};
use crate::stored::{decode, decode_all};
use crate::table::{mean, Table, PLAIN_PRICING, SINGLE_AND_PLAIN};
use crate::timing::{medians, Side};
use differential::convert::Graph;
use differential::form::{self, Drawing, VERSION_1};
use differential::rng::Rng;
use differential::rooms::Rooms;
use differential::rows::pricing::range::{in_one_slice, plain_report};
use differential::rows::pricing::{priced, Priced, CATALOGUE};
use std::hint::black_box;

mod exported {
    crate::port::functions! {
        pub fn ohg_price(
            src: *const u8,
            src_len: usize,
            out: *mut u8,
            out_len: usize,
            room: *mut u8,
            room_len: usize,
        ) -> u64;
        pub fn ohg_price_range(
            src: *const u8,
            src_len: usize,
            out: *mut u8,
            out_len: usize,
            room: *mut u8,
            room_len: usize,
        ) -> u64;
    }
}

fn ohg_price(src: &[u8], out: &mut [u8], room: &mut [u8]) -> u64 {
    // SAFETY: each part is lent for the call, with its own length.
    unsafe {
        exported::ohg_price(
            src.as_ptr(),
            src.len(),
            out.as_mut_ptr(),
            out.len(),
            room.as_mut_ptr(),
            room.len(),
        )
    }
}

fn ohg_price_range(src: &[u8], out: &mut [u8], room: &mut [u8]) -> u64 {
    // SAFETY: each part is lent for the call, with its own length.
    unsafe {
        exported::ohg_price_range(
            src.as_ptr(),
            src.len(),
            out.as_mut_ptr(),
            out.len(),
            room.as_mut_ptr(),
            room.len(),
        )
    }
}

/// The bytes of a priced parts list, and of a report.
const PRICE_BYTES: usize = 60;
const RANGE_BYTES: usize = 148;

/// How many drawings a range has here, which is the most, and how many nodes each.
const DRAWINGS: usize = 1000;
const NODES_OF_EACH: [usize; 3] = [10, 50, 500];

pub fn measure(rooms: &Rooms) -> Result<Vec<Table>, String> {
    let mut room = vec![0; rooms.of("ohg_price")?];
    let words = &["family", "nodes", "ports", "buffers (mean)"];
    let mut table = Table::begin("`ohg_price`", words, &PLAIN_PRICING);
    let sizes = NODES_1.into_iter().chain(NODES_2);
    for nodes in sizes.clone() {
        for (name, family) in FAMILIES {
            let forms = several(|rng| {
                let drawing = family(rng, nodes);
                of_parts(rng, drawing)
            });
            let buffers = decode_all(&forms);
            let buffers = buffers.iter().map(|graph| list(graph).buffers as usize);
            let words = [
                name.to_string(),
                nodes.to_string(),
                (size(&forms[0]) - nodes).to_string(),
                mean(buffers),
            ];
            table.row(version(&forms[0]), &words, &price(&forms, &mut room));
        }
    }
    for (i, nodes) in sizes.enumerate() {
        let start = i * FAMILIES.len();
        table.mean(&format!("{nodes} nodes"), start..start + FAMILIES.len());
    }
    table.version_means();
    Ok(vec![table, measure_range(rooms)?])
}

/// Ranges of drawings of the six families by turns, and one of drawings that have no bytes, so that little but the pass over the
/// slice is left.
fn measure_range(rooms: &Rooms) -> Result<Table, String> {
    let mut room = vec![0; rooms.of("ohg_price_range")?];
    let words = &["drawings", "nodes of each", "bytes", "priced"];
    let mut table = Table::begin("`ohg_price_range`", words, &SINGLE_AND_PLAIN);
    let mut row = |nodes: &str, forms: Vec<Vec<u8>>| {
        let slice = in_one_slice(&forms);
        let report = plain_report(&slice).expect("it is a range");
        let words = [
            forms.len().to_string(),
            nodes.to_string(),
            slice.len().to_string(),
            report.priced.to_string(),
        ];
        table.row(VERSION_1, &words, &price_range(slice, forms, &mut room));
    };
    for nodes in NODES_OF_EACH {
        let rng = &mut Rng::new(1);
        let families = FAMILIES.into_iter().cycle().take(DRAWINGS);
        let drawings = families.map(|(_, family)| {
            let drawing = family(rng, nodes);
            of_parts(rng, drawing)
        });
        let forms = drawings.map(|drawing| form::write(&drawing)).collect();
        row(&nodes.to_string(), forms);
    }
    row("none, no bytes", vec![vec![]; DRAWINGS]);
    Ok(table)
}

/// The times of one call on the slice, of a call for each of its drawings, whose answers nobody adds up, and of the plain report.
fn price_range(slice: Vec<u8>, forms: Vec<Vec<u8>>, room: &mut [u8]) -> Vec<f64> {
    let plain = |slice: &Vec<u8>| plain_report(slice).expect("it is a range").bytes();
    let mut out = [0; RANGE_BYTES];
    let returned = ohg_price_range(&slice, &mut out, room);
    assert_answered(returned, &out, &plain(&slice));
    let mut single = [0; PRICE_BYTES];
    let mut other_room = room.to_vec();
    let (slices, ranges) = ([slice], [forms]);
    medians(vec![
        Side::new(&slices, |slice| ohg_price_range(slice, &mut out, room)),
        Side::new(&ranges, |forms| {
            for form in forms {
                black_box(ohg_price(form, &mut single, &mut other_room));
            }
        }),
        Side::new(&slices, plain),
    ])
}

/// The drawing with parts for edges, each of a kind by chance among those that have its ports, of which it keeps up to two
/// sources and two targets.
pub fn of_parts(rng: &mut Rng, mut drawing: Drawing) -> Drawing {
    for edge in &mut drawing.edges {
        edge.sources.truncate(2);
        edge.targets.truncate(2);
        let ports = (edge.sources.len(), edge.targets.len());
        let alike = CATALOGUE
            .iter()
            .filter(|kind| (kind.sources, kind.targets) == ports);
        let labels: Vec<u32> = alike.map(|kind| kind.label).collect();
        edge.label = rng.pick(&labels);
    }
    drawing
}

/// The plain parts list of a graph.
fn list(graph: &Graph) -> Priced {
    priced(graph).expect("the parts are in order")
}

pub fn price(forms: &[Vec<u8>], room: &mut [u8]) -> Vec<f64> {
    let stored = |form: &Vec<u8>| list(&decode(form)).bytes();
    let mut out = [0; PRICE_BYTES];
    for form in forms {
        let returned = ohg_price(form, &mut out, room);
        assert_answered(returned, &out, &stored(form));
    }
    let graphs = decode_all(forms);
    let mut chosen = vec![0; MOST_LIST_BYTES];
    let mut other_room = room.to_vec();
    medians(vec![
        Side::new(forms, |form| ohg_price(form, &mut out, room)),
        Side::new(forms, |form| {
            ohg_cycle_breaking_nodes(form, &mut chosen, &mut other_room)
        }),
        Side::new(&graphs, list),
        Side::new(forms, stored),
    ])
}
