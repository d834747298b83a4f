//! Why each node is chosen or freed. The original does not say, so what stands beside it is the choice's own call, whose engine it goes
//! through, and plain Rust: the stages, and at each what paths lead from the core and to it.

use crate::choice::{chosen, measure_families, ohg_cycle_breaking_nodes};
use crate::port;
use crate::sides::{answered, MOST_LIST_BYTES};
use crate::stored::{decode, decode_all};
use crate::table::{mean, print_rounds, Table, CHOICE_AND_PLAIN};
use crate::timing::{medians, Side};
use differential::convert::Graph;
use differential::form::VERSION_2;
use differential::rooms::Rooms;
use differential::rows::choice::reasons::{by_stages, entries, ENTRY};

mod exported {
    crate::port::functions! {
        pub fn ohg_reasons(
            src: *const u8,
            src_len: usize,
            out: *mut u8,
            out_len: usize,
            room: *mut u8,
            room_len: usize,
        ) -> u64;
    }
}

fn ohg_reasons(src: &[u8], out: &mut [u8], room: &mut [u8]) -> u64 {
    // SAFETY: each part is lent for the call, with its own length.
    unsafe {
        exported::ohg_reasons(
            src.as_ptr(),
            src.len(),
            out.as_mut_ptr(),
            out.len(),
            room.as_mut_ptr(),
            room.len(),
        )
    }
}

const MOST_REASONS_BYTES: usize = ENTRY * VERSION_2.most.nodes;

/// This table alone.
pub fn measure_alone() -> Result<(), String> {
    let rooms = Rooms::read()?;
    port::open_measured()?;
    print_rounds();
    measure(&rooms)?;
    Ok(())
}

pub fn measure(rooms: &Rooms) -> Result<Vec<Table>, String> {
    let mut room = vec![0; rooms.of("ohg_reasons")?];
    let mut choice_room = vec![0; rooms.of("ohg_cycle_breaking_nodes")?];
    let words = &["family", "nodes", "ports", "chosen (mean)"];
    let mut table = Table::begin("`ohg_reasons`", words, &CHOICE_AND_PLAIN);
    let number = |graphs: &[Graph]| mean(graphs.iter().map(|graph| chosen(graph).len()));
    measure_families(&mut table, number, |forms| {
        beside_choice(forms, &mut room, &mut choice_room)
    });
    Ok(vec![table])
}

/// The answer from a stored form.
fn plain(form: &[u8]) -> Vec<u8> {
    entries(&by_stages(&decode(form)))
}

fn assert_reasons(forms: &[Vec<u8>], out: &mut [u8], room: &mut [u8]) {
    for form in forms {
        let due = plain(form);
        let returned = ohg_reasons(form, out, room);
        assert_eq!(answered(returned), Some(due.len() / ENTRY));
        assert!(out[..due.len()] == due, "the reasons agree");
    }
}

fn beside_choice(forms: &[Vec<u8>], room: &mut [u8], choice_room: &mut [u8]) -> Vec<f64> {
    let mut out = vec![0; MOST_REASONS_BYTES];
    let mut list = vec![0; MOST_LIST_BYTES];
    assert_reasons(forms, &mut out, room);
    let graphs = decode_all(forms);
    medians(vec![
        Side::new(forms, |form| ohg_reasons(form, &mut out, room)),
        Side::new(forms, |form| {
            ohg_cycle_breaking_nodes(form, &mut list, choice_room)
        }),
        Side::new(&graphs, by_stages),
        Side::new(forms, |form| plain(form)),
    ])
}

/// The times of the call, and of plain Rust from the form.
pub fn reasons(forms: &[Vec<u8>], room: &mut [u8]) -> Vec<f64> {
    let mut out = vec![0; MOST_REASONS_BYTES];
    assert_reasons(forms, &mut out, room);
    medians(vec![
        Side::new(forms, |form| ohg_reasons(form, &mut out, room)),
        Side::new(forms, |form| plain(form)),
    ])
}
