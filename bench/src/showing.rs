//! The search for a loop. The original has none, so what stands beside it is a plain walk: what is loose is taken away, and from
//! each vertex of the rest the lowest is noted that it leads to.

use crate::choice::measure_families;
use crate::sides::answered;
use crate::stored::{decode, decode_all};
use crate::table::{mean, Table, PLAIN_WALK};
use crate::timing::{medians, Side};
use differential::convert::Graph;
use differential::form::{id_bytes, width, VERSION_2};
use differential::rooms::Rooms;
use differential::rows::choice::showing::{walked, Shown};

mod exported {
    crate::port::functions! {
        pub fn ohg_find_loop(
            src: *const u8,
            src_len: usize,
            list: *mut u8,
            list_len: usize,
            room: *mut u8,
            room_len: usize,
        ) -> u64;
    }
}

fn ohg_find_loop(src: &[u8], list: &mut [u8], room: &mut [u8]) -> u64 {
    // SAFETY: each part is lent for the call, with its own length.
    unsafe {
        exported::ohg_find_loop(
            src.as_ptr(),
            src.len(),
            list.as_mut_ptr(),
            list.len(),
            room.as_mut_ptr(),
            room.len(),
        )
    }
}

/// The longest loop.
const MOST_LOOP_BYTES: usize = VERSION_2.width * (VERSION_2.most.nodes + VERSION_2.most.edges);

pub fn measure(rooms: &Rooms) -> Result<Vec<Table>, String> {
    let mut room = vec![0; rooms.of("ohg_find_loop")?];
    let words = &["family", "nodes", "ports", "vertices and steps (means)"];
    let mut table = Table::begin("`ohg_find_loop`", words, &PLAIN_WALK);
    let answers = |graphs: &[Graph]| {
        let shown: Vec<Shown> = graphs.iter().map(walked).collect();
        let vertices = mean(shown.iter().map(|shown| shown.list.len()));
        format!(
            "{vertices}, {}",
            mean(shown.iter().map(|shown| shown.steps))
        )
    };
    measure_families(&mut table, answers, |forms| find_loop(forms, &mut room));
    Ok(vec![table])
}

/// The loop as bytes, from a stored form.
fn plain(form: &[u8]) -> Vec<u8> {
    id_bytes(walked(&decode(form)).list, width(form))
}

pub fn find_loop(forms: &[Vec<u8>], room: &mut [u8]) -> Vec<f64> {
    let mut list = vec![0; MOST_LOOP_BYTES];
    for form in forms {
        let due = plain(form);
        let returned = ohg_find_loop(form, &mut list, room);
        assert_eq!(answered(returned), Some(due.len() / width(form)));
        assert_eq!(returned >> 32, walked(&decode(form)).steps as u64);
        assert!(list[..due.len()] == due, "the loops agree");
    }
    let graphs = decode_all(forms);
    medians(vec![
        Side::new(forms, |form| ohg_find_loop(form, &mut list, room)),
        Side::new(&graphs, walked),
        Side::new(forms, |form| plain(form)),
    ])
}
