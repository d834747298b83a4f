//! The once-fed check.

use crate::choice::{NODES_1, NODES_2};
use crate::drawings::{several, version};
use crate::sides::check_times;
use crate::stored::decode_all;
use crate::table::{yes_or_no, Table, PLAIN_CHECK};
use differential::rooms::Rooms;
use differential::rows::choice::families::{dense, ring, Family};
use differential::rows::once_fed::is_once_fed;

mod exported {
    crate::port::functions! {
        pub fn ohg_once_fed(src: *const u8, src_len: usize, room: *mut u8, room_len: usize) -> u64;
    }
}

fn ohg_once_fed(src: &[u8], room: &mut [u8]) -> u64 {
    // SAFETY: both parts are lent for the call, with their own lengths.
    unsafe { exported::ohg_once_fed(src.as_ptr(), src.len(), room.as_mut_ptr(), room.len()) }
}

pub fn measure(rooms: &Rooms) -> Result<Vec<Table>, String> {
    let mut room = vec![0; rooms.of("ohg_once_fed")?];
    let words = &["family", "nodes", "answer"];
    let mut table = Table::begin("`ohg_once_fed`", words, &PLAIN_CHECK);
    let families: [(&str, Family); 2] = [("one long ring", ring), ("random dense", dense)];
    for (name, family) in families {
        for nodes in NODES_1.into_iter().chain(NODES_2) {
            let forms = several(|rng| family(rng, nodes));
            let answers = yes_or_no(decode_all(&forms).iter().map(is_once_fed));
            let words = [name.to_string(), nodes.to_string(), answers];
            table.row(version(&forms[0]), &words, &once_fed(&forms, &mut room));
        }
    }
    Ok(vec![table])
}

/// Beside a plain check, which makes no use of a no that it could find early.
pub fn once_fed(forms: &[Vec<u8>], room: &mut [u8]) -> Vec<f64> {
    check_times(forms, |form| ohg_once_fed(form, room), is_once_fed)
}
