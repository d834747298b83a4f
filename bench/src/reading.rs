//! Reading, and reading and writing.

use crate::drawings::{described, forms_of, version, MEASURED};
use crate::sides::{assert_answered, Times};
use crate::table::Table;
use crate::timing::{medians, Side};
use differential::form::{self, VERSION_2};

mod exported {
    crate::port::functions! {
        pub fn ohg_read(src: *const u8, src_len: usize, sizes: *mut u8, sizes_len: usize) -> u64;
        pub fn ohg_rewrite(src: *const u8, src_len: usize, out: *mut u8, out_len: usize) -> u64;
    }
}

// SAFETY, of both: each part is lent for the call, with its own length.

fn ohg_read(src: &[u8], sizes: &mut [u8]) -> u64 {
    unsafe { exported::ohg_read(src.as_ptr(), src.len(), sizes.as_mut_ptr(), sizes.len()) }
}

fn ohg_rewrite(src: &[u8], out: &mut [u8]) -> u64 {
    unsafe { exported::ohg_rewrite(src.as_ptr(), src.len(), out.as_mut_ptr(), out.len()) }
}

pub fn measure() -> Vec<Table> {
    let drawings = MEASURED.map(forms_of);
    let row = |table: &mut Table, forms: &[Vec<u8>], times: Times| {
        table.row(version(&forms[0]), &[described(forms)], &times(forms));
    };
    let mut reading = Table::begin("`ohg_read`", &["drawing"], &["decoding", "sizes alone"]);
    for forms in &drawings {
        row(&mut reading, forms, read);
    }
    let mut rewriting = Table::begin("`ohg_rewrite`", &["drawing"], &["decoding and encoding"]);
    for forms in &drawings {
        row(&mut rewriting, forms, rewrite);
    }
    vec![reading, rewriting]
}

/// Beside a reader that makes the drawing, and one that only looks, as the port's does.
pub fn read(forms: &[Vec<u8>]) -> Vec<f64> {
    let mut answer = [0; 24];
    for form in forms {
        let due = form::sizes(form).expect("it is a good form").bytes();
        assert_answered(ohg_read(form, &mut answer), &answer, &due);
    }
    medians(vec![
        Side::new(forms, |form| ohg_read(form, &mut answer)),
        Side::new(forms, |form| form::read(form)),
        Side::new(forms, |form| form::sizes(form)),
    ])
}

pub fn rewrite(forms: &[Vec<u8>]) -> Vec<f64> {
    let mut out = vec![0; VERSION_2.most_bytes()];
    for form in forms {
        assert_answered(ohg_rewrite(form, &mut out), &out, form);
    }
    medians(vec![
        Side::new(forms, |form| ohg_rewrite(form, &mut out)),
        Side::new(forms, |form| {
            form::read(form).map(|drawing| form::write(&drawing))
        }),
    ])
}
