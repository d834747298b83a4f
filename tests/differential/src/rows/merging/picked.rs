//! Arguments picked by hand for merging: classes in every order of their pairs, labels that differ, and what goes back to
//! version 1.

use crate::call::Arguments;
use crate::cases::{joined_by, labelled_apart, p8, p8_outgrown, p9, plain};
use crate::form::{self, put_number, Drawing, VERSION_1, VERSION_2};

pub fn quotient() -> Vec<Arguments> {
    let mut forms: Vec<Vec<u8>> = by_hand().iter().map(form::write).collect();
    forms.extend(outgrown().iter().map(form::write));
    // 13 before 11, and 6 before both; the last id is that of a pair.
    let apart = labelled_apart(p9());
    for version in [VERSION_1, VERSION_2] {
        let mut form = form::write_as(version, &apart);
        forms.push(form.clone());
        let last = form.len() - version.width;
        put_number(&mut form, last, version.width, 2);
        forms.push(form);
    }
    let with = |form: &Vec<u8>| Arguments::new(&[], &[form]);
    forms.iter().map(with).collect()
}

/// No pairs; chains up and down, and joined last in their middle; two classes across each other, the later one first; a
/// node with itself; a pair again, and the other way round; a ring. Labels that differ between classes, and within one: next
/// to each other, at a chain's ends, and by one bit.
fn by_hand() -> Vec<Drawing> {
    vec![
        joined_by(&[5, 6, 5], &[]),
        joined_by(&[5; 4], &[(0, 1), (1, 2), (2, 3)]),
        joined_by(&[5; 4], &[(3, 2), (2, 1), (1, 0)]),
        joined_by(&[5; 4], &[(3, 2), (0, 1), (2, 1)]),
        joined_by(&[5, 6, 5, 6], &[(3, 1), (2, 0)]),
        joined_by(&[5, 6, 6, 5], &[(1, 2), (0, 3)]),
        joined_by(&[6, 5, 5], &[(2, 1)]),
        joined_by(&[5, 6], &[(1, 1), (0, 0)]),
        joined_by(&[5, 5, 6], &[(0, 1), (0, 1), (1, 0)]),
        joined_by(&[5; 3], &[(0, 1), (1, 2), (2, 0)]),
        joined_by(&[5, 5, 6], &[(0, 1), (1, 2)]),
        joined_by(&[6, 5, 5], &[(2, 1), (1, 0)]),
        joined_by(&[5, 6, 5], &[(0, 1), (1, 2)]),
        joined_by(&[5, 5 | 1 << 31], &[(0, 1)]),
        joined_by(&[5 | 1 << 8, 5], &[(1, 0)]),
        labelled_apart(p8()),
    ]
}

/// Version 2, because of one kind. One node too many goes, in the first class or in the last, or one of two; pairs go, also
/// where nothing is joined; global sources stay. And labels that differ.
fn outgrown() -> Vec<Drawing> {
    let most = VERSION_1.most;
    let nodes = most.nodes as u32;
    let of = |count: usize, pairs: &[(u32, u32)]| Drawing {
        pairs: pairs.to_vec(),
        ..plain(count, &[])
    };
    vec![
        of(most.nodes + 1, &[]),
        of(most.nodes + 1, &[(nodes, 0)]),
        of(most.nodes + 1, &[(nodes - 1, nodes)]),
        of(most.nodes + 2, &[(nodes + 1, 1)]),
        of(most.nodes + 2, &[(nodes + 1, 1), (nodes, 1)]),
        of(1, &vec![(0, 0); most.pairs + 1]),
        of(2, &vec![(1, 0); most.pairs + 1]),
        p8_outgrown(),
        labelled_apart(p8_outgrown()),
        labelled_apart(of(2, &vec![(1, 0); most.pairs + 1])),
    ]
}
