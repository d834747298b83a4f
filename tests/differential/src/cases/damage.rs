//! Forms that are refused, and forms about to be.

use super::small::place;
use super::{p7, p8, p8_outgrown, Drawing};
use crate::arguments::bad_ids;
use crate::form::{self, number, put_number, write_as, Refusal};
use crate::form::{Version, MARK, VERSION_1, VERSION_2};
use crate::place;
use crate::rng::Rng;

/// Version fields that are neither version's.
const OTHER_VERSIONS: [u16; 8] = [0, 3, 256, 257, 258, 512, 513, 65_535];

/// All byte strings of up to two bytes.
pub fn short_strings() -> impl Iterator<Item = Vec<u8>> {
    let one = (0..=255).map(|a| vec![a]);
    let two = (0..=u16::MAX).map(|ab| ab.to_le_bytes().to_vec());
    std::iter::once(vec![]).chain(one).chain(two)
}

/// All headers of both versions with each count at 0, 1, about the limits of both, and at the most that 16 bits hold; in
/// version 2 also one past that and the most that 32 bits hold.
pub fn headers() -> impl Iterator<Item = Vec<u8>> {
    let [one, two] = [VERSION_1, VERSION_2].map(|version| {
        let most = version.most;
        [
            most.nodes,
            most.edges,
            most.sources,
            most.targets,
            most.pairs,
        ]
        .map(|most| most as u32)
    });
    let values = |i: usize| {
        let (one, two) = (one[i], two[i]);
        let of_one = vec![0, 1, one - 1, one, one + 1, two, two + 1, 65_535];
        let of_two = vec![
            0,
            1,
            one,
            one + 1,
            two - 1,
            two,
            two + 1,
            65_535,
            65_536,
            u32::MAX,
        ];
        [of_one, of_two]
    };
    let values = [0, 1, 2, 3, 4].map(values);
    let of_both = [VERSION_1, VERSION_2].into_iter().enumerate();
    of_both.flat_map(move |(i, version)| {
        let values = values.each_ref().map(|values| values[i].clone());
        let all: usize = values.iter().map(Vec::len).product();
        (0..all).map(move |k| {
            let mut digits = k;
            let count = |values: &Vec<u32>| values[place(&mut digits, values.len())];
            header(version, values.each_ref().map(count))
        })
    })
}

fn header(version: Version, counts: [u32; 5]) -> Vec<u8> {
    let mut form = MARK.to_vec();
    form.extend_from_slice(&version.number.to_le_bytes());
    for count in counts {
        form.extend_from_slice(&count.to_le_bytes()[..version.width]);
    }
    form
}

/// Forms that are refused by each of 1 to 6 and by 13, in several ways each, made from the form of P8: it has nodes, edges
/// and pairs.
pub fn each_refusal() -> Vec<Vec<u8>> {
    let mut forms = refused_in_1();
    forms.extend(refused_in_2());
    forms.extend(other_forms());
    forms
}

fn changed(form: &[u8], at: usize, width: usize, number: u32) -> Vec<u8> {
    let mut changed = form.to_vec();
    put_number(&mut changed, at, width, number);
    changed
}

fn refused_in_1() -> Vec<Vec<u8>> {
    let p8 = write_as(VERSION_1, &p8());
    let last = p8.len() - 2;
    let mut forms = vec![vec![], p8[..14].to_vec(), p8[..p8.len() - 1].to_vec()];
    forms.extend([p8[..38].to_vec(), [&p8[..], &[0]].concat()]);
    for (at, number) in [
        (0, 0),
        (1, 0),
        (3, 2),
        (5, 2049),
        (7, 2049),
        (9, 1025),
        (11, 1025),
        (13, 1025),
        // The first edge's target count passes the port limit, or is the most that it may be.
        (37, 8192),
        (37, 8191),
        (39, 3),
        (last, 3),
        (last, 65_535),
    ] {
        forms.push(changed(&p8, at, 2, number));
    }
    let versions = OTHER_VERSIONS.map(|version| changed(&p8, 3, 2, version.into()));
    forms.extend(versions);
    forms
}

fn refused_in_2() -> Vec<Vec<u8>> {
    let p8 = form::write(&p8_outgrown());
    let last = p8.len() - 4;
    let mut forms = vec![p8[..p8.len() - 1].to_vec(), [&p8[..], &[0]].concat()];
    // The header cut at each byte, with good counts and with counts above every limit.
    let over = header(VERSION_2, [u32::MAX; 5]);
    forms.extend((14..25).map(|n| p8[..n].to_vec()));
    forms.extend((14..=25).map(|n| over[..n].to_vec()));
    // The first edge's counts cut.
    forms.extend([48, 49, 52].map(|n| p8[..n].to_vec()));
    for (at, number) in [
        (5, 16_385),
        (5, 65_539),
        (9, 16_385),
        (9, 65_538),
        (13, 8193),
        (17, 8193),
        (21, 8193),
        (21, u32::MAX),
        // The first edge has one source, so this sum is 0 in 32 bits; then one above the limit, and the limit.
        (49, u32::MAX),
        (49, 65_536),
        (49, 65_535),
        (45, 65_537),
        (53, 3),
        (53, 65_536),
        (53, u32::MAX),
        (last, 3),
        (last, 65_535),
        (last, 1 << 31),
    ] {
        forms.push(changed(&p8, at, 4, number));
    }
    forms.push(changed(&p8, 3, 2, 1));
    for version in OTHER_VERSIONS {
        let other = changed(&p8, 3, 2, version.into());
        forms.extend([other[..15].to_vec(), other[..25].to_vec(), other]);
    }
    forms
}

/// Version 2 where version 1 holds the graph: the empty one, P8, and P8 with as many global sources as version 1 holds; P8
/// also with a foreign id, which comes first, and cut, which comes before that.
fn other_forms() -> Vec<Vec<u8>> {
    let full = Drawing {
        sources: vec![2; VERSION_1.most.sources],
        ..p8()
    };
    let [p8, full] = [p8(), full].map(|drawing| write_as(VERSION_2, &drawing));
    let foreign = changed(&p8, 53, 4, 3);
    vec![
        header(VERSION_2, [0; 5]),
        foreign[..foreign.len() - 1].to_vec(),
        foreign,
        p8,
        full,
    ]
}

/// P7 broken in every way that a refusal tells a place of, for ids after the edges with a global source, a global target and a
/// pair more; each with the refusal and the place worked out by hand. It is in version 1, and in version 2, which is not its
/// own: 13 would come after all of these.
pub fn with_places() -> Vec<(Vec<u8>, Refusal, usize)> {
    let drawing = Drawing {
        sources: vec![0],
        targets: vec![1],
        pairs: vec![(0, 2)],
        ..p7()
    };
    let [one, two] = [VERSION_1, VERSION_2].map(|version| write_as(version, &drawing));
    let mut forms = broken(&write_as(VERSION_1, &p7()), VERSION_1, [35, 47, 59]);
    forms.extend(broken(&write_as(VERSION_2, &p7()), VERSION_2, [45, 69, 93]));
    forms.extend(broken_after_edges(&one, 2, 59));
    forms.extend(broken_after_edges(&two, 4, 93));
    // Of version 2 the header is not wholly there, and its counts are above every limit.
    let over = header(VERSION_2, [u32::MAX; 5]);
    forms.extend([15, 24].map(|n| (over[..n].to_vec(), Refusal::Length, n)));
    forms
}

/// P7 broken; its first edge, its second one and its end stand at these places.
fn broken(p7: &[u8], version: Version, places: [usize; 3]) -> Vec<(Vec<u8>, Refusal, usize)> {
    let (width, most) = (version.width, version.most);
    let [first, second, end] = places;
    let with = |numbers: &[(usize, usize)]| {
        let mut form = p7.to_vec();
        for &(at, number) in numbers {
            put_number(&mut form, at, width, number as u32);
        }
        form
    };
    let cut = |n: usize| (p7[..n].to_vec(), Refusal::Length, n);
    let over = |numbers: &[(usize, usize)], at: usize| (with(numbers), Refusal::Limit, at);
    let foreign = |ats: &[usize]| {
        let numbers: Vec<_> = ats.iter().map(|&at| (at, 3)).collect();
        (with(&numbers), Refusal::Id, ats[0])
    };
    let header = |i: usize| 5 + i * width;
    let sources = |edge: usize| edge;
    let targets = |edge: usize| edge + width;
    let id = |edge: usize, i: usize| edge + (2 + i) * width;
    let many_sources = with(&[(sources(first), most.ports + 1)]);
    vec![
        (p7[..14].to_vec(), Refusal::Short, 14),
        (vec![], Refusal::Short, 0),
        (changed(p7, 0, 2, 0), Refusal::Mark, 0),
        (changed(p7, 2, 2, 0), Refusal::Mark, 0),
        (changed(p7, 3, 2, 7), Refusal::Version, 3),
        (changed(p7, 3, 2, 0x0101), Refusal::Version, 3),
        over(&[(header(0), most.nodes + 1)], header(0)),
        over(&[(header(1), most.edges + 1)], header(1)),
        over(&[(header(2), most.sources + 1)], header(2)),
        over(&[(header(3), most.targets + 1)], header(3)),
        over(&[(header(4), most.pairs + 1)], header(4)),
        // Two of them: the first is told.
        over(&[(header(3), 65_535), (header(4), 65_535)], header(3)),
        over(&[(sources(first), most.ports + 1)], sources(first)),
        // With the target count alone: the edge has one source, or all that there may be.
        over(&[(targets(first), most.ports)], targets(first)),
        over(&[(sources(first), most.ports)], targets(first)),
        // The first edge has 4 ports.
        over(&[(sources(second), most.ports - 3)], sources(second)),
        over(&[(sources(second), most.ports - 4)], targets(second)),
        over(&[(targets(second), most.ports - 6)], targets(second)),
        // The counts come first, then their sum, then the ids.
        (
            many_sources[..id(first, 0) - 1].to_vec(),
            Refusal::Length,
            id(first, 0) - 1,
        ),
        (
            many_sources[..id(first, 0)].to_vec(),
            Refusal::Limit,
            sources(first),
        ),
        cut(header(5)),
        cut(first - 1),
        cut(first),
        cut(id(first, 0)),
        cut(second - 1),
        cut(end - 1),
        ([p7, &[0]].concat(), Refusal::Length, end),
        ([p7, &[0; 9]].concat(), Refusal::Length, end),
        // The length is looked at before the ids.
        (
            with(&[(id(first, 0), 3)])[..end - 1].to_vec(),
            Refusal::Length,
            end - 1,
        ),
        foreign(&[id(first, 0)]),
        foreign(&[id(second, 3)]),
        foreign(&[id(first, 2), id(second, 0), id(second, 3)]),
    ]
}

/// The form with foreign ids among the four after the edges, which stand at this place.
fn broken_after_edges(form: &[u8], width: usize, at: usize) -> Vec<(Vec<u8>, Refusal, usize)> {
    let foreign = |from: usize| {
        let mut form = form.to_vec();
        for i in from..4 {
            put_number(&mut form, at + i * width, width, 3);
        }
        (form, Refusal::Id, at + from * width)
    };
    (0..4).map(foreign).collect()
}

/// Forms of two edges whose port sum stands about its limit, passed with a source count or with a target count; each
/// whole, and cut in the second edge's counts, after them, in its ids and before the last byte. Counts that are far too
/// high go without their ids.
pub fn port_sums() -> Vec<Vec<u8>> {
    let mut forms = vec![];
    for version in [VERSION_1, VERSION_2] {
        let most = version.most.ports as u32;
        let highest = u32::MAX >> (32 - 8 * version.width);
        let empty_or_few = [(0, 0), (1, 1)];
        let seconds = [
            (0, 0),
            (0, 1),
            (1, 0),
            (most - 2, 0),
            (0, most - 2),
            (1, most - 3),
            (2, most - 3),
            (most - 3, 2),
            (most, 0),
            (highest, highest),
            (highest, 1),
            (1, highest),
            (highest - 1, 1),
            (highest / 2 + 1, highest / 2 + 1),
        ];
        let full = [(most, 0), (0, most)];
        let firsts = empty_or_few.map(|first| (first, &seconds[..]));
        for (first, seconds) in firsts
            .into_iter()
            .chain(full.map(|first| (first, &seconds[..3])))
        {
            for &second in seconds {
                forms.extend(two_edges(version, first, second));
            }
        }
    }
    forms
}

/// One node and two edges with so many sources and targets.
fn two_edges(version: Version, first: (u32, u32), second: (u32, u32)) -> Vec<Vec<u8>> {
    let mut form = header(version, [1, 2, 0, 0, 0]);
    form.extend([0; 12]);
    let mut second_edge = 0;
    for (sources, targets) in [first, second] {
        second_edge = form.len();
        for count in [sources, targets] {
            form.extend_from_slice(&count.to_le_bytes()[..version.width]);
        }
        let ids = (sources as usize + targets as usize).min(version.most.ports);
        form.resize(form.len() + version.width * ids, 0);
    }
    let ids = second_edge + 2 * version.width;
    let cuts = [ids - 1, ids, ids + 1, form.len() - 1];
    let mut forms: Vec<_> = cuts.map(|cut| form[..cut.min(form.len())].to_vec()).into();
    forms.push(form);
    forms
}

// ---- all damage to one form

/// Each byte of the form changed in several ways, each cut of it, some bytes too many, and each of its ids changed.
pub fn damages(form: &[u8]) -> impl Iterator<Item = Vec<u8>> + '_ {
    let flips = (0..form.len()).flat_map(move |at| {
        [0x01, 0x02, 0x10, 0x80, 0xFF].map(|mask| {
            let mut flipped = form.to_vec();
            flipped[at] ^= mask;
            flipped
        })
    });
    let cuts = (0..form.len()).map(move |n| form[..n].to_vec());
    let longer = (1..=5).map(move |n| [form, &vec![0; n]].concat());
    let bytes = flips.chain(cuts).chain(longer);
    bytes.chain(changed_numbers(form))
}

/// Each count or id after the header put to the last node's id, just past it, and the highest there is.
fn changed_numbers(form: &[u8]) -> impl Iterator<Item = Vec<u8>> + '_ {
    let version = form::version(form).expect("the form is good");
    let (start, width) = (version.header_bytes(), version.width);
    let nodes = number(form, 5, width);
    (start..form.len().max(start + width) - width).flat_map(move |at| {
        let ids = [nodes.wrapping_sub(1), nodes, 65_535, 65_536, u32::MAX];
        ids.map(|id| changed(form, at, width, id))
    })
}

// ---- damage by chance

/// One damage to a good form, or random bytes after its header.
pub fn damaged(rng: &mut Rng, mut form: Vec<u8>) -> Vec<u8> {
    let version = form::version(&form).expect("the form is good");
    let at = rng.below(form.len());
    match rng.below(11) {
        0 => form[at] ^= 1 << rng.below(8),
        1 => form[at] = rng.number() as u8,
        2 => form.truncate(rng.pick(&[at, form.len() - 1])),
        3 => {
            let more = rng.between(1, 5);
            form.extend(rng.bytes(more));
        }
        4 => change_header_count(rng, version, &mut form),
        5 => change_id(rng, version, &mut form),
        6 | 7 => change_edge_counts(rng, version, &mut form),
        8 => make_ids_foreign(rng, version, &mut form),
        _ => random_body(rng, version, &mut form),
    }
    form
}

/// Puts a header count one up, one down, or anywhere.
fn change_header_count(rng: &mut Rng, version: Version, form: &mut [u8]) {
    let at = 5 + version.width * rng.below(5);
    let count = number(form, at, version.width);
    let changed = match rng.below(3) {
        0 => count.wrapping_add(1),
        1 => count.wrapping_sub(1),
        _ => rng.number() as u32,
    };
    put_number(form, at, version.width, changed);
}

/// Puts some number after the labels, a count or an id, to the last node, just past it, or the highest there is.
fn change_id(rng: &mut Rng, version: Version, form: &mut [u8]) {
    let width = version.width;
    let [nodes, edges] = [0, 1].map(|i| number(form, 5 + i * width, width));
    let labels = version.header_bytes() + 4 * (nodes as usize + edges as usize);
    let places = form.len().saturating_sub(labels) / width;
    if places > 0 {
        let at = labels + width * rng.below(places);
        let id = rng.pick(&[nodes.wrapping_sub(1), nodes, 65_536, u32::MAX]);
        put_number(form, at, width, id);
    }
}

/// Puts the counts of some edge so that the port sum passes its limit with its sources, with its targets alone, or just not.
fn change_edge_counts(rng: &mut Rng, version: Version, form: &mut [u8]) {
    let (edges, _) = place::edges(form, version);
    if edges.is_empty() {
        return;
    }
    let chosen = rng.below(edges.len());
    let before = edges[..chosen]
        .iter()
        .map(|edge| edge.sources + edge.targets);
    let left = version.most.ports.saturating_sub(before.sum());
    let some = rng.between(0, left);
    let (sources, targets) = rng.pick(&[
        (left + 1, 0),
        (left + 1, some),
        (left, 1),
        (some, left + 1 - some),
        (0, left + 1),
        (some, left - some),
    ]);
    let at = edges[chosen].at;
    put_number(form, at, version.width, sources as u32);
    put_number(form, at + version.width, version.width, targets as u32);
}

/// Puts some ids past the last node.
fn make_ids_foreign(rng: &mut Rng, version: Version, form: &mut [u8]) {
    let (of_edges, of_lists) = place::ids(form, version);
    let places = [of_edges, of_lists].concat();
    let bad = bad_ids(number(form, 5, version.width) as usize, version.width);
    for _ in 0..rng.between(1, 4).min(places.len()) {
        let id = rng.pick(&bad);
        put_number(form, rng.pick(&places), version.width, id as u32);
    }
}

/// Random bytes in place of those after the header; each number is often small, so that a reader goes far.
fn random_body(rng: &mut Rng, version: Version, form: &mut [u8]) {
    let small = rng.between(1, 4);
    for number in form[version.header_bytes()..].chunks_mut(version.width) {
        let value = match rng.below(40) {
            0 => rng.number() as u32,
            _ => rng.below(small) as u32,
        };
        number.copy_from_slice(&value.to_le_bytes()[..number.len()]);
    }
}
