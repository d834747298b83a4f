//! Where a refusal says that something is broken, by T-06 of document 02. The original has no places, so they are found here
//! apart from the port: by which number a form is refused is known, and the form is gone through anew for the place.

use crate::form::{self, number, Refusal, Version};
use std::iter::successors;

/// A refusal with the place that it carries.
#[derive(Debug, Clone, Copy, PartialEq, Eq)]
pub struct Refused {
    pub refusal: Refusal,
    pub place: u32,
    /// What is told by it.
    pub what: &'static str,
    /// Where steps are refused, the index of the step.
    pub step: u32,
}

/// The highest index of a step that is told.
const MOST_STEP: usize = 16_777_215;

/// All that is told, with the refusal's number.
pub const TOLD: [(u8, &str); 14] = [
    (1, SHORT),
    (2, MARK),
    (3, VERSION),
    (4, HEADER_COUNT),
    (4, SOURCE_COUNT),
    (4, TARGET_COUNT),
    (5, SHORT),
    (5, LONG),
    (6, EDGE_ID),
    (6, LIST_ID),
    (13, NOTHING),
    (7, SINGLE_ID),
    (7, BROKEN_END),
    (7, ENTRY),
];

pub const SHORT: &str = "the length";
const MARK: &str = "the mark";
const VERSION: &str = "the version";
const HEADER_COUNT: &str = "a header count";
const SOURCE_COUNT: &str = "a source count";
const TARGET_COUNT: &str = "a target count";
const LONG: &str = "the first byte too many";
const EDGE_ID: &str = "an edge's id";
const LIST_ID: &str = "an id after the edges";
pub const SINGLE_ID: &str = "an id given singly";
const BROKEN_END: &str = "a broken end";
const ENTRY: &str = "an entry";
const NOTHING: &str = "nothing";

type Place = (usize, &'static str);

impl Refusal {
    fn at(self, (place, what): Place) -> Refused {
        Refused {
            refusal: self,
            place: u32::try_from(place).unwrap_or(u32::MAX),
            what,
            step: 0,
        }
    }

    /// The refusal of a call, where it tells no place.
    pub fn nowhere(self) -> Refused {
        self.at((0, NOTHING))
    }
}

impl Refused {
    /// The refusal at a step of this index.
    pub fn at_step(self, index: usize) -> Refused {
        Refused {
            step: index.min(MOST_STEP) as u32,
            ..self
        }
    }
}

/// A form's refusal, of which the number is known.
pub fn in_form(form: &[u8], refusal: Refusal) -> Refused {
    refusal.at(match refusal {
        Refusal::Short => (form.len(), SHORT),
        Refusal::Mark => (0, MARK),
        Refusal::Version => (3, VERSION),
        Refusal::Limit => broken_count(form),
        Refusal::Length => broken_length(form),
        Refusal::Id => foreign_id(form),
        _ => (0, NOTHING),
    })
}

/// 7 for an id given singly that is not below its count.
pub fn in_id(id: u32, count: usize) -> Result<(), Refused> {
    if (id as usize) < count {
        Ok(())
    } else {
        Err(Refusal::List.at((0, SINGLE_ID)))
    }
}

/// 7 for a list of ids of which one is not below its count.
pub fn in_ids(ids: &[u32], count: usize) -> Result<(), Refused> {
    match ids.iter().position(|&id| id as usize >= count) {
        Some(i) => Err(Refusal::List.at((i, ENTRY))),
        None => Ok(()),
    }
}

/// 7 for a list of whole entries of `width` bytes with a broken one after them, or with an id not below its count; labels
/// have no count.
pub fn in_list(list: &[u8], width: usize, count: Option<usize>) -> Result<(), Refused> {
    let entries = list.len() / width;
    if list.len() != entries * width {
        return Err(Refusal::List.at((entries, BROKEN_END)));
    }
    let bad =
        |i: &usize| count.is_some_and(|count| number(list, i * width, width) as usize >= count);
    match (0..entries).find(bad) {
        Some(i) => Err(Refusal::List.at((i, ENTRY))),
        None => Ok(()),
    }
}

/// An edge as it is stored: where its source count begins, and its two counts.
pub struct Stored {
    pub at: usize,
    pub sources: usize,
    pub targets: usize,
}

impl Stored {
    /// The edge that begins at a place, where its counts are wholly there.
    fn of(form: &[u8], width: usize, at: usize) -> Option<Stored> {
        let counts = form.get(at..at + 2 * width)?;
        let [sources, targets] = [0, width].map(|at| number(counts, at, width) as usize);
        Some(Stored {
            at,
            sources,
            targets,
        })
    }

    fn ids(&self, width: usize) -> usize {
        self.at + 2 * width
    }

    fn end(&self, width: usize) -> usize {
        self.ids(width) + width * (self.sources + self.targets)
    }
}

/// The header's count of some kind, in the header's order.
fn count(form: &[u8], version: Version, i: usize) -> usize {
    number(form, 5 + i * version.width, version.width) as usize
}

/// The stored edges, up to one whose counts are not wholly there, and where they begin.
pub fn edges(form: &[u8], version: Version) -> (Vec<Stored>, usize) {
    let width = version.width;
    let labels = count(form, version, 0) + count(form, version, 1);
    let start = version.header_bytes() + 4 * labels;
    let first = Stored::of(form, width, start);
    let next = |edge: &Stored| Stored::of(form, width, edge.end(width));
    let edges = successors(first, next).take(count(form, version, 1));
    (edges.collect(), start)
}

/// 4: the first count of the header above its limit, else the first count of an edge that the running sum passes with.
fn broken_count(form: &[u8]) -> Place {
    let version = form::version(form).expect("a count was read");
    let (width, most) = (version.width, version.most);
    let limits = [
        most.nodes,
        most.edges,
        most.sources,
        most.targets,
        most.pairs,
    ];
    if let Some(i) = (0..5).find(|&i| count(form, version, i) > limits[i]) {
        return (5 + i * width, HEADER_COUNT);
    }
    let mut sum = 0;
    for edge in edges(form, version).0 {
        let with_sources = sum + edge.sources;
        sum = with_sources + edge.targets;
        if with_sources > most.ports {
            return (edge.at, SOURCE_COUNT);
        }
        if sum > most.ports {
            return (edge.at + width, TARGET_COUNT);
        }
    }
    unreachable!("some count is above its limit")
}

/// 5: the length, where something is not all there, else where the form that its counts call for ends.
fn broken_length(form: &[u8]) -> Place {
    let short = (form.len(), SHORT);
    let Ok(version) = form::version(form) else {
        return short;
    };
    let count = |i: usize| count(form, version, i);
    let (edges, start) = edges(form, version);
    if edges.len() < count(1) {
        return short;
    }
    let lists = edges.last().map_or(start, |edge| edge.end(version.width));
    let end = lists + version.width * (count(2) + count(3) + 2 * count(4));
    if form.len() < end {
        short
    } else {
        (end, LONG)
    }
}

/// 6: the first id not below the node count, in stored order.
fn foreign_id(form: &[u8]) -> Place {
    let version = form::version(form).expect("ids were read");
    let nodes = count(form, version, 0);
    let (of_edges, of_lists) = ids(form, version);
    let foreign = |at: &usize| number(form, *at, version.width) as usize >= nodes;
    let in_edges = of_edges.into_iter().find(foreign).map(|at| (at, EDGE_ID));
    let in_lists = || of_lists.into_iter().find(foreign).map(|at| (at, LIST_ID));
    in_edges.or_else(in_lists).expect("some id is foreign")
}

/// Where the ids that are wholly there begin, in stored order: those of the edges, and those after them.
pub fn ids(form: &[u8], version: Version) -> (Vec<usize>, Vec<usize>) {
    let width = version.width;
    let (edges, start) = edges(form, version);
    let lists = edges.last().map_or(start, |edge| edge.end(width));
    let whole = |at: &usize| at + width <= form.len();
    let of_edges = edges
        .iter()
        .flat_map(|edge| (edge.ids(width)..edge.end(width)).step_by(width));
    (
        of_edges.take_while(whole).collect(),
        (lists..form.len())
            .step_by(width)
            .take_while(whole)
            .collect(),
    )
}

#[cfg(test)]
mod tests {
    use super::*;
    use crate::cases::damage::with_places;
    use crate::form::id_bytes;

    #[test]
    fn the_places_worked_by_hand() {
        for (form, refusal, place) in with_places() {
            assert_eq!(form::sizes(&form), Err(refusal), "{form:?}");
            let told = in_form(&form, refusal).place;
            assert_eq!(told as usize, place, "{refusal:?} of {form:?}");
        }
    }

    /// A broken end comes before bad ids, of which the first is told.
    #[test]
    fn places_in_lists() {
        let place = |list: &[u8], width: usize, count: Option<usize>| {
            let refused = in_list(list, width, count).err();
            refused.map(|refused| refused.place)
        };
        for width in [2, 4] {
            let list = id_bytes([0, 2, 3, 65_535, 3], width);
            assert_eq!(place(&list[..2 * width], width, Some(3)), None);
            assert_eq!(place(&list, width, Some(3)), Some(2));
            assert_eq!(place(&list, width, Some(0)), Some(0));
            assert_eq!(place(&list[..5 * width - 1], width, Some(3)), Some(4));
            assert_eq!(place(&list[..1], width, Some(3)), Some(0));
        }
        assert_eq!(place(&[255; 8], 4, None), None);
        assert_eq!(place(&[255; 7], 4, None), Some(1));
        assert_eq!(in_id(2, 3), Ok(()));
        assert_eq!(in_id(3, 3).map_err(|refused| refused.place), Err(0));
    }

    #[test]
    fn a_place_past_32_bits_is_the_highest() {
        let refused = Refusal::Short.at((1 << 32, SHORT));
        assert_eq!(refused.place, u32::MAX);
    }
}
