//! The sections of a stored form, and the form without some of their entries.

use crate::form;
use std::ops::Range;

/// The sections of a form as far as it goes; it may be damaged.
pub struct Sections {
    /// The bytes of an id.
    width: usize,
    nodes: Section,
    edges: Section,
    /// The lists of ids: of each edge, the global ones, and the pairs.
    lists: Vec<Section>,
}

/// Entries of a form, and where the number that counts them stands.
struct Section {
    count_at: usize,
    /// The bytes of that number.
    width: usize,
    /// The bytes of each entry; an edge's lie in two places.
    entries: Vec<Vec<Range<usize>>>,
}

/// All of `n` entries, then each half of them, each quarter, down to each one.
pub fn parts(n: usize) -> impl Iterator<Item = Range<usize>> {
    std::iter::successors(Some(n), |size| Some(size / 2))
        .take_while(|&size| size > 0)
        .flat_map(move |size| {
            (0..n)
                .step_by(size)
                .map(move |start| start..n.min(start + size))
        })
}

/// An id after some have gone: those above them count on from where they stood.
pub fn shifted(id: usize, gone: &Range<usize>) -> usize {
    id - id.saturating_sub(gone.start).min(gone.len())
}

impl Sections {
    pub fn of(form: &[u8]) -> Option<Self> {
        let version = form::version(form).ok()?;
        let width = version.width;
        let count_at = |i: usize| 5 + i * width;
        let mut at = version.header_bytes();
        let section = |at: &mut usize, count_at: usize, entry: usize| {
            Section::of(form, at, count_at, width, entry)
        };
        let nodes = section(&mut at, count_at(0), 4);
        let mut edges = section(&mut at, count_at(1), 4);
        let mut lists = vec![];
        for edge in &mut edges.entries {
            let counts = at;
            if form.len() < counts + 2 * width {
                break;
            }
            at += 2 * width;
            lists.push(section(&mut at, counts, width));
            lists.push(section(&mut at, counts + width, width));
            edge.push(counts..at);
        }
        lists.push(section(&mut at, count_at(2), width));
        lists.push(section(&mut at, count_at(3), width));
        lists.push(section(&mut at, count_at(4), 2 * width));
        Some(Sections {
            width,
            nodes,
            edges,
            lists,
        })
    }

    /// The form without some of its edges, and without some of its nodes, and which they were.
    pub fn fewer<'a>(
        &'a self,
        form: &'a [u8],
    ) -> impl Iterator<Item = (Vec<u8>, Range<usize>)> + 'a {
        let edges = parts(self.edges.entries.len())
            .map(|gone| (self.edges.without(form, gone.clone()), gone));
        let nodes = parts(self.nodes.entries.len())
            .map(|gone| (self.without_nodes(form, gone.clone()), gone));
        edges.chain(nodes)
    }

    /// The form without some entries of one of its lists.
    pub fn shorter<'a>(&'a self, form: &'a [u8]) -> impl Iterator<Item = Vec<u8>> + 'a {
        self.lists.iter().flat_map(move |list| {
            parts(list.entries.len()).map(move |gone| list.without(form, gone))
        })
    }

    fn without_nodes(&self, form: &[u8], gone: Range<usize>) -> Vec<u8> {
        let mut smaller = self.nodes.without(form, gone.clone());
        let moved = form.len() - smaller.len();
        let ids = self.lists.iter().flat_map(|list| list.entries.concat());
        for at in ids.flat_map(|entry| entry.step_by(self.width)) {
            let id = shifted(form::number(form, at, self.width) as usize, &gone);
            form::put_number(&mut smaller, at - moved, self.width, id as u32);
        }
        smaller
    }
}

impl Section {
    /// As many of the counted entries of so many bytes as there are bytes for, from `at` on.
    fn of(form: &[u8], at: &mut usize, count_at: usize, width: usize, bytes: usize) -> Section {
        let counted = form::number(form, count_at, width) as usize;
        let count = counted.min((form.len() - *at) / bytes);
        let start = *at;
        *at += count * bytes;
        let entry = |i: usize| std::iter::once(start + i * bytes..start + (i + 1) * bytes);
        Section {
            count_at,
            width,
            entries: (0..count).map(|i| entry(i).collect()).collect(),
        }
    }

    fn without(&self, form: &[u8], part: Range<usize>) -> Vec<u8> {
        let mut smaller = form.to_vec();
        let count = form::number(form, self.count_at, self.width);
        let left = count.saturating_sub(part.len() as u32);
        form::put_number(&mut smaller, self.count_at, self.width, left);
        let mut gone = self.entries[part].concat();
        gone.sort_by_key(|range| range.start);
        for range in gone.into_iter().rev() {
            smaller.drain(range);
        }
        smaller
    }
}
