//! The stored form of a drawing in its two versions, read and written apart from the port, in plain Rust.
//!
//! This is the text that the port is held to for refusals 1 to 6 and 13, and what its speed is measured beside.

pub const MARK: [u8; 3] = *b"OHG";

/// A version of the form.
#[derive(Debug, Clone, Copy, PartialEq, Eq)]
pub struct Version {
    /// What the header says.
    pub number: u16,
    /// The bytes of a count and of an id.
    pub width: usize,
    /// The largest sizes.
    pub most: Sizes,
}

pub const VERSION_1: Version = Version {
    number: 1,
    width: 2,
    most: Sizes {
        nodes: 2048,
        edges: 2048,
        ports: 8192,
        sources: 1024,
        targets: 1024,
        pairs: 1024,
    },
};

pub const VERSION_2: Version = Version {
    number: 2,
    width: 4,
    most: Sizes {
        nodes: 16_384,
        edges: 16_384,
        ports: 65_536,
        sources: 8192,
        targets: 8192,
        pairs: 8192,
    },
};

/// The edge label that says spider.
pub const SPIDER: u32 = u32::MAX;

/// A refusal, as its number.
#[derive(Debug, Clone, Copy, PartialEq, Eq)]
pub enum Refusal {
    /// Fewer bytes than the shortest header.
    Short = 1,
    /// The first three bytes are not `OHG`.
    Mark = 2,
    /// Neither version.
    Version = 3,
    /// A header count above its limit, or a port sum above its own.
    Limit = 4,
    /// The length differs from what the counts call for, or the version's header is not wholly there.
    Length = 5,
    /// A stored node id not below the node count.
    Id = 6,
    /// Version 2, and the graph fits version 1. It is given after 6.
    OtherForm = 13,
    /// A step in the call has an unknown kind or is cut short.
    Step = 12,
    /// A list in the call has a broken entry at its end, or an id not below its count.
    List = 7,
    /// A pending pair, where the operation needs none.
    Pair = 8,
    /// Two nodes of one class have different labels.
    Labels = 11,
    /// An edge's label is outside of the catalogue of parts, and it is no spider.
    UnknownKind = 14,
    /// An edge has other numbers of sources and targets than its kind.
    OtherPorts = 15,
    /// Some directed cycle has only kept nodes.
    KeptCycle = 16,
    /// A range of drawings with a length that is cut short or runs past the input, or with more than 1,000 drawings.
    NoSlice = 17,
    /// The result would pass a limit of version 2.
    Result = 9,
    /// An answer buffer is shorter than the answer, or the work room shorter than the call's.
    Room = 10,
}

/// A graph as the form stores it.
#[derive(Debug, Clone, Default, PartialEq, Eq)]
pub struct Drawing {
    pub labels: Vec<u32>,
    pub edges: Vec<Edge>,
    pub sources: Vec<u32>,
    pub targets: Vec<u32>,
    pub pairs: Vec<(u32, u32)>,
}

#[derive(Debug, Clone, PartialEq, Eq)]
pub struct Edge {
    pub label: u32,
    pub sources: Vec<u32>,
    pub targets: Vec<u32>,
}

/// How large a drawing is.
#[derive(Debug, Clone, Copy, Default, PartialEq, Eq)]
pub struct Sizes {
    pub nodes: usize,
    pub edges: usize,
    pub ports: usize,
    pub sources: usize,
    pub targets: usize,
    pub pairs: usize,
}

/// Reads a whole drawing. Nothing is allocated before the counts are known to be within the limits.
pub fn read(bytes: &[u8]) -> Result<Drawing, Refusal> {
    match version(bytes)?.width {
        2 => read_by::<2>(bytes),
        _ => read_by::<4>(bytes),
    }
}

/// Reads a drawing's sizes: the same refusals as [`read`], and nothing is kept or allocated.
pub fn sizes(bytes: &[u8]) -> Result<Sizes, Refusal> {
    match version(bytes)?.width {
        2 => sizes_by::<2>(bytes),
        _ => sizes_by::<4>(bytes),
    }
}

/// The bytes of an id in the lists and maps of a call on these bytes, which may be no form.
pub fn width(bytes: &[u8]) -> usize {
    version(bytes).unwrap_or(VERSION_1).width
}

/// The stored form of a drawing: in version 1 where it fits, else in version 2.
pub fn write(drawing: &Drawing) -> Vec<u8> {
    write_as(drawing.sizes().version(), drawing)
}

/// A drawing in one of the versions, whatever its sizes: what is refused of that is the reader's affair.
pub fn write_as(version: Version, drawing: &Drawing) -> Vec<u8> {
    match version.width {
        2 => write_by::<2>(drawing),
        _ => write_by::<4>(drawing),
    }
}

impl Version {
    /// The version whose counts and ids have so many bytes, 2 or 4.
    const fn of_width(width: usize) -> Version {
        match width {
            2 => VERSION_1,
            _ => VERSION_2,
        }
    }

    pub fn header_bytes(&self) -> usize {
        5 + 5 * self.width
    }

    /// The length of the form that these sizes call for.
    pub fn form_bytes(&self, sizes: &Sizes) -> usize {
        let labels = 4 * (sizes.nodes + sizes.edges);
        let edges = self.width * (2 * sizes.edges + sizes.ports);
        self.header_bytes() + labels + edges + self.list_bytes(sizes)
    }

    /// The bytes after the last edge.
    fn list_bytes(&self, sizes: &Sizes) -> usize {
        self.width * (sizes.sources + sizes.targets + 2 * sizes.pairs)
    }

    /// The length of the longest form.
    pub fn most_bytes(&self) -> usize {
        self.form_bytes(&self.most)
    }
}

impl Drawing {
    pub fn sizes(&self) -> Sizes {
        Sizes {
            nodes: self.labels.len(),
            edges: self.edges.len(),
            ports: self
                .edges
                .iter()
                .map(|edge| edge.sources.len() + edge.targets.len())
                .sum(),
            sources: self.sources.len(),
            targets: self.targets.len(),
            pairs: self.pairs.len(),
        }
    }
}

impl Sizes {
    /// The version in which a drawing of these sizes is stored, if it can be stored at all.
    pub fn version(&self) -> Version {
        if self.within(&VERSION_1.most) {
            VERSION_1
        } else {
            VERSION_2
        }
    }

    /// The length of the form that these sizes call for.
    pub fn form_bytes(&self) -> usize {
        self.version().form_bytes(self)
    }

    pub fn within(&self, most: &Sizes) -> bool {
        self.nodes <= most.nodes
            && self.edges <= most.edges
            && self.ports <= most.ports
            && self.sources <= most.sources
            && self.targets <= most.targets
            && self.pairs <= most.pairs
    }

    /// Whether a drawing of these sizes is one that a form may store.
    pub fn within_limits(&self) -> bool {
        self.within(&VERSION_2.most)
    }

    /// Six numbers of 4 bytes.
    pub fn bytes(&self) -> Vec<u8> {
        let sizes = [
            self.nodes,
            self.edges,
            self.ports,
            self.sources,
            self.targets,
            self.pairs,
        ];
        sizes
            .iter()
            .flat_map(|&size| (size as u32).to_le_bytes())
            .collect()
    }
}

/// The version of some bytes: refusals 1 to 3, and 5 for a header that is not wholly there.
pub fn version(bytes: &[u8]) -> Result<Version, Refusal> {
    if bytes.len() < VERSION_1.header_bytes() {
        return Err(Refusal::Short);
    }
    if bytes[..3] != MARK {
        return Err(Refusal::Mark);
    }
    let version = match u16::from_le_bytes([bytes[3], bytes[4]]) {
        1 => VERSION_1,
        2 => VERSION_2,
        _ => return Err(Refusal::Version),
    };
    if bytes.len() < version.header_bytes() {
        return Err(Refusal::Length);
    }
    Ok(version)
}

fn read_by<const WIDTH: usize>(bytes: &[u8]) -> Result<Drawing, Refusal> {
    let (mut counts, mut rest) = header::<WIDTH>(bytes)?;
    let labels = take(&mut rest, 4 * counts.nodes)?;
    let edge_labels = take(&mut rest, 4 * counts.edges)?;

    let mut edges = Vec::with_capacity(counts.edges);
    let mut bound = 0;
    for label in numbers(edge_labels) {
        let (ports, sources) = edge::<WIDTH>(&mut rest, &mut counts.ports)?;
        bound = bound.max(id_bound::<WIDTH>(ports));
        let (sources, targets) = ports.split_at(WIDTH * sources);
        edges.push(Edge {
            label,
            sources: ids::<WIDTH>(sources).collect(),
            targets: ids::<WIDTH>(targets).collect(),
        });
    }
    end::<WIDTH>(&counts, rest, bound)?;

    let (sources, rest) = rest.split_at(WIDTH * counts.sources);
    let (targets, pairs) = rest.split_at(WIDTH * counts.targets);
    let ends = |pair: &[u8]| (id::<WIDTH>(pair), id::<WIDTH>(&pair[WIDTH..]));
    Ok(Drawing {
        labels: numbers(labels).collect(),
        edges,
        sources: ids::<WIDTH>(sources).collect(),
        targets: ids::<WIDTH>(targets).collect(),
        pairs: pairs.chunks_exact(2 * WIDTH).map(ends).collect(),
    })
}

fn sizes_by<const WIDTH: usize>(bytes: &[u8]) -> Result<Sizes, Refusal> {
    let (mut counts, mut rest) = header::<WIDTH>(bytes)?;
    take(&mut rest, 4 * (counts.nodes + counts.edges))?;

    let mut bound = 0;
    for _ in 0..counts.edges {
        let (ports, _) = edge::<WIDTH>(&mut rest, &mut counts.ports)?;
        bound = bound.max(id_bound::<WIDTH>(ports));
    }
    end::<WIDTH>(&counts, rest, bound)?;
    Ok(counts)
}

/// The header's counts, with no ports counted yet, and the bytes after it: 4 for a count above its limit.
fn header<const WIDTH: usize>(bytes: &[u8]) -> Result<(Sizes, &[u8]), Refusal> {
    let version = Version::of_width(WIDTH);
    let (header, rest) = bytes.split_at(version.header_bytes());
    let count = |i: usize| id::<WIDTH>(&header[5 + i * WIDTH..]) as usize;
    let counts = Sizes {
        nodes: count(0),
        edges: count(1),
        ports: 0,
        sources: count(2),
        targets: count(3),
        pairs: count(4),
    };
    if counts.within(&version.most) {
        Ok((counts, rest))
    } else {
        Err(Refusal::Limit)
    }
}

/// Reads one edge: the bytes of its ids, and how many of them are sources. Its counts must be there (5), the running
/// port sum is looked at before its ids (4), and then they must be there too (5).
fn edge<'a, const WIDTH: usize>(
    rest: &mut &'a [u8],
    port_sum: &mut usize,
) -> Result<(&'a [u8], usize), Refusal> {
    let counts = take(rest, 2 * WIDTH)?;
    let sources = id::<WIDTH>(counts) as usize;
    let targets = id::<WIDTH>(&counts[WIDTH..]) as usize;
    *port_sum += sources + targets;
    if *port_sum > Version::of_width(WIDTH).most.ports {
        return Err(Refusal::Limit);
    }
    Ok((take(rest, WIDTH * (sources + targets))?, sources))
}

/// What is looked at after the last edge: the total length (5), all ids, those of the edges being below `bound` (6), and
/// whether the other version is the graph's (13).
fn end<const WIDTH: usize>(counts: &Sizes, rest: &[u8], bound: usize) -> Result<(), Refusal> {
    let version = Version::of_width(WIDTH);
    if rest.len() != version.list_bytes(counts) {
        return Err(Refusal::Length);
    }
    if bound.max(id_bound::<WIDTH>(rest)) > counts.nodes {
        return Err(Refusal::Id);
    }
    if counts.version() != version {
        return Err(Refusal::OtherForm);
    }
    Ok(())
}

/// Takes `n` bytes off the front.
fn take<'a>(rest: &mut &'a [u8], n: usize) -> Result<&'a [u8], Refusal> {
    let (taken, after) = rest.split_at_checked(n).ok_or(Refusal::Length)?;
    *rest = after;
    Ok(taken)
}

/// The number of `width` bytes, 2 or 4, at a place.
pub fn number(bytes: &[u8], at: usize, width: usize) -> u32 {
    match width {
        2 => id::<2>(&bytes[at..]),
        _ => id::<4>(&bytes[at..]),
    }
}

/// Puts a number of `width` bytes, 2 or 4, at a place.
pub fn put_number(bytes: &mut [u8], at: usize, width: usize, number: u32) {
    bytes[at..at + width].copy_from_slice(&number.to_le_bytes()[..width]);
}

/// Numbers of 4 bytes; a broken one at the end is left out.
pub fn numbers(bytes: &[u8]) -> impl Iterator<Item = u32> + '_ {
    ids::<4>(bytes)
}

/// Ids of so many bytes; a broken one at the end is left out.
pub fn ids<const WIDTH: usize>(bytes: &[u8]) -> impl Iterator<Item = u32> + '_ {
    bytes.chunks_exact(WIDTH).map(id::<WIDTH>)
}

/// A list of ids of `width` bytes, 2 or 4.
pub fn id_list(bytes: &[u8], width: usize) -> Vec<u32> {
    match width {
        2 => ids::<2>(bytes).collect(),
        _ => ids::<4>(bytes).collect(),
    }
}

/// A list of ids as bytes, `width` of them for each.
pub fn id_bytes(ids: impl IntoIterator<Item = usize>, width: usize) -> Vec<u8> {
    let mut bytes = vec![];
    for id in ids {
        bytes.extend_from_slice(&(id as u32).to_le_bytes()[..width]);
    }
    bytes
}

/// The id at the front.
fn id<const WIDTH: usize>(bytes: &[u8]) -> u32 {
    let mut id = [0; 4];
    id[..WIDTH].copy_from_slice(&bytes[..WIDTH]);
    u32::from_le_bytes(id)
}

/// One more than the highest id, or 0 where there is none.
fn id_bound<const WIDTH: usize>(bytes: &[u8]) -> usize {
    ids::<WIDTH>(bytes).fold(0, |bound, id| bound.max(id as usize + 1))
}

fn write_by<const WIDTH: usize>(drawing: &Drawing) -> Vec<u8> {
    let version = Version::of_width(WIDTH);
    let sizes = drawing.sizes();
    let bytes = version.form_bytes(&sizes);
    let mut form = Vec::with_capacity(bytes);
    form.extend_from_slice(&MARK);
    form.extend_from_slice(&version.number.to_le_bytes());
    form.resize(bytes, 0);
    let mut rest = &mut form[5..];
    let counts = [
        sizes.nodes,
        sizes.edges,
        sizes.sources,
        sizes.targets,
        sizes.pairs,
    ];
    put_ids::<WIDTH>(&mut rest, &counts.map(|count| count as u32));
    put_labels(&mut rest, drawing.labels.iter().copied());
    put_labels(&mut rest, drawing.edges.iter().map(|edge| edge.label));
    for edge in &drawing.edges {
        let counts = [edge.sources.len() as u32, edge.targets.len() as u32];
        put_ids::<WIDTH>(&mut rest, &counts);
        put_ids::<WIDTH>(&mut rest, &edge.sources);
        put_ids::<WIDTH>(&mut rest, &edge.targets);
    }
    put_ids::<WIDTH>(&mut rest, &drawing.sources);
    put_ids::<WIDTH>(&mut rest, &drawing.targets);
    for &(v, w) in &drawing.pairs {
        put_ids::<WIDTH>(&mut rest, &[v, w]);
    }
    form
}

/// Writes at the front of what is left, and moves on.
fn put_labels(rest: &mut &mut [u8], labels: impl ExactSizeIterator<Item = u32>) {
    for (place, label) in put(rest, 4 * labels.len()).chunks_exact_mut(4).zip(labels) {
        place.copy_from_slice(&label.to_le_bytes());
    }
}

fn put_ids<const WIDTH: usize>(rest: &mut &mut [u8], ids: &[u32]) {
    let places = put(rest, WIDTH * ids.len());
    for (place, id) in places.chunks_exact_mut(WIDTH).zip(ids) {
        place.copy_from_slice(&id.to_le_bytes()[..WIDTH]);
    }
}

/// Takes `n` bytes to write off the front.
fn put<'a>(rest: &mut &'a mut [u8], n: usize) -> &'a mut [u8] {
    let (taken, after) = std::mem::take(rest).split_at_mut(n);
    *rest = after;
    taken
}

#[cfg(test)]
mod tests {
    use super::*;

    /// The example of document 01, 59 bytes.
    const P7: [u8; 59] = [
        0x4F, 0x48, 0x47, 0x01, 0x00, 0x03, 0x00, 0x02, 0x00, 0x00, 0x00, 0x00, 0x00, 0x00, 0x00,
        0x07, 0x00, 0x00, 0x00, 0x07, 0x00, 0x00, 0x00, 0x07, 0x00, 0x00, 0x00, 0x09, 0x00, 0x00,
        0x00, 0x0A, 0x00, 0x00, 0x00, 0x01, 0x00, 0x03, 0x00, 0x00, 0x00, 0x00, 0x00, 0x01, 0x00,
        0x01, 0x00, 0x03, 0x00, 0x01, 0x00, 0x01, 0x00, 0x01, 0x00, 0x02, 0x00, 0x02, 0x00,
    ];

    fn p7() -> Drawing {
        let edge = |label, sources: &[u32], targets: &[u32]| Edge {
            label,
            sources: sources.to_vec(),
            targets: targets.to_vec(),
        };
        Drawing {
            labels: vec![7; 3],
            edges: vec![edge(9, &[0], &[0, 1, 1]), edge(10, &[1, 1, 2], &[2])],
            ..Drawing::default()
        }
    }

    #[test]
    fn the_example_is_read_and_written() {
        assert_eq!(read(&P7), Ok(p7()));
        assert_eq!(sizes(&P7), Ok(p7().sizes()));
        assert_eq!(write(&p7()), P7);
    }

    /// P7 in version 2, which is not its own, and with 1,025 global sources, which makes it that.
    #[test]
    fn version_2_is_for_what_does_not_fit_version_1() {
        let other = write_as(VERSION_2, &p7());
        assert_eq!(other.len(), 25 + 3 * 4 + 2 * 4 + 2 * 8 + 8 * 4);
        assert_eq!(read(&other), Err(Refusal::OtherForm));
        assert_eq!(sizes(&other), Err(Refusal::OtherForm));
        let outgrown = |sources: usize| Drawing {
            sources: vec![2; sources],
            ..p7()
        };
        assert_eq!(write(&outgrown(1024))[3], 1);
        let form = write(&outgrown(1025));
        assert_eq!(form.len(), other.len() + 4 * 1025);
        assert_eq!(form[3..9], [2, 0, 3, 0, 0, 0]);
        assert_eq!(read(&form), Ok(outgrown(1025)));
        assert_eq!(sizes(&form), Ok(outgrown(1025).sizes()));
    }

    #[test]
    fn a_foreign_id_comes_before_the_other_version() {
        let mut drawing = p7();
        drawing.edges[1].targets[0] = 3;
        let form = write_as(VERSION_2, &drawing);
        assert_eq!(read(&form), Err(Refusal::Id));
        assert_eq!(read(&[&form[..], &[0]].concat()), Err(Refusal::Length));
    }

    /// Counts above every limit, which are not looked at before they are all there.
    #[test]
    fn the_version_is_looked_at_before_the_header_is_wholly_there() {
        let mut header = [0xFF; 25];
        header[..5].copy_from_slice(b"OHG\x02\x00");
        assert_eq!(read(&header[..14]), Err(Refusal::Short));
        for n in 15..25 {
            assert_eq!(read(&header[..n]), Err(Refusal::Length));
        }
        assert_eq!(read(&header), Err(Refusal::Limit));
        for number in [0, 3, 256, 257, 258, 512, 513, 65_535u16] {
            header[3..5].copy_from_slice(&number.to_le_bytes());
            assert_eq!(read(&header[..15]), Err(Refusal::Version));
        }
    }

    #[test]
    fn the_longest_forms_have_the_lengths_that_are_documented() {
        assert_eq!(VERSION_1.most_bytes(), 49_167);
        assert_eq!(VERSION_2.most_bytes(), 655_385);
    }

    /// One edge whose counts pass the port limit, and the form cut at each byte of it.
    #[test]
    fn at_an_edge_its_counts_come_first_and_then_the_port_sum() {
        let mut form = P7[..35].to_vec();
        form.extend_from_slice(&[0x01, 0x00, 0x00, 0x20]);
        assert_eq!(read(&form), Err(Refusal::Limit));
        assert_eq!(read(&form[..38]), Err(Refusal::Length));
        form[37] = 0xFF;
        form[38] = 0x1F;
        assert_eq!(read(&form), Err(Refusal::Length));
    }

    /// The same in version 2, where the sum of two counts passes 32 bits.
    #[test]
    fn a_port_sum_does_not_wrap() {
        let mut form = write_as(VERSION_2, &p7())[..25 + 5 * 4].to_vec();
        form.extend_from_slice(&[0xFF; 4]);
        assert_eq!(read(&form), Err(Refusal::Length));
        form.extend_from_slice(&[1, 0, 0, 0]);
        assert_eq!(read(&form), Err(Refusal::Limit));
        let at = form.len() - 8;
        put_number(&mut form, at, 4, 65_535);
        assert_eq!(read(&form), Err(Refusal::Length));
    }
}
