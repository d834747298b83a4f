//! The priced parts list: T-07's text in plain Rust, above the original's choice; and the report on a range above it. They are
//! an archive of their own, which the replaying program does not link, so their rows are in no recorded list.

mod picked;
pub mod range;

use super::choice::{self, chosen_by_original, families, unpaired};
use crate::arguments::graph_alone;
use crate::call::{Answer, Arguments, Outcome};
use crate::cases::random::some_ids;
use crate::cases::{self, edge, plain, small};
use crate::convert::Graph;
use crate::form::{self, Drawing, Edge, Refusal, SPIDER, VERSION_1, VERSION_2};
use crate::operation::Parameter::{Answered, Input, Room};
use crate::operation::{Forms, Group, Operation};
use crate::rng::Rng;
use crate::steps::Checked;
use oracle::lax::spider::WithSpider;

pub const GROUP: Group = Group {
    name: "pricing",
    operations: OPERATIONS,
    share: 2,
    fixed,
    every,
    step: 64,
    drawing,
    damaged: 1,
};

const OPERATIONS: &[Operation] = &[
    Operation {
        number: 100,
        name: "ohg_price",
        parameters: &[Input, Answered, Room],
        refusals: &[1, 2, 3, 4, 5, 6, 13, 8, 14, 15, 10],
        picked: picked::picked,
        arguments: graph_alone,
        expected: price,
    },
    Operation {
        number: 101,
        name: "ohg_price_range",
        parameters: &[Input, Answered, Room],
        refusals: &[17, 10],
        picked: range::picked,
        arguments: range::around,
        expected: range::price_range,
    },
];

/// A kind of part: its label, how many sources and targets it has, and its price in hundredths of a cent.
pub struct Kind {
    pub label: u32,
    pub sources: usize,
    pub targets: usize,
    pub price: u64,
}

const fn kind(label: u32, sources: usize, targets: usize, price: u64) -> Kind {
    Kind {
        label,
        sources,
        targets,
        price,
    }
}

pub const CATALOGUE: [Kind; 12] = [
    kind(1, 0, 1, 4200),
    kind(2, 1, 0, 4200),
    kind(3, 1, 2, 1150),
    kind(4, 2, 1, 640),
    kind(5, 1, 1, 2300),
    kind(6, 2, 1, 390),
    kind(7, 2, 1, 870),
    kind(8, 1, 1, 510),
    kind(9, 1, 1, 120),
    kind(10, 1, 2, 95),
    kind(11, 2, 1, 95),
    kind(12, 2, 2, 3100),
];

/// What each node of the choice adds.
const BUFFER: u64 = 260;

/// What is priced: the count of each kind, the loop buffers, and the total.
#[derive(Debug, PartialEq, Eq)]
pub struct Priced {
    pub counts: [u32; 12],
    pub buffers: u32,
    pub total: u64,
}

impl Priced {
    /// The counts and the buffers in 4 bytes each, the total in 8.
    pub fn bytes(&self) -> Vec<u8> {
        let numbers = self.counts.iter().chain([&self.buffers]);
        let mut bytes: Vec<u8> = numbers.flat_map(|n| n.to_le_bytes()).collect();
        bytes.extend(self.total.to_le_bytes());
        bytes
    }
}

/// The single answer: the parts of any bytes.
fn single(arguments: &Arguments) -> Checked<Priced> {
    priced(&unpaired(arguments)?)
}

fn price(arguments: &Arguments) -> Outcome {
    let priced = single(arguments)?;
    let bytes = priced.bytes();
    Ok(Answer {
        a: bytes.len() as u32,
        b: 0,
        written: vec![bytes],
    })
}

/// The parts of a graph without pairs: 14 and 15, the first edge at fault deciding, and then the original's choice.
pub fn priced(graph: &Graph) -> Checked<Priced> {
    let mut counts = [0; 12];
    let mut total = 0;
    let hypergraph = &graph.hypergraph;
    for (label, ports) in hypergraph.edges.iter().zip(&hypergraph.adjacency) {
        let WithSpider::Operation(label) = label else {
            continue;
        };
        let known = CATALOGUE.iter().position(|kind| kind.label == *label);
        let at = known.ok_or(Refusal::UnknownKind.nowhere())?;
        let kind = &CATALOGUE[at];
        if (ports.sources.len(), ports.targets.len()) != (kind.sources, kind.targets) {
            return Err(Refusal::OtherPorts.nowhere());
        }
        counts[at] += 1;
        total += kind.price;
    }
    let buffers = chosen_by_original(graph).len() as u32;
    Ok(Priced {
        counts,
        buffers,
        total: total + BUFFER * u64::from(buffers),
    })
}

/// Forms at the limits; the largest of each family in either version, as parts; and as many edges of one kind as either
/// version holds, so that every counter is at its highest.
fn fixed(rng: &mut Rng) -> Vec<Vec<u8>> {
    let mut forms = cases::at_limits(rng, false);
    let mut drawings = vec![];
    for version in [VERSION_1, VERSION_2] {
        for family in families::FAMILIES {
            let drawing = family(rng, version.most.nodes);
            drawings.push(as_parts(rng, drawing));
        }
        for kind in &CATALOGUE {
            let edges = (0..version.most.edges).map(|_| {
                let [sources, targets] =
                    [kind.sources, kind.targets].map(|n| some_ids(rng, n, version.most.nodes));
                edge(kind.label, &sources, &targets)
            });
            let edges: Vec<Edge> = edges.collect();
            drawings.push(plain(version.most.nodes, &edges));
        }
    }
    forms.extend(drawings.iter().map(form::write));
    forms
}

/// Two nodes and every two edges of these labels with up to two sources and two targets; the catalogue's, the two beside
/// them, and spiders. And all multigraphs of up to two nodes and two edges with up to three ports each, with labels by chance.
fn every(mut rng: Rng) -> Forms {
    let labels: Vec<u32> = (0..=13).chain([SPIDER]).collect();
    let small = small::graphs([2, 2, 3], false, Rng::new(rng.number()));
    let each = labels.len() * 9;
    let one = move |digits: &mut usize, rng: &mut Rng| {
        let label = labels[small::place(digits, labels.len())];
        let [sources, targets] = [(); 2].map(|_| small::place(digits, 3));
        edge(
            label,
            &some_ids(rng, sources, 2),
            &some_ids(rng, targets, 2),
        )
    };
    let two = (0..each * each).map(move |k| {
        let mut digits = k;
        plain(2, &[one(&mut digits, &mut rng), one(&mut digits, &mut rng)])
    });
    Box::new(two.chain(small).map(|drawing| form::write(&drawing)))
}

/// A drawing of the choice with parts for edges: three in four times all in order, else one or two of them at fault. One
/// in sixteen is as it was, with any labels.
fn drawing(rng: &mut Rng, most: usize) -> Drawing {
    let drawing = choice::drawing(rng, most);
    if rng.once_in(16) {
        return drawing;
    }
    let mut parts = as_parts(rng, drawing);
    if rng.once_in(4) && !parts.edges.is_empty() {
        for _ in 0..rng.between(1, 2) {
            let at = rng.below(parts.edges.len());
            spoil(rng, &mut parts.edges[at], parts.labels.len());
        }
    }
    parts
}

/// The drawing with each edge as a part, of the ports that it has as far as they go; one in eight is a spider, with its own
/// ports. Without nodes only spiders can stand.
fn as_parts(rng: &mut Rng, mut drawing: Drawing) -> Drawing {
    let nodes = drawing.labels.len();
    for edge in &mut drawing.edges {
        if nodes == 0 || rng.once_in(8) {
            edge.label = SPIDER;
            continue;
        }
        let kind = &CATALOGUE[rng.below(CATALOGUE.len())];
        edge.label = kind.label;
        for (ids, ports) in [
            (&mut edge.sources, kind.sources),
            (&mut edge.targets, kind.targets),
        ] {
            ids.truncate(ports);
            let more = ports - ids.len();
            ids.extend(some_ids(rng, more, nodes));
        }
    }
    // A drawing whose edges had few ports may have more now than its version holds.
    while !drawing.sizes().within_limits() {
        drawing.edges.pop();
    }
    drawing
}

/// Puts an edge at fault, mostly: another label, a port more or less, or both lists exchanged.
fn spoil(rng: &mut Rng, edge: &mut Edge, nodes: usize) {
    let [one, other] = [&mut edge.sources, &mut edge.targets];
    match rng.below(6) {
        0 => edge.label = rng.pick(&[0, 13, 256, 65_536 + edge.label, SPIDER - 1]),
        1 => edge.label = 1 + rng.below(12) as u32,
        2 => drop(one.pop()),
        3 => drop(other.pop()),
        4 => std::mem::swap(one, other),
        _ => {
            let list = if rng.once_in(2) { one } else { other };
            list.extend(some_ids(rng, 1.min(nodes), nodes));
        }
    }
}

#[cfg(test)]
mod tests {
    use super::*;
    use crate::convert::to_lax;

    /// How many of each kind, the buffers and the total, or the refusal's number.
    fn of(drawing: &Drawing) -> Result<(Vec<u32>, u32, u64), u8> {
        let priced = priced(&to_lax(drawing)).map_err(|refused| refused.refusal as u8)?;
        Ok((priced.counts.to_vec(), priced.buffers, priced.total))
    }

    #[test]
    fn the_prices_of_the_request() {
        let bytes = include_bytes!("../../../../../examples/packet-path.ohg");
        let path = form::read(bytes).expect("it is a drawing");
        let counts = vec![1, 1, 1, 0, 0, 1, 1, 1, 0, 1, 1, 0];
        assert_eq!(of(&path), Ok((counts, 2, 12_030)));
    }

    #[test]
    fn prices_worked_by_hand() {
        let [straight, looped, one_of_each, misfit, unknown] = picked::by_hand();
        let counts = |kinds: &[usize]| {
            let mut counts = vec![0; 12];
            kinds.iter().for_each(|kind| counts[kind - 1] += 1);
            counts
        };
        assert_eq!(of(&straight), Ok((counts(&[1, 2, 9]), 0, 8_520)));
        assert_eq!(of(&looped), Ok((counts(&[8]), 1, 770)));
        assert_eq!(of(&one_of_each), Ok((vec![1; 12], 1, 17_930)));
        assert_eq!(of(&misfit), Err(15));
        assert_eq!(of(&unknown), Err(14));
    }

    #[test]
    fn parts_are_in_order_until_they_are_spoiled() {
        let rng = &mut Rng::new(1);
        for _ in 0..200 {
            let any = choice::without_pairs(choice::drawing(rng, 12));
            assert!(of(&as_parts(rng, any)).is_ok());
        }
        let mut codes: Vec<u8> = (0..2000)
            .filter_map(|_| of(&choice::without_pairs(drawing(rng, 12))).err())
            .collect();
        codes.sort();
        codes.dedup();
        assert_eq!(codes, [14, 15]);
    }
}
