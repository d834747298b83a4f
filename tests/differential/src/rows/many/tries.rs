//! Steps by chance.

use super::step::{laid, Step};
use super::Built;
use crate::arguments::bad_ids;
use crate::call::Arguments;
use crate::cases::random::{label, some_ids};
use crate::convert::{to_lax, Graph};
use crate::form::{self, Sizes, VERSION_2};
use crate::rng::Rng;

/// A list of steps on the form, mostly a good one. A form that is refused goes with steps for the empty graph.
pub fn graph_and_steps(form: &[u8], rng: &mut Rng) -> Vec<Arguments> {
    let graph = form::read(form).map_or(Graph::empty(), |drawing| to_lax(&drawing));
    let n = match rng.below(40) {
        0 => rng.below(300),
        1..=8 => rng.below(40),
        _ => rng.below(10),
    };
    let steps = steps(rng, graph, n);
    let bytes = spoilt(rng, laid(&steps));
    vec![Arguments::new(&[], &[form, &bytes])]
}

/// What a list does mostly.
#[derive(Clone, Copy, PartialEq, Eq)]
enum Habit {
    All,
    Build,
    Delete,
    Join,
    Ports,
}

/// So many steps, each good on the graph that the ones before it give, but for one in some lists, and within the limits but for
/// one in some.
pub fn steps(rng: &mut Rng, graph: Graph, n: usize) -> Vec<Step> {
    let habits = [
        Habit::All,
        Habit::All,
        Habit::Build,
        Habit::Delete,
        Habit::Join,
        Habit::Ports,
    ];
    let habit = rng.pick(&habits);
    let bad = rng.once_in(8).then(|| rng.below(n.max(1)));
    let minded = !rng.once_in(4);
    let mut built = Built::on(graph);
    let mut steps = vec![];
    for i in 0..n {
        let step = if bad == Some(i) {
            bad_step(rng, built.sizes)
        } else {
            good_step(rng, habit, built.sizes, minded)
        };
        let ended = built.step(&step).is_err();
        steps.push(step);
        if ended {
            // What comes after a refused step is not looked at.
            steps.extend((0..rng.below(3)).map(|_| Step::NewNode(label(rng))));
            break;
        }
    }
    steps
}

/// So many building steps from nothing, within the limits: what a tool that draws sends.
pub fn building(rng: &mut Rng, n: usize) -> Vec<Step> {
    let mut built = Built::on(Graph::empty());
    let mut steps = vec![];
    while steps.len() < n {
        let step = good_step(rng, Habit::Build, built.sizes, true);
        built.step(&step).expect("it is a good step");
        steps.push(step);
    }
    steps
}

/// A kind by habit, its ids below their counts; one that would pass a limit is minded, and something is deleted in its place.
fn good_step(rng: &mut Rng, habit: Habit, z: Sizes, minded: bool) -> Step {
    let kind = match habit {
        Habit::All => rng.between(1, 8),
        Habit::Build if rng.once_in(60) => rng.between(7, 8),
        Habit::Build => rng.between(1, 6),
        Habit::Delete => rng.pick(&[1, 2, 3, 5, 6, 7, 7, 8, 8]),
        Habit::Join => rng.pick(&[1, 1, 4, 4, 4, 4, 8]),
        Habit::Ports => rng.pick(&[2, 2, 5, 5, 5, 6, 6, 6, 7]),
    };
    let most = VERSION_2.most;
    if minded && z.nodes + 8 > most.nodes {
        return Step::DeleteNodes(several(rng, z.nodes));
    }
    if minded && (z.edges == most.edges || z.ports + 8 > most.ports) {
        return Step::DeleteEdges(several(rng, z.edges));
    }
    if minded && z.pairs == most.pairs {
        return Step::DeleteNodes(several(rng, z.nodes));
    }
    match kind {
        2 => Step::NewEdge(label(rng), few(rng, z.nodes), few(rng, z.nodes)),
        3 => Step::NewOperation(label(rng), labels(rng), labels(rng)),
        4 if z.nodes > 0 => Step::Unify(rng.below(z.nodes) as u32, rng.below(z.nodes) as u32),
        5 if z.edges > 0 => Step::AddEdgeSource(edge(rng, z), label(rng)),
        6 if z.edges > 0 => Step::AddEdgeTarget(edge(rng, z), label(rng)),
        7 => Step::DeleteEdges(some(rng, z.edges)),
        8 => Step::DeleteNodes(some(rng, z.nodes)),
        _ => Step::NewNode(label(rng)),
    }
}

/// A step with an id that is not there.
fn bad_step(rng: &mut Rng, z: Sizes) -> Step {
    let bad = |rng: &mut Rng, count: usize| rng.pick(&bad_ids(count, 4)) as u32;
    let put = |rng: &mut Rng, mut ids: Vec<u32>, count: usize| {
        for _ in 0..rng.pick(&[1, 1, 2]) {
            let at = rng.between(0, ids.len());
            ids.insert(at, bad(rng, count));
        }
        ids
    };
    let (nodes, edges) = (z.nodes, z.edges);
    match rng.below(7) {
        0 => {
            let (sources, targets) = (few(rng, nodes), few(rng, nodes));
            Step::NewEdge(label(rng), put(rng, sources, nodes), targets)
        }
        1 => {
            let (sources, targets) = (few(rng, nodes), few(rng, nodes));
            Step::NewEdge(label(rng), sources, put(rng, targets, nodes))
        }
        2 => Step::Unify(bad(rng, nodes), rng.below(nodes.max(1)) as u32),
        3 => Step::Unify(rng.below(nodes.max(1)) as u32, bad(rng, nodes)),
        4 => Step::AddEdgeSource(bad(rng, edges), label(rng)),
        5 => Step::AddEdgeTarget(bad(rng, edges), label(rng)),
        _ => {
            let (gone, count) = rng.pick(&[
                (Step::DeleteEdges as fn(_) -> _, edges),
                (Step::DeleteNodes, nodes),
            ]);
            let ids = few(rng, count);
            gone(put(rng, ids, count))
        }
    }
}

/// An edge, often the last or the first, which then gets ports again and again.
fn edge(rng: &mut Rng, z: Sizes) -> u32 {
    let last = z.edges - 1;
    match rng.below(3) {
        0 => 0,
        1 => last as u32,
        _ => rng.below(z.edges) as u32,
    }
}

/// Up to three ids, with repeats.
fn few(rng: &mut Rng, count: usize) -> Vec<u32> {
    let n = if count == 0 { 0 } else { rng.below(4) };
    some_ids(rng, n, count)
}

fn labels(rng: &mut Rng) -> Vec<u32> {
    (0..rng.below(4)).map(|_| label(rng)).collect()
}

/// Ids to delete: none, few with repeats, the last, and seldom all.
fn some(rng: &mut Rng, count: usize) -> Vec<u32> {
    match rng.below(24) {
        0 => vec![],
        1 if rng.once_in(4) => (0..count as u32).collect(),
        2 | 3 if count > 0 => vec![count as u32 - 1],
        _ => few(rng, count),
    }
}

/// Ids to delete where there are very many: one in four.
fn several(rng: &mut Rng, count: usize) -> Vec<u32> {
    some_ids(rng, count / 4, count)
}

/// Now and then the list cut somewhere, with bytes at its end, or with one byte changed.
fn spoilt(rng: &mut Rng, mut bytes: Vec<u8>) -> Vec<u8> {
    match rng.below(16) {
        0 => bytes.truncate(rng.between(0, bytes.len())),
        1 => {
            let more = rng.between(1, 9);
            bytes.extend(rng.bytes(more));
        }
        2 if !bytes.is_empty() => {
            let at = rng.below(bytes.len());
            bytes[at] = rng.pick(&[0, 1, 2, 3, 4, 5, 6, 7, 8, 9, 255]);
        }
        _ => {}
    }
    bytes
}
