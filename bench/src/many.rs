//! Many building steps in one call, beside the single calls one after the other and beside the original's.

use crate::building::exported::{
    ohg_add_edge_source, ohg_add_edge_target, ohg_new_edge, ohg_new_node, ohg_new_operation,
    ohg_unify,
};
use crate::deleting::{ohg_delete_edges, ohg_delete_nodes};
use crate::drawings::{forms_of, size, sizes, version, MANY};
use crate::port;
use crate::sides::{answered, assert_answered, MOST_LIST_BYTES};
use crate::stored::{decode, encode};
use crate::table::{print_rounds, Table, SINGLE_AND_ORIGINAL};
use crate::timing::{medians, Side};
use differential::convert::{to_label, Graph};
use differential::form::{self, id_bytes, VERSION_1, VERSION_2};
use differential::rng::Rng;
use differential::rooms::Rooms;
use differential::rows::many::step::{laid, Step};
use oracle::lax::{EdgeId, Hyperedge, NodeId};
use std::mem::swap;

mod exported {
    crate::port::functions! {
        pub fn ohg_build(
            src: *const u8,
            src_len: usize,
            steps: *const u8,
            steps_len: usize,
            out: *mut u8,
            out_len: usize,
            room: *mut u8,
            room_len: usize,
        ) -> u64;
    }
}

fn ohg_build(src: &[u8], steps: &[u8], out: &mut [u8], room: &mut [u8]) -> u64 {
    // SAFETY: each part is lent for the call, with its own length.
    unsafe {
        exported::ohg_build(
            src.as_ptr(),
            src.len(),
            steps.as_ptr(),
            steps.len(),
            out.as_mut_ptr(),
            out.len(),
            room.as_mut_ptr(),
            room.len(),
        )
    }
}

/// How many steps from nothing, and the nodes of the drawings that some steps are made on.
const FROM_NOTHING: [usize; 4] = [50, 500, 2000, 8000];
const ON_NODES: [usize; 4] = [500, 1950, MANY, 16_000];
pub const SOME: usize = 50;

/// Of so many steps one deletes two nodes, or two edges by turns.
const DELETING: usize = 10;

/// A drawing and steps on it: as the call takes them, for single calls, and in memory.
struct Listed {
    form: Vec<u8>,
    bytes: Vec<u8>,
    single: Vec<Single>,
    steps: Vec<Step>,
}

impl Listed {
    fn new(form: Vec<u8>, steps: Vec<Step>) -> Listed {
        Listed {
            form,
            bytes: laid(&steps),
            single: steps.iter().map(Single::new).collect(),
            steps,
        }
    }

    /// The last form, by the original.
    fn due(&self) -> Vec<u8> {
        let mut graph = decode(&self.form);
        self.steps.iter().for_each(|step| apply(&mut graph, step));
        encode(&graph)
    }
}

/// A step with its lists in the width of either version, so that nobody has to make them when it is called.
struct Single {
    step: Step,
    lists: [[Vec<u8>; 2]; 2],
}

impl Single {
    fn new(step: &Step) -> Single {
        let ids = |list: &[u32], width| id_bytes(list.iter().map(|&id| id as usize), width);
        let none = &vec![];
        let (one, two, labels) = match step {
            Step::NewEdge(_, sources, targets) => (sources, targets, false),
            Step::NewOperation(_, sources, targets) => (sources, targets, true),
            Step::DeleteEdges(gone) | Step::DeleteNodes(gone) => (gone, none, false),
            _ => (none, none, false),
        };
        let lists = [VERSION_1, VERSION_2].map(|version| {
            let width = if labels { 4 } else { version.width };
            [one, two].map(|list| ids(list, width))
        });
        Single {
            step: step.clone(),
            lists,
        }
    }
}

/// What single calls are lent: the form before and the one after, which change places.
struct Desk {
    now: Vec<u8>,
    next: Vec<u8>,
    map: Vec<u8>,
    room: Vec<u8>,
}

impl Desk {
    fn new(rooms: &Rooms) -> Result<Desk, String> {
        let bytes = rooms.of("ohg_delete_edges")?;
        let bytes = bytes.max(rooms.of("ohg_delete_nodes")?);
        Ok(Desk {
            now: vec![0; VERSION_2.most_bytes()],
            next: vec![0; VERSION_2.most_bytes()],
            map: vec![0; MOST_LIST_BYTES],
            room: vec![0; bytes],
        })
    }

    /// The steps by single calls, and how long the last form is, which stands in `now`.
    fn singly(&mut self, listed: &Listed) -> usize {
        self.now[..listed.form.len()].copy_from_slice(&listed.form);
        let mut bytes = listed.form.len();
        for single in &listed.single {
            let (src, out) = (&self.now[..bytes], &mut self.next[..]);
            let [one, two] = &single.lists[usize::from(src[3] == 2)];
            let returned = match single.step {
                Step::NewNode(label) => ohg_new_node(src, label, out),
                Step::NewEdge(label, ..) => ohg_new_edge(src, label, one, two, out),
                Step::NewOperation(label, ..) => ohg_new_operation(src, label, one, two, out),
                Step::Unify(v, w) => ohg_unify(src, v, w, out),
                Step::AddEdgeSource(edge, label) => ohg_add_edge_source(src, edge, label, out),
                Step::AddEdgeTarget(edge, label) => ohg_add_edge_target(src, edge, label, out),
                Step::DeleteEdges(_) => ohg_delete_edges(src, one, out, &mut self.room),
                Step::DeleteNodes(_) => {
                    ohg_delete_nodes(src, one, out, &mut self.map, &mut self.room)
                }
            };
            bytes = answered(returned).expect("it is a good step");
            swap(&mut self.now, &mut self.next);
        }
        bytes
    }
}

/// The original's call of a step.
fn apply(graph: &mut Graph, step: &Step) {
    fn all<T>(ids: &[u32], id: fn(usize) -> T) -> Vec<T> {
        ids.iter().map(|&n| id(n as usize)).collect()
    }
    match step {
        Step::NewNode(label) => {
            graph.new_node(*label);
        }
        Step::NewEdge(label, sources, targets) => {
            let [sources, targets] = [sources, targets].map(|ids| all(ids, NodeId));
            graph.new_edge(to_label(*label), Hyperedge { sources, targets });
        }
        Step::NewOperation(label, sources, targets) => {
            graph.new_operation(to_label(*label), sources.clone(), targets.clone());
        }
        Step::Unify(v, w) => graph.unify(NodeId(*v as usize), NodeId(*w as usize)),
        Step::AddEdgeSource(edge, label) => {
            graph.add_edge_source(EdgeId(*edge as usize), *label);
        }
        Step::AddEdgeTarget(edge, label) => {
            graph.add_edge_target(EdgeId(*edge as usize), *label);
        }
        Step::DeleteEdges(ids) => graph.delete_edges(&all(ids, EdgeId)),
        Step::DeleteNodes(ids) => graph.delete_nodes(&all(ids, NodeId)),
    }
}

/// So many steps on a drawing of some nodes and edges, as a tool sends them: of ten steps four new nodes, three edges of two sources and
/// two targets, an operation of one and two, a pair, and one more port. Ten of them make eight nodes and sixteen ports. Of some lists
/// one in ten deletes.
fn drawn(rng: &mut Rng, [mut nodes, mut edges]: [usize; 2], n: usize, deleting: bool) -> Vec<Step> {
    let mut steps = vec![];
    for i in 0..n {
        let label = i as u32;
        let mut some = |count: usize, among: usize| -> Vec<u32> {
            (0..count).map(|_| rng.below(among) as u32).collect()
        };
        if deleting && i % DELETING == DELETING - 1 {
            let of_nodes = i % (2 * DELETING) < DELETING;
            let count = if of_nodes { &mut nodes } else { &mut edges };
            let first = some(1, *count - 1)[0];
            *count -= 2;
            let gone = vec![first, first + 1];
            steps.push(match of_nodes {
                true => Step::DeleteNodes(gone),
                false => Step::DeleteEdges(gone),
            });
            continue;
        }
        steps.push(match i % 10 {
            2 | 5 | 8 => {
                edges += 1;
                Step::NewEdge(label, some(2, nodes), some(2, nodes))
            }
            4 => {
                (nodes, edges) = (nodes + 3, edges + 1);
                Step::NewOperation(label, vec![7], vec![8, 9])
            }
            6 => {
                let pair = some(2, nodes);
                Step::Unify(pair[0], pair[1])
            }
            9 => {
                nodes += 1;
                let edge = some(1, edges)[0];
                match i % 20 {
                    9 => Step::AddEdgeSource(edge, label),
                    _ => Step::AddEdgeTarget(edge, label),
                }
            }
            _ => {
                nodes += 1;
                Step::NewNode(label)
            }
        });
    }
    steps
}

/// Several lists of so many steps from nothing, as many as make together about as much as a drawing of version 1 holds.
fn from_nothing(n: usize) -> Vec<Vec<Step>> {
    let most = VERSION_1.most;
    let several = (most.nodes + most.ports) / (12 * n / 5).max(1);
    let mut rng = Rng::new(1);
    (0..several.max(1))
        .map(|_| drawn(&mut rng, [0, 0], n, false))
        .collect()
}

fn empty() -> Vec<u8> {
    encode(&Graph::empty())
}

/// Forms of so many nodes and edges with some steps on each.
fn on_nodes(nodes: usize, deleting: bool) -> Vec<Listed> {
    let mut rng = Rng::new(2);
    let forms = forms_of(sizes(nodes, nodes / 5)).into_iter();
    forms
        .map(|form| {
            let steps = drawn(&mut rng, [nodes, nodes], SOME, deleting);
            Listed::new(form, steps)
        })
        .collect()
}

/// This table alone.
pub fn measure_alone() -> Result<(), String> {
    let rooms = Rooms::read()?;
    port::open_measured()?;
    print_rounds();
    measure(&rooms)?;
    Ok(())
}

pub fn measure(rooms: &Rooms) -> Result<Vec<Table>, String> {
    let mut room = vec![0; rooms.of("ohg_build")?];
    let mut desk = Desk::new(rooms)?;
    let words = &["steps", "on", "bytes of the answer"];
    let mut table = Table::begin("`ohg_build`", words, &SINGLE_AND_ORIGINAL);
    let mut row = |steps: String, on: String, inputs: Vec<Listed>| {
        let due = inputs[0].due();
        let words = [steps, on, due.len().to_string()];
        let times = beside_single(&inputs, &mut room, &mut desk);
        table.row(version(&due), &words, &times);
    };
    for n in FROM_NOTHING {
        let lists = from_nothing(n).into_iter();
        let inputs = lists.map(|steps| Listed::new(empty(), steps)).collect();
        row(format!("{n} building"), "nothing".to_string(), inputs);
    }
    for deleting in [false, true] {
        for nodes in ON_NODES {
            let steps = match deleting {
                false => format!("{SOME} building"),
                true => format!("{SOME}, of which {} delete", SOME / DELETING),
            };
            row(steps, format!("{nodes} nodes"), on_nodes(nodes, deleting));
        }
    }
    Ok(vec![table])
}

fn assert_built(inputs: &[Listed], out: &mut [u8], room: &mut [u8]) {
    for listed in inputs {
        let returned = ohg_build(&listed.form, &listed.bytes, out, room);
        assert_answered(returned, out, &listed.due());
    }
}

fn beside_single(inputs: &[Listed], room: &mut [u8], desk: &mut Desk) -> Vec<f64> {
    let mut out = vec![0; VERSION_2.most_bytes()];
    assert_built(inputs, &mut out, room);
    for listed in inputs {
        let (bytes, due) = (desk.singly(listed), listed.due());
        assert!(desk.now[..bytes] == due, "single calls give the same");
    }
    let graphs: Vec<(Graph, &Listed)> = inputs
        .iter()
        .map(|listed| (decode(&listed.form), listed))
        .collect();
    let bytes = 5 * inputs[0].due().len();
    medians(vec![
        Side::new(inputs, |listed| {
            ohg_build(&listed.form, &listed.bytes, &mut out, room)
        }),
        Side::new(inputs, |listed| desk.singly(listed)),
        Side::on_copies(&graphs, bytes, |(graph, listed)| {
            listed.steps.iter().for_each(|step| apply(graph, step))
        }),
        Side::new(inputs, Listed::due),
    ])
}

/// The nodes and ports that so many steps from nothing make, and the lists as bytes, for the growth.
pub fn step_lists(n: usize) -> (usize, Vec<Vec<u8>>) {
    let lists = from_nothing(n);
    let made = Listed::new(empty(), lists[0].clone()).due();
    let lists = lists.iter().map(|steps| laid(steps)).collect();
    (size(&made), lists)
}

/// The times of the call with these lists on nothing, and of the original from the form.
pub fn build_from_nothing(lists: &[Vec<u8>], room: &mut [u8]) -> Vec<f64> {
    let inputs = lists.iter().map(|list| Listed::new(empty(), taken(list)));
    beside_original(&inputs.collect::<Vec<_>>(), room)
}

/// The times with some steps on each form.
pub fn build_on_forms(forms: &[Vec<u8>], room: &mut [u8]) -> Vec<f64> {
    let mut rng = Rng::new(2);
    let inputs = forms.iter().map(|form| {
        let sizes = form::sizes(form).expect("it is a good form");
        let steps = drawn(&mut rng, [sizes.nodes, sizes.edges], SOME, false);
        Listed::new(form.clone(), steps)
    });
    beside_original(&inputs.collect::<Vec<_>>(), room)
}

/// The steps of a list.
fn taken(mut list: &[u8]) -> Vec<Step> {
    let mut steps = vec![];
    while !list.is_empty() {
        steps.push(Step::take(&mut list).expect("it is a good list"));
    }
    steps
}

fn beside_original(inputs: &[Listed], room: &mut [u8]) -> Vec<f64> {
    let mut out = vec![0; VERSION_2.most_bytes()];
    assert_built(inputs, &mut out, room);
    medians(vec![
        Side::new(inputs, |listed| {
            ohg_build(&listed.form, &listed.bytes, &mut out, room)
        }),
        Side::new(inputs, Listed::due),
    ])
}
