//! Spiderizing.

use crate::choice::chosen;
use crate::drawings::{several, FAMILIES, JOINED, MANY};
use crate::sides::graph_times;
use crate::stored::decode;
use crate::table::{mean, Table, ORIGINAL};
use differential::convert::{sizes, Graph};
use differential::form::{id_bytes, width, Sizes, Version, VERSION_1, VERSION_2};
use differential::rooms::Rooms;
use differential::rows::choice::families::Family;
use differential::rows::spidering::flattened;
use oracle::lax::NodeId;

mod exported {
    crate::port::functions! {
        pub fn ohg_spiderize(
            src: *const u8,
            src_len: usize,
            out: *mut u8,
            out_len: usize,
            room: *mut u8,
            room_len: usize,
        ) -> u64;
        pub fn ohg_spiderize_nodes(
            src: *const u8,
            src_len: usize,
            ids: *const u8,
            ids_len: usize,
            out: *mut u8,
            out_len: usize,
            room: *mut u8,
            room_len: usize,
        ) -> u64;
    }
}

// SAFETY, of both: each part is lent for the call, with its own length.

fn ohg_spiderize(src: &[u8], out: &mut [u8], room: &mut [u8]) -> u64 {
    unsafe {
        exported::ohg_spiderize(
            src.as_ptr(),
            src.len(),
            out.as_mut_ptr(),
            out.len(),
            room.as_mut_ptr(),
            room.len(),
        )
    }
}

fn ohg_spiderize_nodes(src: &[u8], ids: &[u8], out: &mut [u8], room: &mut [u8]) -> u64 {
    unsafe {
        exported::ohg_spiderize_nodes(
            src.as_ptr(),
            src.len(),
            ids.as_ptr(),
            ids.len(),
            out.as_mut_ptr(),
            out.len(),
            room.as_mut_ptr(),
            room.len(),
        )
    }
}

/// So few nodes that any drawing of a family can be spiderized.
const FEW: usize = 50;

/// A form with some of its nodes, which stand beside it as ids too.
pub struct Listed {
    pub form: Vec<u8>,
    pub nodes: Vec<NodeId>,
    pub ids: Vec<u8>,
}

impl Listed {
    pub fn new(form: &[u8], nodes: Vec<NodeId>) -> Self {
        let form = form.to_vec();
        let ids = id_bytes(nodes.iter().map(|node| node.0), width(&form));
        Listed { form, nodes, ids }
    }

    /// How large the drawing becomes by spiderizing these nodes.
    fn result(&self) -> Sizes {
        let mut graph = decode(&self.form);
        replace_by_spiderized(&mut graph, &self.nodes);
        sizes(&graph)
    }
}

impl AsRef<[u8]> for Listed {
    fn as_ref(&self) -> &[u8] {
        &self.form
    }
}

pub fn measure(rooms: &Rooms) -> Result<Vec<Table>, String> {
    let mut room = vec![0; rooms.of("ohg_spiderize_nodes")?];
    let mut some = |title, families, listed| {
        measure_families(title, families, listed, |inputs| {
            spiderize_nodes(inputs, &mut room)
        })
    };
    let chosen = some("`ohg_spiderize_nodes`, the chosen ones", &FAMILIES, chosen);
    let title = "`ohg_spiderize_nodes`, every eighth, after merging";
    let joined = some(title, &JOINED, eighth);

    let mut room = vec![0; rooms.of("ohg_spiderize")?];
    let mut whole = |title, families| {
        measure_families(title, families, all, |inputs| spiderize(inputs, &mut room))
    };
    let all = whole("`ohg_spiderize`, all nodes", &FAMILIES);
    let all_joined = whole("`ohg_spiderize`, all nodes, after merging", &JOINED);
    Ok(vec![chosen, joined, all, all_joined])
}

fn all(graph: &Graph) -> Vec<NodeId> {
    (0..graph.hypergraph.nodes.len()).map(NodeId).collect()
}

fn eighth(graph: &Graph) -> Vec<NodeId> {
    all(graph).into_iter().step_by(8).collect()
}

/// Each family with few nodes and with as many as can be spiderized in version 1, then with many, where so many can be,
/// and with as many as can be in version 2; and the means over them. A row's version is that of the answers.
fn measure_families(
    title: &'static str,
    families: &[(&str, Family)],
    listed: fn(&Graph) -> Vec<NodeId>,
    mut times: impl FnMut(&[Listed]) -> Vec<f64>,
) -> Table {
    let words = &["family", "nodes", "listed (mean)", "bytes answered (mean)"];
    let mut table = Table::begin(title, words, &ORIGINAL);
    for &(name, family) in families {
        let [most_1, most_2] =
            [VERSION_1, VERSION_2].map(|version| most_nodes(version, family, listed));
        let many = (MANY < most_2).then_some(MANY);
        for nodes in [FEW, most_1].into_iter().chain(many).chain([most_2]) {
            let inputs = inputs(family, nodes, listed);
            let words = [
                name.to_string(),
                nodes.to_string(),
                mean(inputs.iter().map(|input| input.nodes.len())),
                mean(inputs.iter().map(|input| input.result().form_bytes())),
            ];
            table.row(inputs[0].result().version(), &words, &times(&inputs));
        }
    }
    table.version_means();
    table
}

fn inputs(family: Family, nodes: usize, listed: fn(&Graph) -> Vec<NodeId>) -> Vec<Listed> {
    let forms = several(|rng| family(rng, nodes));
    let with_list = |form: &Vec<u8>| Listed::new(form, listed(&decode(form)));
    forms.iter().map(with_list).collect()
}

/// The most nodes of a family with which the results are within the limits of a version. By chance some more might do.
fn most_nodes(version: Version, family: Family, listed: fn(&Graph) -> Vec<NodeId>) -> usize {
    let [mut most, mut too_many] = [FEW, version.most.nodes + 1];
    while most + 1 < too_many {
        let nodes = (most + too_many) / 2;
        let mut inputs = inputs(family, nodes, listed).into_iter();
        if inputs.all(|input| input.result().within(&version.most)) {
            most = nodes;
        } else {
            too_many = nodes;
        }
    }
    most
}

pub fn spiderize<T: AsRef<[u8]>>(forms: &[T], room: &mut [u8]) -> Vec<f64> {
    graph_times(
        forms,
        |src, out| ohg_spiderize(src.as_ref(), out, room),
        |graph, _| replace_by_spiderized(graph, &all(graph)),
    )
}

pub fn spiderize_nodes(inputs: &[Listed], room: &mut [u8]) -> Vec<f64> {
    graph_times(
        inputs,
        |src, out| ohg_spiderize_nodes(&src.form, &src.ids, out, room),
        |graph, src| replace_by_spiderized(graph, &src.nodes),
    )
}

/// The original takes the graph and gives another, with a second `WithSpider` about each label, which is taken off as the
/// answer would have to be.
fn replace_by_spiderized(graph: &mut Graph, nodes: &[NodeId]) {
    let taken = std::mem::replace(graph, Graph::empty());
    let spiderized = taken
        .spiderize_nodes(nodes)
        .expect("joined nodes have one label");
    *graph = flattened(spiderized);
}
