//! Open hypergraphs in a stored form, built, cut, checked and made explicit by `libohg.a`. Every function of that library
//! is proved to give exactly the answer, or the refusal, of its definition.
//!
//! A [`Graph`] owns the stored bytes of a drawing. Its methods have the names of the Rust original, open-hypergraphs;
//! where that panics, or takes an id that is not there, they refuse. Each names the [`Refusal`]s that it may give; what is
//! given is a [`Refused`], which says the place too. A refused call changes nothing. Lists may have any length; what passes a
//! limit is refused. Many building steps are sent in one call by [`Graph::build`], which gives a [`RefusedStep`].
//!
//! ```
//! use ohg::{Graph, NodeId, Refused};
//!
//! # fn main() -> Result<(), Refused> {
//! let mut graph = Graph::empty();
//! let wire = graph.new_node(64)?;
//! graph.new_edge(9, &[wire], &[wire])?;
//! assert!(!graph.no_loop()?);
//!
//! let choice = graph.cycle_breaking_nodes()?;
//! assert_eq!(choice.nodes, [NodeId(0)]);
//! assert!(graph.spiderize_nodes(&choice.nodes)?.no_loop()?);
//! # Ok(())
//! # }
//! ```

#![deny(unsafe_code)]
#![warn(missing_docs)]

mod build;
#[allow(unsafe_code)]
mod exported;
mod lent;
#[cfg(feature = "price")]
pub mod price;
mod refusal;

pub use build::Builder;
use exported::*;
use lent::{answered, Lent};
pub use refusal::{Refusal, Refused, RefusedStep};
use std::{array, fmt};

/// The edge label that says spider; every other value is an operation.
pub const SPIDER: u32 = u32::MAX;

/// The names of the kinds 1 to 12 in the catalogue of parts. An operation's label is its kind.
pub const KINDS: [&str; 12] = [
    "receive",
    "transmit",
    "parser",
    "hash",
    "server table",
    "pick",
    "rewriter",
    "probe",
    "counter",
    "splitter",
    "joiner",
    "flow store",
];

/// The bytes of a node's reason, in both versions of the stored form: `OHG_REASON_BYTES`.
const REASON_BYTES: usize = 16;

/// A node's id. Ids count from 0.
#[derive(Debug, Clone, Copy, PartialEq, Eq, PartialOrd, Ord, Hash)]
pub struct NodeId(pub u32);

/// An edge's id. Ids count from 0.
#[derive(Debug, Clone, Copy, PartialEq, Eq, PartialOrd, Ord, Hash)]
pub struct EdgeId(pub u32);

/// The source nodes and the target nodes of an operation.
pub type Interface = (Vec<NodeId>, Vec<NodeId>);

/// How many there are of each part of a graph.
#[derive(Debug, Clone, Copy, PartialEq, Eq, Hash)]
pub struct Sizes {
    /// Nodes, at most 16,384.
    pub nodes: usize,
    /// Edges, at most 16,384.
    pub edges: usize,
    /// Source and target entries of all edges, at most 65,536.
    pub ports: usize,
    /// Global source entries, at most 8,192.
    pub sources: usize,
    /// Global target entries, at most 8,192.
    pub targets: usize,
    /// Pending pairs, at most 8,192.
    pub pairs: usize,
}

/// Nodes that every directed cycle passes through.
#[derive(Debug, Clone, PartialEq, Eq)]
pub struct Choice {
    /// The chosen nodes, ascending; none exactly where there is no directed cycle.
    pub nodes: Vec<NodeId>,
    /// How many nodes and edges were removed freely, since nothing led to them or they led to nothing.
    pub free: usize,
}

/// Why [`cycle_breaking_nodes`](Graph::cycle_breaking_nodes) chose a node, or why the node was freed. The choice goes by
/// stages, counted from 1. A stage begins with what remained after the choice before it; all that goes freely is freed, what
/// is left is the stage's core, and one of its nodes is chosen. The last stage has an empty core and chooses none. Paths are
/// those through what remained when the stage began.
#[derive(Debug, Clone, Copy, PartialEq, Eq, Hash)]
pub enum Reason {
    /// Chosen at this stage.
    Chosen {
        /// The stage.
        stage: u32,
        /// How many arcs led to the node in the stage's core.
        arcs_in: u32,
        /// How many arcs led on from it there.
        arcs_out: u32,
    },
    /// Freed before this stage's choice: no core vertex of the stage leads to the node.
    NotLedTo {
        /// The stage.
        stage: u32,
    },
    /// Freed before this stage's choice: the node leads to no core vertex of the stage, though some core vertex leads to it.
    LeadsToNone {
        /// The stage.
        stage: u32,
    },
}

/// A vertex of a directed cycle, which passes nodes and edges by turns.
#[derive(Debug, Clone, Copy, PartialEq, Eq, PartialOrd, Ord, Hash)]
pub enum Vertex {
    /// It enters the edge that follows.
    Node(NodeId),
    /// The node that follows is one of its targets.
    Edge(EdgeId),
}

/// One directed cycle.
#[derive(Debug, Clone, PartialEq, Eq)]
pub struct Loop {
    /// Its nodes and edges by turns, each once, in the order in which it passes them; the last leads to the first. There are
    /// none exactly where there is no directed cycle.
    pub vertices: Vec<Vertex>,
    /// How many steps the walk took that found it, those before the loop and the closing one included.
    pub steps: usize,
}

/// A drawing as its stored bytes, which are always a valid form. One graph has one form, so equal graphs have equal
/// bytes: version 1 of the stored form where the graph fits it, else version 2. Ids and their lists are the same in both.
#[derive(Debug, Clone, PartialEq, Eq, Hash)]
pub struct Graph {
    form: Vec<u8>,
}

impl Graph {
    /// The graph that these bytes store.
    ///
    /// Refused: [`NoHeader`](Refusal::NoHeader), [`NoMark`](Refusal::NoMark), [`OtherVersion`](Refusal::OtherVersion),
    /// [`OverLimit`](Refusal::OverLimit), [`OtherLength`](Refusal::OtherLength), [`ForeignId`](Refusal::ForeignId),
    /// [`OtherForm`](Refusal::OtherForm).
    pub fn from_bytes(bytes: impl Into<Vec<u8>>) -> Result<Graph, Refused> {
        let form = bytes.into();
        read(&form)?;
        Ok(Graph { form })
    }

    /// The graph with nothing in it.
    pub fn empty() -> Graph {
        let empty = Graph::made(|lent| ohg_empty(&mut lent.form));
        empty.expect("the empty graph passes no limit")
    }

    /// Nodes of these labels and nothing else.
    ///
    /// Refused: [`ResultLimit`](Refusal::ResultLimit).
    pub fn discrete(nodes: &[u32]) -> Result<Graph, Refused> {
        let nodes = labels(nodes);
        Graph::made(|lent| ohg_discrete(&nodes, &mut lent.form))
    }

    /// Nodes of these labels, each a global source and a global target, in order.
    ///
    /// Refused: [`ResultLimit`](Refusal::ResultLimit).
    pub fn identity(nodes: &[u32]) -> Result<Graph, Refused> {
        let nodes = labels(nodes);
        Graph::made(|lent| ohg_identity(&nodes, &mut lent.form))
    }

    /// One edge alone, with a node for each of its source and target labels; its sources are the global sources, its
    /// targets the global targets.
    ///
    /// Refused: [`ResultLimit`](Refusal::ResultLimit).
    pub fn singleton(label: u32, sources: &[u32], targets: &[u32]) -> Result<Graph, Refused> {
        let (sources, targets) = (labels(sources), labels(targets));
        Graph::made(|lent| ohg_singleton(label, &sources, &targets, &mut lent.form))
    }

    /// The stored form.
    pub fn as_bytes(&self) -> &[u8] {
        &self.form
    }

    /// How many there are of each part.
    pub fn sizes(&self) -> Sizes {
        read(&self.form).expect("a graph holds a valid form")
    }

    /// Adds a node.
    ///
    /// Refused: [`ResultLimit`](Refusal::ResultLimit).
    pub fn new_node(&mut self, label: u32) -> Result<NodeId, Refused> {
        let node = self.replace(|form, lent| ohg_new_node(form, label, &mut lent.form))?;
        Ok(NodeId(node))
    }

    /// Adds an edge between nodes that are there. Label [`SPIDER`] makes a spider.
    ///
    /// Refused: [`BadList`](Refusal::BadList), [`ResultLimit`](Refusal::ResultLimit).
    pub fn new_edge(
        &mut self,
        label: u32,
        sources: &[NodeId],
        targets: &[NodeId],
    ) -> Result<EdgeId, Refused> {
        let (sources, targets) = (self.node_ids(sources), self.node_ids(targets));
        let edge = self
            .replace(|form, lent| ohg_new_edge(form, label, &sources, &targets, &mut lent.form))?;
        Ok(EdgeId(edge))
    }

    /// Adds a node for each source label, then one for each target label, then an edge between them.
    ///
    /// Refused: [`ResultLimit`](Refusal::ResultLimit).
    pub fn new_operation(
        &mut self,
        label: u32,
        sources: &[u32],
        targets: &[u32],
    ) -> Result<(EdgeId, Interface), Refused> {
        let mut fresh = (self.node_count()..).map(NodeId);
        let (source_labels, target_labels) = (labels(sources), labels(targets));
        let edge = self.replace(|form, lent| {
            ohg_new_operation(form, label, &source_labels, &target_labels, &mut lent.form)
        })?;
        let sources = fresh.by_ref().take(sources.len()).collect();
        let targets = fresh.take(targets.len()).collect();
        Ok((EdgeId(edge), (sources, targets)))
    }

    /// Adds a pending pair of nodes: marks them as joined, which [`quotient`](Graph::quotient) carries out. No labels are
    /// compared.
    ///
    /// Refused: [`BadList`](Refusal::BadList), [`ResultLimit`](Refusal::ResultLimit).
    pub fn unify(&mut self, v: NodeId, w: NodeId) -> Result<(), Refused> {
        self.replace(|form, lent| ohg_unify(form, v.0, w.0, &mut lent.form))?;
        Ok(())
    }

    /// Adds a node at the end of an edge's sources.
    ///
    /// Refused: [`BadList`](Refusal::BadList), [`ResultLimit`](Refusal::ResultLimit).
    pub fn add_edge_source(&mut self, edge: EdgeId, label: u32) -> Result<NodeId, Refused> {
        let node =
            self.replace(|form, lent| ohg_add_edge_source(form, edge.0, label, &mut lent.form))?;
        Ok(NodeId(node))
    }

    /// Adds a node at the end of an edge's targets.
    ///
    /// Refused: [`BadList`](Refusal::BadList), [`ResultLimit`](Refusal::ResultLimit).
    pub fn add_edge_target(&mut self, edge: EdgeId, label: u32) -> Result<NodeId, Refused> {
        let node =
            self.replace(|form, lent| ohg_add_edge_target(form, edge.0, label, &mut lent.form))?;
        Ok(NodeId(node))
    }

    /// Deletes edges; the rest keep their order. Repeated ids count once.
    ///
    /// Refused: [`BadList`](Refusal::BadList).
    pub fn delete_edges(&mut self, edges: &[EdgeId]) -> Result<(), Refused> {
        let ids = self.ids(edges.iter().map(|edge| edge.0));
        self.replace(|form, lent| ohg_delete_edges(form, &ids, &mut lent.form, &mut lent.room))?;
        Ok(())
    }

    /// Deletes nodes with every entry of them and each pair that one of them is in, and numbers the rest anew in order.
    /// Answers where each old node went.
    ///
    /// Refused: [`BadList`](Refusal::BadList).
    pub fn delete_nodes(&mut self, nodes: &[NodeId]) -> Result<Vec<Option<NodeId>>, Refused> {
        // Of the graph as it is read: what is left of it may be of the other version.
        let (width, gone) = (self.width(), self.gone());
        let (ids, mut map) = (self.node_ids(nodes), self.entry_for_each());
        self.replace(|form, lent| {
            ohg_delete_nodes(form, &ids, &mut lent.form, &mut map, &mut lent.room)
        })?;
        let kept = |entry| Some(number(entry)).filter(|&id| id != gone).map(NodeId);
        Ok(map.chunks_exact(width).map(kept).collect())
    }

    /// Carries the pending pairs out: nodes that pairs join, directly or through others, become one node with their label,
    /// numbered in order of the least of them. Every entry is renamed, edges keep their order, and no pairs are left. Answers
    /// where each old node went.
    ///
    /// Refused: [`LabelsDiffer`](Refusal::LabelsDiffer).
    pub fn quotient(&mut self) -> Result<Vec<NodeId>, Refused> {
        // Of the graph as it is read: the merged one may be of the other version.
        let width = self.width();
        let mut map = self.entry_for_each();
        self.replace(|form, lent| ohg_quotient(form, &mut lent.form, &mut map, &mut lent.room))?;
        let entries = map.chunks_exact(width);
        Ok(entries.map(|id| NodeId(number(id))).collect())
    }

    /// Chooses nodes that every directed cycle passes through: spiderizing them leaves none. They need not be the
    /// fewest.
    ///
    /// Refused: [`PendingPair`](Refusal::PendingPair).
    pub fn cycle_breaking_nodes(&self) -> Result<Choice, Refused> {
        self.choice(|list, room| ohg_cycle_breaking_nodes(&self.form, list, room))
    }

    /// Chooses such nodes, but none with an id in this list: a kept node can't take a buffer. Repeats and order have no
    /// effect, and an empty list is [`cycle_breaking_nodes`](Graph::cycle_breaking_nodes).
    ///
    /// Refused: [`BadList`](Refusal::BadList), [`PendingPair`](Refusal::PendingPair),
    /// [`KeptCycle`](Refusal::KeptCycle) exactly where some directed cycle has only kept nodes.
    pub fn cycle_breaking_nodes_keeping(&self, kept: &[u32]) -> Result<Choice, Refused> {
        let kept = self.ids(kept.iter().copied());
        self.choice(|list, room| ohg_cycle_breaking_nodes_keeping(&self.form, &kept, list, room))
    }

    /// Answers and refuses just as [`cycle_breaking_nodes_keeping`](Graph::cycle_breaking_nodes_keeping), by sweeping over
    /// the graph: it touches a twelfth of the work room, and takes longer on a large graph.
    pub fn cycle_breaking_nodes_scanning(&self, kept: &[u32]) -> Result<Choice, Refused> {
        let kept = self.ids(kept.iter().copied());
        self.choice(|list, room| ohg_cycle_breaking_nodes_scanning(&self.form, &kept, list, room))
    }

    /// Why each node is chosen by [`cycle_breaking_nodes`](Graph::cycle_breaking_nodes), or was freed: one reason for each
    /// node, in the order of ids.
    ///
    /// Refused: [`PendingPair`](Refusal::PendingPair).
    pub fn reasons(&self) -> Result<Vec<Reason>, Refused> {
        let mut entries = vec![0; REASON_BYTES * self.node_count() as usize];
        let packed = lent::with(|lent| ohg_reasons(&self.form, &mut entries, &mut lent.room));
        answered(packed)?;
        Ok(entries.chunks_exact(REASON_BYTES).map(reason).collect())
    }

    /// The graph with its joined nodes merged, as by [`quotient`](Graph::quotient), and then the wiring of all nodes made
    /// explicit by spiders.
    ///
    /// Refused: [`LabelsDiffer`](Refusal::LabelsDiffer), [`ResultLimit`](Refusal::ResultLimit).
    pub fn spiderize(&self) -> Result<Graph, Refused> {
        Graph::made(|lent| ohg_spiderize(&self.form, &mut lent.form, &mut lent.room))
    }

    /// The graph with its joined nodes merged and then the wiring of these nodes made explicit by spiders. Their ids are
    /// those before merging; repeats and order have no effect, nor has it which of joined nodes are listed.
    ///
    /// Refused: [`BadList`](Refusal::BadList), [`LabelsDiffer`](Refusal::LabelsDiffer),
    /// [`ResultLimit`](Refusal::ResultLimit).
    pub fn spiderize_nodes(&self, nodes: &[NodeId]) -> Result<Graph, Refused> {
        let ids = self.node_ids(nodes);
        Graph::made(|lent| ohg_spiderize_nodes(&self.form, &ids, &mut lent.form, &mut lent.room))
    }

    /// Shows one directed cycle, if there is one. Once all is removed that goes freely, a walk starts at the lowest node that
    /// is left and goes from a node to the lowest edge there that it enters, and from an edge to its lowest target there; the
    /// loop is closed by the first node or edge that it meets again, with which the answer begins.
    ///
    /// Refused: [`PendingPair`](Refusal::PendingPair).
    pub fn find_loop(&self) -> Result<Loop, Refused> {
        let (width, nodes) = (self.width(), self.node_count());
        // A loop has no vertex twice, and in the form each has a label of 4 bytes.
        let mut list = vec![0; self.form.len()];
        let packed = lent::with(|lent| ohg_find_loop(&self.form, &mut list, &mut lent.room));
        let (count, steps) = answered(packed)?;
        let vertex = |id: &[u8]| match number(id) {
            edge if edge >= nodes => Vertex::Edge(EdgeId(edge - nodes)),
            node => Vertex::Node(NodeId(node)),
        };
        Ok(Loop {
            vertices: list.chunks_exact(width).take(count).map(vertex).collect(),
            steps: steps as usize,
        })
    }

    /// Whether there is no directed cycle.
    ///
    /// Refused: [`PendingPair`](Refusal::PendingPair).
    pub fn no_loop(&self) -> Result<bool, Refused> {
        let packed = lent::with(|lent| ohg_no_loop(&self.form, &mut lent.room));
        Ok(answered(packed)?.0 == 1)
    }

    /// Whether each node is fed exactly once, counting edge targets and global sources, and used exactly once, counting
    /// edge sources and global targets.
    ///
    /// A node that stands twice in a list is counted twice; a graph without nodes gets a yes.
    ///
    /// Refused: [`PendingPair`](Refusal::PendingPair).
    pub fn once_fed(&self) -> Result<bool, Refused> {
        let packed = lent::with(|lent| ohg_once_fed(&self.form, &mut lent.room));
        Ok(answered(packed)?.0 == 1)
    }

    /// The graph that a call answers.
    fn made(call: impl FnOnce(&mut Lent) -> u64) -> Result<Graph, Refused> {
        lent::with(|lent| {
            let (bytes, _) = answered(call(lent))?;
            let form = lent.form[..bytes].to_vec();
            Ok(Graph { form })
        })
    }

    /// Becomes the graph that a call on this one answers, and gives the number answered beside it.
    fn replace(&mut self, call: impl FnOnce(&[u8], &mut Lent) -> u64) -> Result<u32, Refused> {
        lent::with(|lent| {
            let (bytes, beside) = answered(call(&self.form, lent))?;
            lent.form[..bytes].clone_into(&mut self.form);
            Ok(beside)
        })
    }

    /// The choice that a call on this graph answers in a list, given work room.
    fn choice(&self, call: impl FnOnce(&mut [u8], &mut [u8]) -> u64) -> Result<Choice, Refused> {
        let mut list = self.entry_for_each();
        let packed = lent::with(|lent| call(&mut list, &mut lent.room));
        let (count, free) = answered(packed)?;
        let nodes = list.chunks_exact(self.width()).take(count);
        let nodes = nodes.map(|id| NodeId(number(id))).collect();
        Ok(Choice {
            nodes,
            free: free as usize,
        })
    }

    /// The bytes of a count and of an id, in the form and in the lists and maps of calls on this graph: `ohg_width`.
    fn width(&self) -> usize {
        match self.form[3] {
            1 => 2,
            _ => 4,
        }
    }

    /// The node count, which stands after the mark and the version.
    fn node_count(&self) -> u32 {
        number(&self.form[5..][..self.width()])
    }

    /// What stands in the map of a deletion for a node that went.
    fn gone(&self) -> u32 {
        match self.width() {
            2 => u16::MAX.into(),
            _ => u32::MAX,
        }
    }

    /// A list or map that a call on this graph is to fill: no longer than an entry for each node.
    fn entry_for_each(&self) -> Vec<u8> {
        vec![0; self.width() * self.node_count() as usize]
    }

    /// A list of ids as a call on this graph takes it. One that does not fit becomes the highest that does: no graph has
    /// that one, so it is refused as well.
    fn ids(&self, list: impl Iterator<Item = u32>) -> Vec<u8> {
        let (width, highest) = (self.width(), self.gone());
        list.flat_map(|id| id.min(highest).to_le_bytes().into_iter().take(width))
            .collect()
    }

    /// A list of node ids as a call on this graph takes it.
    fn node_ids(&self, list: &[NodeId]) -> Vec<u8> {
        self.ids(list.iter().map(|node| node.0))
    }
}

impl fmt::Display for Vertex {
    fn fmt(&self, f: &mut fmt::Formatter) -> fmt::Result {
        match self {
            Vertex::Node(node) => write!(f, "node {}", node.0),
            Vertex::Edge(edge) => write!(f, "edge {}", edge.0),
        }
    }
}

/// The sizes of the graph that these bytes store.
fn read(form: &[u8]) -> Result<Sizes, Refused> {
    let mut sizes = [0; 24];
    answered(ohg_read(form, &mut sizes))?;
    let [nodes, edges, ports, sources, targets, pairs] =
        array::from_fn(|i| number(&sizes[4 * i..][..4]) as usize);
    Ok(Sizes {
        nodes,
        edges,
        ports,
        sources,
        targets,
        pairs,
    })
}

/// The reason that these bytes store: kind, stage, arcs in and arcs out.
fn reason(entry: &[u8]) -> Reason {
    let [kind, stage, arcs_in, arcs_out] = array::from_fn(|i| number(&entry[4 * i..][..4]));
    match kind {
        0 => Reason::Chosen {
            stage,
            arcs_in,
            arcs_out,
        },
        1 => Reason::NotLedTo { stage },
        _ => Reason::LeadsToNone { stage },
    }
}

/// The number that these bytes store.
fn number(bytes: &[u8]) -> u32 {
    let higher = |n, &byte| n << 8 | u32::from(byte);
    bytes.iter().rev().fold(0, higher)
}

/// A list of labels as a call takes it.
fn labels(list: &[u32]) -> Vec<u8> {
    list.iter().flat_map(|label| label.to_le_bytes()).collect()
}
