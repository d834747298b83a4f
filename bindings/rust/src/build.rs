//! Many building and deleting steps, sent in one call.

use crate::exported::ohg_build;
use crate::lent::{self, answered, step_of};
use crate::{number, EdgeId, Graph, Interface, NodeId, Refusal, Refused, RefusedStep};
use std::collections::HashSet;

/// The kinds of steps: `OHG_STEP_NEW_NODE` and so on.
const NEW_NODE: u8 = 1;
const NEW_EDGE: u8 = 2;
const NEW_OPERATION: u8 = 3;
const UNIFY: u8 = 4;
const ADD_EDGE_SOURCE: u8 = 5;
const ADD_EDGE_TARGET: u8 = 6;
const DELETE_EDGES: u8 = 7;
const DELETE_NODES: u8 = 8;

/// No kind of step: it is refused by 12.
const NO_KIND: u8 = 0;

/// Building and deleting steps on a graph, which [`finish`](Builder::finish) sends in one call. They give the graph that the
/// methods of [`Graph`] with the same names would give one after the other, or leave it as it is.
///
/// Nothing is checked before. Ids are those of the graph that the steps before have made, as the single calls would answer
/// them: [`next_node`](Builder::next_node) and [`next_edge`](Builder::next_edge) tell them, provided that no step is refused.
///
/// ```
/// use ohg::{Graph, Refused};
///
/// # fn main() -> Result<(), Refused> {
/// let mut graph = Graph::empty();
/// let steps = graph.build();
/// let wire = steps.next_node();
/// steps.new_node(64).new_edge(9, &[wire], &[wire]).finish()?;
/// assert!(!graph.no_loop()?);
/// # Ok(())
/// # }
/// ```
#[derive(Debug)]
#[must_use = "steps are sent by `finish`"]
pub struct Builder<'a> {
    graph: &'a mut Graph,
    steps: Vec<u8>,
    nodes: u32,
    edges: u32,
}

impl Graph {
    /// Begins with steps on this graph, which are sent in one call.
    pub fn build(&mut self) -> Builder<'_> {
        let (nodes, edges) = (self.node_count(), self.edge_count());
        Builder {
            graph: self,
            steps: vec![],
            nodes,
            edges,
        }
    }

    /// The edge count, which stands after the node count.
    fn edge_count(&self) -> u32 {
        let width = self.width();
        number(&self.form[5 + width..][..width])
    }
}

impl Builder<'_> {
    /// The id that the next new node will have.
    pub fn next_node(&self) -> NodeId {
        NodeId(self.nodes)
    }

    /// The id that the next new edge will have.
    pub fn next_edge(&self) -> EdgeId {
        EdgeId(self.edges)
    }

    /// The nodes that the next step will have, if it is an operation of so many sources and targets. Ids that 4 bytes do not
    /// hold are left out; such an operation is refused.
    pub fn next_interface(&self, sources: usize, targets: usize) -> Interface {
        let mut fresh = (self.nodes..=u32::MAX).map(NodeId);
        let sources = fresh.by_ref().take(sources).collect();
        (sources, fresh.take(targets).collect())
    }

    /// Adds a node.
    pub fn new_node(mut self, label: u32) -> Self {
        self.put(NEW_NODE, [label]);
        self.nodes = self.nodes.saturating_add(1);
        self
    }

    /// Adds an edge between nodes that are there. Label [`SPIDER`](crate::SPIDER) makes a spider.
    pub fn new_edge(mut self, label: u32, sources: &[NodeId], targets: &[NodeId]) -> Self {
        let ids = sources.iter().chain(targets).map(|node| node.0);
        let lengths = [sources.len(), targets.len()];
        self.put_lists(NEW_EDGE, Some(label), lengths, ids);
        self.edges = self.edges.saturating_add(1);
        self
    }

    /// Adds a node for each source label, then one for each target label, then an edge between them.
    pub fn new_operation(mut self, label: u32, sources: &[u32], targets: &[u32]) -> Self {
        let labels = sources.iter().chain(targets).copied();
        let lengths = [sources.len(), targets.len()];
        self.put_lists(NEW_OPERATION, Some(label), lengths, labels);
        let [sources, targets] = lengths.map(capped);
        let fresh = sources.saturating_add(targets);
        self.nodes = self.nodes.saturating_add(fresh);
        self.edges = self.edges.saturating_add(1);
        self
    }

    /// Adds a pending pair of nodes. No labels are compared.
    pub fn unify(mut self, v: NodeId, w: NodeId) -> Self {
        self.put(UNIFY, [v.0, w.0]);
        self
    }

    /// Adds a node at the end of an edge's sources.
    pub fn add_edge_source(mut self, edge: EdgeId, label: u32) -> Self {
        self.put(ADD_EDGE_SOURCE, [edge.0, label]);
        self.nodes = self.nodes.saturating_add(1);
        self
    }

    /// Adds a node at the end of an edge's targets.
    pub fn add_edge_target(mut self, edge: EdgeId, label: u32) -> Self {
        self.put(ADD_EDGE_TARGET, [edge.0, label]);
        self.nodes = self.nodes.saturating_add(1);
        self
    }

    /// Deletes edges; the rest keep their order. Repeated ids count once.
    pub fn delete_edges(mut self, edges: &[EdgeId]) -> Self {
        let ids = edges.iter().map(|edge| edge.0);
        self.put_lists(DELETE_EDGES, None, [edges.len()], ids.clone());
        self.edges = left(self.edges, ids);
        self
    }

    /// Deletes nodes with every entry of them and each pair that one of them is in, and numbers the rest anew in order.
    pub fn delete_nodes(mut self, nodes: &[NodeId]) -> Self {
        let ids = nodes.iter().map(|node| node.0);
        self.put_lists(DELETE_NODES, None, [nodes.len()], ids.clone());
        self.nodes = left(self.nodes, ids);
        self
    }

    /// Sends all steps in one call. A refusal at a step, of which the index is told, refuses them all, and the graph is as it
    /// was. Where the index is not asked for, `?` makes a [`Refused`] of what is given.
    ///
    /// Refused: [`BadList`](Refusal::BadList), [`ResultLimit`](Refusal::ResultLimit) where any of the steps passes a limit,
    /// [`BadStep`](Refusal::BadStep) for a list that is longer than 4 bytes can tell.
    ///
    /// ```
    /// use ohg::{Graph, NodeId, Refusal};
    ///
    /// let mut graph = Graph::empty();
    /// let steps = graph.build().new_node(64).new_edge(9, &[NodeId(0), NodeId(1)], &[]);
    /// let refused = steps.finish().unwrap_err();
    /// assert_eq!(refused.by, Refusal::BadList);
    /// assert_eq!((refused.step, refused.place), (Some(1), 1));
    /// assert_eq!(graph, Graph::empty());
    /// ```
    pub fn finish(self) -> Result<(), RefusedStep> {
        let Builder { graph, steps, .. } = self;
        lent::with(|lent| {
            let packed = ohg_build(&graph.form, &steps, &mut lent.form, &mut lent.room);
            let (bytes, _) = answered(packed).map_err(|Refused { by, place }| RefusedStep {
                by,
                place,
                step: is_of_a_step(by).then(|| step_of(packed)),
            })?;
            lent.form[..bytes].clone_into(&mut graph.form);
            Ok(())
        })
    }

    fn put(&mut self, kind: u8, numbers: impl IntoIterator<Item = u32>) {
        self.steps.push(kind);
        let bytes = numbers.into_iter().flat_map(u32::to_le_bytes);
        self.steps.extend(bytes);
    }

    /// A step with lists of these lengths, in one row of entries. Where 4 bytes cannot tell a length it is a step of no kind.
    fn put_lists<const N: usize>(
        &mut self,
        kind: u8,
        label: Option<u32>,
        lengths: [usize; N],
        entries: impl Iterator<Item = u32>,
    ) {
        if lengths.iter().any(|&length| u32::try_from(length).is_err()) {
            self.put(NO_KIND, []);
            return;
        }
        let head = label.into_iter().chain(lengths.map(capped));
        self.put(kind, head.chain(entries));
    }
}

/// Whether this refusal is given at a step. The others are of the graph read and of what was lent.
fn is_of_a_step(by: Refusal) -> bool {
    matches!(
        by,
        Refusal::BadStep | Refusal::BadList | Refusal::ResultLimit
    )
}

/// A length in 4 bytes, or the highest number.
fn capped(length: usize) -> u32 {
    u32::try_from(length).unwrap_or(u32::MAX)
}

/// How many are left of so many when those of these ids have gone.
fn left(of: u32, gone: impl Iterator<Item = u32>) -> u32 {
    let gone: HashSet<u32> = gone.filter(|&id| id < of).collect();
    of - gone.len() as u32
}

#[cfg(test)]
mod tests {
    use super::*;

    /// Such a list has 16 GB, so that of its step only the length is tried.
    #[test]
    fn a_list_that_4_bytes_cannot_tell_is_a_step_of_no_kind() {
        let mut graph = Graph::empty();
        for length in [1 << 32, usize::MAX] {
            let mut steps = graph.build().new_node(7);
            steps.put_lists(DELETE_NODES, None, [length], [0].into_iter());
            let refused = steps.new_node(7).finish().unwrap_err();
            assert_eq!((refused.by, refused.step), (Refusal::BadStep, Some(1)));
        }
        assert_eq!(graph, Graph::empty());
    }

    #[test]
    fn ids_are_predicted_up_to_the_highest() {
        let mut graph = Graph::empty();
        let mut steps = graph.build();
        steps.nodes = u32::MAX - 1;
        let ids = vec![NodeId(u32::MAX - 1), NodeId(u32::MAX)];
        assert_eq!(steps.next_interface(3, 1), (ids, vec![]));
        assert_eq!(steps.new_node(7).new_node(7).next_node(), NodeId(u32::MAX));
    }
}
