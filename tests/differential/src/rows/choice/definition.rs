//! Document 01's choice by its stages, with the count of what is removed freely, what each stage frees and chooses, what the first
//! of them leaves, and the no-loop check.

use crate::convert::Graph;
use std::cmp::Reverse;
use std::collections::BinaryHeap;

/// The arcs by their ends: from each source node to its edge, from each edge to its target node. Edges are numbered on
/// after the nodes.
struct Arcs {
    outgoing: Vec<Vec<usize>>,
    incoming: Vec<Vec<usize>>,
}

/// What remains of a graph, and for each vertex how many arcs lead to it and from it among that.
struct Rest {
    arcs: Arcs,
    left: Vec<bool>,
    into: Vec<usize>,
    out: Vec<usize>,
    /// Vertices that may have lost their last arc in or out.
    perhaps_loose: Vec<usize>,
}

/// A stage of the choice.
pub struct Stage {
    /// What goes freely before its choice: what is left is its core.
    pub freed: Vec<usize>,
    /// The node that is chosen, and its arcs in and out in the core; the last stage has none.
    pub chosen: Option<(usize, [usize; 2])>,
}

/// The chosen nodes, ascending, and the number of vertices removed freely: of each stage, those outside its core.
pub fn choice(graph: &Graph) -> (Vec<usize>, usize) {
    let none = vec![false; graph.hypergraph.nodes.len()];
    choice_keeping(graph, &none).expect("a core that is not empty has a node")
}

/// The same among the nodes that are not kept; none where they have gone and there is still a core.
pub fn choice_keeping(graph: &Graph, kept: &[bool]) -> Option<(Vec<usize>, usize)> {
    let mut rest = Rest::of(graph);
    // `max_by_key` takes the last of several; from the highest id down that is the lowest.
    let mut in_core: Vec<usize> = (0..kept.len()).rev().filter(|&node| !kept[node]).collect();
    let mut chosen = vec![];
    let mut free = 0;
    loop {
        free += rest.take_loose().len();
        in_core.retain(|&node| rest.left[node]);
        let score = |node: &&usize| rest.score(**node);
        let Some(&best) = in_core.iter().max_by_key(score) else {
            chosen.sort_unstable();
            return (!rest.left.contains(&true)).then_some((chosen, free));
        };
        chosen.push(best);
        rest.take(best);
    }
}

/// All stages where no node is kept. Scores never rise, so the nodes wait by the score that they had when they were last looked
/// at.
pub fn stages(graph: &Graph) -> Vec<Stage> {
    let mut rest = Rest::of(graph);
    let mut freed = rest.take_loose();
    let by_score = |node: usize, rest: &Rest| (rest.score(node), Reverse(node));
    let left = (0..graph.hypergraph.nodes.len()).filter(|&node| rest.left[node]);
    let mut waiting: BinaryHeap<_> = left.map(|node| by_score(node, &rest)).collect();
    let mut stages = vec![];
    while let Some((score, Reverse(node))) = waiting.pop() {
        if !rest.left[node] {
            continue;
        }
        if score > rest.score(node) {
            waiting.push(by_score(node, &rest));
            continue;
        }
        let chosen = Some((node, [rest.into[node], rest.out[node]]));
        stages.push(Stage { freed, chosen });
        rest.take(node);
        freed = rest.take_loose();
    }
    let chosen = None;
    stages.push(Stage { freed, chosen });
    stages
}

/// For each vertex of the first core the lowest there that an arc leads to from it; none for those outside of it.
pub fn lowest_in_core(graph: &Graph) -> Vec<Option<usize>> {
    let mut rest = Rest::of(graph);
    rest.take_loose();
    let lowest = |ends: &Vec<usize>| ends.iter().copied().filter(|&to| rest.left[to]).min();
    let of = |vertex: usize| lowest(&rest.arcs.outgoing[vertex]).filter(|_| rest.left[vertex]);
    (0..rest.left.len()).map(of).collect()
}

/// No directed cycle: every vertex can be taken away, each when no arc leads to it any more.
pub fn no_loop(graph: &Graph) -> bool {
    let arcs = Arcs::of(graph);
    let mut into: Vec<usize> = arcs.incoming.iter().map(Vec::len).collect();
    let mut ready: Vec<usize> = (0..into.len()).filter(|&v| into[v] == 0).collect();
    let mut taken = 0;
    while let Some(vertex) = ready.pop() {
        taken += 1;
        for &to in &arcs.outgoing[vertex] {
            into[to] -= 1;
            if into[to] == 0 {
                ready.push(to);
            }
        }
    }
    taken == into.len()
}

impl Arcs {
    fn of(graph: &Graph) -> Self {
        let nodes = graph.hypergraph.nodes.len();
        let vertices = nodes + graph.hypergraph.edges.len();
        let mut arcs = Arcs {
            outgoing: vec![vec![]; vertices],
            incoming: vec![vec![]; vertices],
        };
        for (edge, adjacency) in graph.hypergraph.adjacency.iter().enumerate() {
            for node in &adjacency.sources {
                arcs.add(node.0, nodes + edge);
            }
            for node in &adjacency.targets {
                arcs.add(nodes + edge, node.0);
            }
        }
        arcs
    }

    fn add(&mut self, from: usize, to: usize) {
        self.outgoing[from].push(to);
        self.incoming[to].push(from);
    }
}

impl Rest {
    fn of(graph: &Graph) -> Self {
        let arcs = Arcs::of(graph);
        Rest {
            left: vec![true; arcs.outgoing.len()],
            into: arcs.incoming.iter().map(Vec::len).collect(),
            out: arcs.outgoing.iter().map(Vec::len).collect(),
            perhaps_loose: (0..arcs.outgoing.len()).collect(),
            arcs,
        }
    }

    fn take(&mut self, vertex: usize) {
        self.left[vertex] = false;
        for &to in &self.arcs.outgoing[vertex] {
            self.into[to] -= 1;
            self.perhaps_loose.push(to);
        }
        for &from in &self.arcs.incoming[vertex] {
            self.out[from] -= 1;
            self.perhaps_loose.push(from);
        }
    }

    fn score(&self, vertex: usize) -> usize {
        self.into[vertex] * self.out[vertex]
    }

    /// Takes away vertices without an arc in or without an arc out until there is none, and says which these were. The core is
    /// left.
    fn take_loose(&mut self) -> Vec<usize> {
        let mut taken = vec![];
        while let Some(vertex) = self.perhaps_loose.pop() {
            if self.left[vertex] && (self.into[vertex] == 0 || self.out[vertex] == 0) {
                self.take(vertex);
                taken.push(vertex);
            }
        }
        taken
    }
}

#[cfg(test)]
mod tests {
    use super::*;
    use crate::cases::small;
    use crate::convert::to_lax;
    use crate::rng::Rng;

    /// Document 01 says it in two ways; this is the second, by trying all sets.
    #[test]
    fn the_core_is_the_largest_set_with_arcs_in_and_out_within_it() {
        for drawing in small::graphs([2, 2, 3], false, Rng::new(1)) {
            let mut rest = Rest::of(&to_lax(&drawing));
            rest.take_loose();
            let arcs = &rest.arcs;
            let vertices = arcs.outgoing.len();
            let stays = |set: usize| {
                let within = |ends: &[usize]| ends.iter().any(|end| set >> end & 1 == 1);
                (0..vertices)
                    .filter(|v| set >> v & 1 == 1)
                    .all(|v| within(&arcs.incoming[v]) && within(&arcs.outgoing[v]))
            };
            let all = (0..1 << vertices).filter(|&set| stays(set));
            let largest = all.fold(0, |union, set| union | set);
            assert!((0..vertices).all(|v| rest.left[v] == (largest >> v & 1 == 1)));
        }
    }
}
