//! T-10's stages word by word, each core found from nothing, and directed cycles by what can be reached.

use crate::convert::Graph;

pub fn vertices(graph: &Graph) -> usize {
    graph.hypergraph.nodes.len() + graph.hypergraph.edges.len()
}

/// From each source node to its edge, from each edge to its target node, as often as it is entered. Edges are numbered on after
/// the nodes.
pub fn arcs(graph: &Graph) -> Vec<(usize, usize)> {
    let nodes = graph.hypergraph.nodes.len();
    let mut arcs = vec![];
    for (i, edge) in graph.hypergraph.adjacency.iter().enumerate() {
        arcs.extend(edge.sources.iter().map(|node| (node.0, nodes + i)));
        arcs.extend(edge.targets.iter().map(|node| (nodes + i, node.0)));
    }
    arcs
}

/// The chosen nodes, ascending, and the free count; none where a core that is not empty has no node that may be chosen.
pub fn by_stages(graph: &Graph, kept: &[bool]) -> Option<(Vec<usize>, usize)> {
    let mut arcs = arcs(graph);
    let mut rest = vertices(graph);
    let (mut chosen, mut free) = (vec![], 0);
    loop {
        arcs = within_core(arcs);
        let in_core = |v: &usize| arcs.iter().any(|arc| arc.0 == *v);
        let core = (0..vertices(graph)).filter(in_core).count();
        free += rest - core;
        if core == 0 {
            chosen.sort_unstable();
            return Some((chosen, free));
        }
        let score = |v: usize| {
            let into = arcs.iter().filter(|arc| arc.1 == v).count();
            into * arcs.iter().filter(|arc| arc.0 == v).count()
        };
        let may_be_chosen = |v: &usize| in_core(v) && !kept[*v];
        let others: Vec<usize> = (0..kept.len()).filter(may_be_chosen).collect();
        let most = others.iter().map(|&v| score(v)).max()?;
        let best = others.into_iter().find(|&v| score(v) == most)?;
        chosen.push(best);
        arcs.retain(|arc| arc.0 != best && arc.1 != best);
        rest = core - 1;
    }
}

/// The arcs within the core: of those from a vertex that none leads to and of those to one that none leads from there are none.
pub fn within_core(mut arcs: Vec<(usize, usize)>) -> Vec<(usize, usize)> {
    loop {
        let goes_on = |(from, to): &(usize, usize)| {
            arcs.iter().any(|arc| arc.1 == *from) && arcs.iter().any(|arc| arc.0 == *to)
        };
        let left: Vec<_> = arcs.iter().copied().filter(goes_on).collect();
        if left.len() == arcs.len() {
            return left;
        }
        arcs = left;
    }
}

/// Whether a directed cycle passes only through vertices that stay: a way on from some vertex comes back to one on it.
pub fn has_cycle(graph: &Graph, stays: &[bool]) -> bool {
    let mut next = vec![vec![]; stays.len()];
    for (from, to) in arcs(graph) {
        if stays[from] && stays[to] {
            next[from].push(to);
        }
    }
    let mut on_way = vec![false; stays.len()];
    let mut done = vec![false; stays.len()];
    for start in 0..stays.len() {
        let mut way = vec![start];
        while let Some(&vertex) = way.last() {
            on_way[vertex] = true;
            match next[vertex].pop() {
                Some(to) if on_way[to] => return true,
                Some(to) if done[to] => {}
                Some(to) => way.push(to),
                None => {
                    way.pop();
                    on_way[vertex] = false;
                    done[vertex] = true;
                }
            }
        }
    }
    false
}

#[cfg(test)]
pub mod tests {
    use super::*;
    use crate::cases::small;
    use crate::convert::to_lax;
    use crate::rng::Rng;

    /// The vertices of the first core.
    pub fn first_core(graph: &Graph) -> Vec<usize> {
        let arcs = within_core(arcs(graph));
        arcs.into_iter().map(|arc| arc.0).collect()
    }

    /// The vertices that ways of one arc or more lead to.
    pub fn reached_from(graph: &Graph, start: usize) -> Vec<usize> {
        let arcs = arcs(graph);
        let mut reached = vec![];
        let mut waiting = vec![start];
        while let Some(vertex) = waiting.pop() {
            for arc in arcs.iter().filter(|arc| arc.0 == vertex) {
                if !reached.contains(&arc.1) {
                    reached.push(arc.1);
                    waiting.push(arc.1);
                }
            }
        }
        reached
    }

    #[test]
    fn a_cycle_leads_from_a_vertex_to_itself() {
        for drawing in small::graphs([2, 2, 3], false, Rng::new(1)) {
            let graph = to_lax(&drawing);
            let all = 0..vertices(&graph);
            let closed = |v: usize| reached_from(&graph, v).contains(&v);
            let found = has_cycle(&graph, &vec![true; all.len()]);
            assert_eq!(found, all.into_iter().any(closed));
        }
    }
}
