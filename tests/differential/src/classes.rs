//! Merging as T-01 of document 02 defines it. The original has it too, but there it runs through shims, so it is written here
//! once more, apart from them.

use crate::convert::Graph;
use oracle::lax::NodeId;

/// For each of so many nodes the number of its class. Two nodes are of one class where pairs lead from one to the other, in
/// either direction and through any others; classes are numbered in order of their least members.
pub fn classes(nodes: usize, pairs: impl Iterator<Item = (usize, usize)>) -> Vec<usize> {
    let mut joined = vec![vec![]; nodes];
    for (v, w) in pairs {
        joined[v].push(w);
        joined[w].push(v);
    }
    let mut classes = vec![None; nodes];
    let mut count = 0;
    for least in 0..nodes {
        if classes[least].is_some() {
            continue;
        }
        let mut reached = vec![least];
        while let Some(node) = reached.pop() {
            if classes[node].is_none() {
                classes[node] = Some(count);
                reached.extend(&joined[node]);
            }
        }
        count += 1;
    }
    let known = |class: Option<usize>| class.expect("each node was reached");
    classes.into_iter().map(known).collect()
}

/// The merged graph and where each node went; none where two nodes of one class have different labels.
pub fn merged(graph: &Graph) -> Option<(Graph, Vec<usize>)> {
    let hypergraph = &graph.hypergraph;
    let (left, right) = &hypergraph.quotient;
    let pairs = left.iter().zip(right).map(|(v, w)| (v.0, w.0));
    let map = classes(hypergraph.nodes.len(), pairs);

    let mut labels = vec![];
    for (label, &class) in hypergraph.nodes.iter().zip(&map) {
        if class == labels.len() {
            labels.push(*label);
        }
        if labels[class] != *label {
            return None;
        }
    }
    let mut merged = graph.clone();
    merged.hypergraph.nodes = labels;
    merged.hypergraph.quotient = (vec![], vec![]);
    let edges = merged.hypergraph.adjacency.iter_mut();
    let of_edges = edges.flat_map(|edge| edge.sources.iter_mut().chain(&mut edge.targets));
    of_edges
        .chain(&mut merged.sources)
        .chain(&mut merged.targets)
        .for_each(|node| *node = NodeId(map[node.0]));
    Some((merged, map))
}

#[cfg(test)]
mod tests {
    use super::*;

    #[test]
    fn classes_are_numbered_by_their_least_members() {
        let of = |nodes, pairs: &[(usize, usize)]| classes(nodes, pairs.iter().copied());
        assert_eq!(of(0, &[]), []);
        assert_eq!(of(3, &[]), [0, 1, 2]);
        assert_eq!(of(3, &[(1, 1)]), [0, 1, 2]);
        assert_eq!(of(4, &[(3, 2), (2, 1), (1, 0)]), [0; 4]);
        assert_eq!(of(5, &[(4, 2), (3, 1), (3, 1)]), [0, 1, 2, 1, 2]);
    }
}
