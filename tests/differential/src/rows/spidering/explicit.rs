//! T-11 of document 02: what holds of a graph once every node is spiderized, counted from the graph after merging.

use crate::classes;
use crate::convert::{sizes, Graph};
use crate::form::{Sizes, VERSION_1};
use crate::rows::choice::definition::no_loop;
use crate::rows::once_fed::is_once_fed;

/// Holds what became of a graph against T-11: each node is fed exactly once and used exactly once, no directed cycle
/// exists, and the ports, and all other sizes, are those that follow from the merged graph's.
pub fn hold(graph: &Graph, spiderized: &Graph) {
    let (merged, _) = classes::merged(graph).expect("what is spiderized was merged");
    assert!(is_once_fed(spiderized), "each node is fed and used once");
    assert!(no_loop(spiderized), "spiderizing all leaves no loop");
    assert_eq!(sizes(spiderized), spiderized_sizes(sizes(&merged)));
}

/// The old ports, two for each node, and all edge and global entries; a fresh node for each entry, two edges for each node.
pub fn spiderized_sizes(merged: Sizes) -> Sizes {
    let entries = merged.ports + merged.sources + merged.targets;
    Sizes {
        nodes: merged.nodes + entries,
        edges: merged.edges + 2 * merged.nodes,
        ports: merged.ports + 2 * merged.nodes + entries,
        ..merged
    }
}

/// The length of the answered form, as docs/INTERFACE.md has it.
pub fn form_bytes(merged: Sizes) -> usize {
    let others = merged.edges + merged.ports + merged.sources + merged.targets;
    if spiderized_sizes(merged).version() == VERSION_1 {
        15 + 24 * merged.nodes + 8 * others
    } else {
        25 + 36 * merged.nodes + 12 * others
    }
}

#[cfg(test)]
mod tests {
    use super::*;
    use crate::cases::{p1, p2, p4, worked_by_hand};
    use crate::convert::to_lax;
    use crate::form::Drawing;
    use crate::rows::spidering::flattened;

    fn hold_of(drawing: &Drawing, spiderized: &Drawing) {
        hold(&to_lax(drawing), &to_lax(spiderized));
    }

    #[test]
    fn drawings_worked_by_hand() {
        for drawing in worked_by_hand() {
            let graph = to_lax(&drawing);
            let spiderized = graph.clone().spiderize().expect("labels agree");
            hold(&graph, &flattened(spiderized));
        }
    }

    /// P3 is all of P2.
    #[test]
    fn sizes_of_p3() {
        let sizes = spiderized_sizes(p2().sizes());
        assert_eq!((sizes.nodes, sizes.edges, sizes.ports), (3, 3, 6));
        assert_eq!(form_bytes(p2().sizes()), 63);
        assert_eq!(VERSION_1.form_bytes(&sizes), 63);
    }

    #[test]
    #[should_panic(expected = "fed and used once")]
    fn a_node_used_twice() {
        let mut twice = p4();
        twice.targets.push(0);
        hold_of(&p1(), &twice);
    }

    #[test]
    #[should_panic(expected = "leaves no loop")]
    fn a_loop() {
        hold_of(&p1(), &p2());
    }

    #[test]
    #[should_panic(expected = "ports: 6")]
    fn ports_missing() {
        hold_of(&p2(), &p4());
    }
}
