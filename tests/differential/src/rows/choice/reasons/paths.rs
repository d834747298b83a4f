//! T-04 word by word: each stage's core found from nothing, and of each vertex outside of it whether a path through what remained
//! leads from a core vertex to it, or from it to one.

use super::super::keeping::stages::{arcs, vertices, within_core};
use super::Reason;
use crate::convert::Graph;

type Arcs = [(usize, usize)];

/// The reasons of the nodes.
pub fn by_paths(graph: &Graph) -> Vec<Reason> {
    let nodes = graph.hypergraph.nodes.len();
    let mut reasons = vec![None; vertices(graph)];
    let mut remaining: Vec<usize> = (0..vertices(graph)).collect();
    let mut stage = 1;
    while !remaining.is_empty() {
        let mut arcs = arcs(graph);
        arcs.retain(|(from, to)| remaining.contains(from) && remaining.contains(to));
        let of_core = within_core(arcs.clone());
        let (core, freed): (Vec<usize>, Vec<usize>) = remaining
            .into_iter()
            .partition(|v| of_core.iter().any(|arc| arc.0 == *v));
        for vertex in freed {
            let leads_on = |to: &usize| has_path(&arcs, vertex, *to);
            let leads_here = |from: &usize| has_path(&arcs, *from, vertex);
            let not_led_to = !core.iter().any(leads_here);
            assert!(not_led_to || !core.iter().any(leads_on), "it goes freely");
            reasons[vertex] = Some(if not_led_to {
                Reason::NotLedTo { stage }
            } else {
                Reason::LeadsToNone { stage }
            });
        }
        let into = |v: usize| of_core.iter().filter(|arc| arc.1 == v).count();
        let out = |v: usize| of_core.iter().filter(|arc| arc.0 == v).count();
        let most = (0..nodes).map(|v| into(v) * out(v)).max();
        let best = (0..nodes).find(|&v| core.contains(&v) && Some(into(v) * out(v)) == most);
        if let Some(best) = best {
            let (into, out) = (into(best), out(best));
            reasons[best] = Some(Reason::Chosen { stage, into, out });
        }
        remaining = core;
        remaining.retain(|&v| Some(v) != best);
        stage += 1;
    }
    reasons.truncate(nodes);
    let each = reasons.into_iter().map(|reason| reason.expect("it went"));
    each.collect()
}

/// Whether these arcs lead from one vertex to another, or they are the same.
fn has_path(arcs: &Arcs, from: usize, to: usize) -> bool {
    let mut reached = vec![from];
    let mut looked_at = 0;
    while looked_at < reached.len() {
        let vertex = reached[looked_at];
        for arc in arcs.iter().filter(|arc| arc.0 == vertex) {
            if !reached.contains(&arc.1) {
                reached.push(arc.1);
            }
        }
        looked_at += 1;
    }
    reached.contains(&to)
}
