//! The steps of a call that refuse, in the order of their numbers, and the answer that is a stored graph.

use crate::call::{Answer, Arguments, Outcome};
use crate::convert::{from_lax, sizes, to_lax, Graph};
use crate::form::{self, Refusal, Sizes};
use crate::place::{in_form, in_list, Refused};
use oracle::lax::NodeId;

pub type Checked<T> = Result<T, Refused>;

/// 1 to 6, and 13.
pub fn graph(arguments: &Arguments) -> Checked<Graph> {
    let form = arguments.graph();
    let drawing = form::read(form).map_err(|refusal| in_form(form, refusal))?;
    Ok(to_lax(&drawing))
}

/// The same for the sizes alone.
pub fn graph_sizes(arguments: &Arguments) -> Checked<Sizes> {
    let form = arguments.graph();
    form::sizes(form).map_err(|refusal| in_form(form, refusal))
}

/// 7: an input with a broken entry at its end, or an id not below its count. Entries are as wide as those of the graph
/// that was read.
pub fn id_list(arguments: &Arguments, input: usize, count: usize) -> Checked<Vec<usize>> {
    let width = form::width(arguments.graph());
    let bytes = &arguments.inputs[input];
    in_list(bytes, width, Some(count))?;
    let ids = form::id_list(bytes, width).into_iter();
    Ok(ids.map(|id| id as usize).collect())
}

/// 7: the same of nodes.
pub fn node_list(arguments: &Arguments, input: usize, graph: &Graph) -> Checked<Vec<NodeId>> {
    let ids = id_list(arguments, input, graph.hypergraph.nodes.len())?;
    Ok(ids.into_iter().map(NodeId).collect())
}

/// 9, and the stored form, in the version that fits.
pub fn stored(graph: &Graph) -> Checked<Vec<u8>> {
    if sizes(graph).within_limits() {
        Ok(form::write(&from_lax(graph)))
    } else {
        Err(Refusal::Result.nowhere())
    }
}

/// 9, and the answer that is one stored graph and an id, 0 where there is none.
pub fn made(graph: &Graph, id: usize) -> Outcome {
    let form = stored(graph)?;
    Ok(Answer {
        a: form.len() as u32,
        b: id as u32,
        written: vec![form],
    })
}
