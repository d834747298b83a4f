//! A drawing in the language of Graphviz, from left to right.

use crate::drawing::{Drawing, Edge};
use ohg::{EdgeId, Graph, NodeId, Reason, Refused, Vertex, KINDS, SPIDER};
use std::collections::HashSet;
use std::fmt::{self, Formatter};

/// How wide the loop is drawn; other lines have 1.
const THICK: u32 = 3;

/// A drawing, and what the library says of it.
pub struct Picture {
    drawing: Drawing,
    /// Of each node why it gets a buffer or none.
    reasons: Vec<Reason>,
    /// The vertices of one loop, and its arcs.
    vertices: HashSet<Vertex>,
    arcs: HashSet<(Vertex, Vertex)>,
}

impl Picture {
    /// Where pins are joined there are no reasons and no loop, which are a matter of the merged drawing.
    pub fn of(graph: &Graph) -> Result<Picture, Refused> {
        let drawing = Drawing::of(graph);
        let (reasons, around) = if drawing.pairs.is_empty() {
            (graph.reasons()?, graph.find_loop()?.vertices)
        } else {
            (Vec::new(), Vec::new())
        };
        let around = || around.iter().copied();
        Ok(Picture {
            drawing,
            reasons,
            vertices: around().collect(),
            arcs: around().zip(around().cycle().skip(1)).collect(),
        })
    }

    /// How wide the border of a wire or block is drawn.
    fn border(&self, vertex: Vertex) -> u32 {
        if self.vertices.contains(&vertex) {
            THICK
        } else {
            1
        }
    }

    /// An ellipse for each wire, with id and label. One that gets a buffer is filled and says why.
    fn wires(&self, f: &mut Formatter) -> fmt::Result {
        let shape = "shape=ellipse width=0.3 height=0.3 margin=0.02 fontsize=12";
        writeln!(f, "  node [{shape} fillcolor=\"#ffb347\"]")?;
        for (label, id) in self.drawing.nodes.iter().zip(0..) {
            let border = self.border(Vertex::Node(NodeId(id)));
            write!(f, "  n{id} [penwidth={border} label=\"{id} : {label}")?;
            match self.reasons.get(id as usize) {
                Some(Reason::Chosen {
                    stage,
                    arcs_in,
                    arcs_out,
                }) => {
                    let why = format!("stage {stage}:\\n{arcs_in} in, {arcs_out} out");
                    writeln!(f, "\\nbuffer\\n{why}\" style=filled]")?
                }
                _ => writeln!(f, "\"]")?,
            }
        }
        Ok(())
    }

    /// A box for each block, with its name and its ports, and a small circle for each spider.
    fn blocks(&self, f: &mut Formatter) -> fmt::Result {
        writeln!(f, "  node [shape=plain fontsize=14]")?;
        for (edge, id) in self.drawing.edges.iter().zip(0..) {
            let border = self.border(Vertex::Edge(EdgeId(id)));
            if edge.label == SPIDER {
                let shape = "shape=circle width=0.15 height=0.15 label=\"\"";
                writeln!(f, "  e{id} [penwidth={border} {shape}]")?;
                continue;
            }
            let table = format!("border='{border}' cellborder='0' cellspacing='0' cellpadding='0'");
            let sources = column("s", edge.sources.len());
            let name = name(edge.label);
            let targets = column("t", edge.targets.len());
            let row = format!("{sources}<td cellpadding='4'>{name}</td>{targets}");
            writeln!(f, "  e{id} [label=<<table {table}><tr>{row}</tr></table>>]")?;
        }
        Ok(())
    }

    /// The global sources as a strip at the left edge, the global targets as one at the right.
    fn strips(&self, f: &mut Formatter) -> fmt::Result {
        let (sources, targets) = (self.drawing.sources.len(), self.drawing.targets.len());
        for (rank, name, count) in [("source", "source", sources), ("sink", "target", targets)] {
            if count > 0 {
                let cell = |entry| format!("<g{entry}> {name} {entry}");
                let cells: Vec<String> = (0..count).map(cell).collect();
                let label = cells.join("|");
                let shape = format!("shape=record fontsize=12 margin=0.08 label=\"{label}\"");
                writeln!(f, "  {{ rank={rank} {name}s [{shape}] }}")?;
            }
        }
        Ok(())
    }

    /// An arrow for each entry of a list, in the order of the entries.
    fn arrows(&self, f: &mut Formatter) -> fmt::Result {
        for (node, entry) in self.drawing.sources.iter().zip(0..) {
            writeln!(f, "  sources:g{entry}:e -> n{}", node.0)?;
        }
        for (edge, id) in self.drawing.edges.iter().zip(0..) {
            self.arrows_of(edge, EdgeId(id), f)?;
        }
        for (node, entry) in self.drawing.targets.iter().zip(0..) {
            writeln!(f, "  n{} -> targets:g{entry}:w", node.0)?;
        }
        for (v, w) in &self.drawing.pairs {
            let line = "dir=none style=dotted penwidth=2 constraint=false";
            writeln!(f, "  n{} -> n{} [{line}]", v.0, w.0)?;
        }
        Ok(())
    }

    /// The arrows of a block are at its sides, by their ports. A node may stand in a list twice; the loop goes by its first
    /// entry.
    fn arrows_of(&self, edge: &Edge, id: EdgeId, f: &mut Formatter) -> fmt::Result {
        let at = |column, port, side| match edge.label {
            SPIDER => format!("e{}", id.0),
            _ => format!("e{}:{column}{port}:{side}", id.0),
        };
        let pen = |thick| match thick {
            true => format!(" [penwidth={THICK}]"),
            false => String::new(),
        };
        let vertex = Vertex::Edge(id);
        let enters = |&node| self.arcs.contains(&(Vertex::Node(node), vertex));
        let entered = edge.sources.iter().position(enters);
        for (port, node) in edge.sources.iter().enumerate() {
            let (at, pen) = (at("s", port, "w"), pen(entered == Some(port)));
            writeln!(f, "  n{} -> {at}{pen}", node.0)?;
        }
        let leaves = |&node| self.arcs.contains(&(vertex, Vertex::Node(node)));
        let left = edge.targets.iter().position(leaves);
        for (port, node) in edge.targets.iter().enumerate() {
            let (at, pen) = (at("t", port, "e"), pen(left == Some(port)));
            writeln!(f, "  {at} -> n{}{pen}", node.0)?;
        }
        Ok(())
    }

    /// What is to be seen, and what to do where pins are joined.
    fn legend(&self, f: &mut Formatter) -> fmt::Result {
        let is_chosen = |reason: &&Reason| matches!(reason, Reason::Chosen { .. });
        let buffers = match self.reasons.iter().filter(is_chosen).count() {
            _ if !self.drawing.pairs.is_empty() => {
                "Dotted: joined pins. Merge first, by ohg_quotient:\\l\
                 loops and buffers are those of the merged drawing.\\l"
                    .into()
            }
            0 => "No loop, so no buffer.\\l".into(),
            n => format!(
                "{n} loop buffer{}: every loop passes a filled wire.\\l\
                 Each stage takes, of what is left, the wire with\\l\
                 most arcs in times arcs out; of equals the lowest id.\\l\
                 Thick: one loop.\\l",
                if n == 1 { "" } else { "s" }
            ),
        };
        let shapes = "Ellipse: wire, id : label. Box: block. Small circle: spider.\\l";
        writeln!(f, "  label=\"{buffers}{shapes}\"")
    }
}

impl fmt::Display for Picture {
    fn fmt(&self, f: &mut Formatter) -> fmt::Result {
        let font = "fontname=\"Arial,sans-serif\"";
        writeln!(f, "digraph drawing {{")?;
        writeln!(f, "  graph [rankdir=LR nodesep=0.2 ranksep=0.22]")?;
        writeln!(f, "  graph [labeljust=l fontsize=12 {font}]")?;
        writeln!(f, "  node [{font}]")?;
        writeln!(f, "  edge [arrowsize=0.6]")?;
        self.wires(f)?;
        self.blocks(f)?;
        self.strips(f)?;
        self.arrows(f)?;
        self.legend(f)?;
        writeln!(f, "}}")
    }
}

/// A block's name in the catalogue, or its label.
fn name(label: u32) -> String {
    let kind = KINDS.iter().zip(1..).find(|&(_, kind)| kind == label);
    kind.map_or(label.to_string(), |(name, _)| name.to_string())
}

/// The ports at one side of a block, from top to bottom: `s0`, `s1` and so on.
fn column(side: &str, count: usize) -> String {
    if count == 0 {
        return String::new();
    }
    let port = |port| format!("<tr><td port='{side}{port}' width='6' height='14'></td></tr>");
    let ports: String = (0..count).map(port).collect();
    format!("<td><table border='0' cellspacing='0'>{ports}</table></td>")
}
