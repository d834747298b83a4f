//! A load balancer's packet path: drawn in one call, its joined pins merged, asked for loops, cut where the choice says, but not at a wire
//! that is kept, and asked again.
//!
//! ```text
//! receive -arrived-> joiner -merged-> parser --body-------------> rewriter -ready-> splitter -leaving-> transmit
//!                      ^                 |                           ^                  |
//!                      |                 +--key--> pick --server-----+                  |
//!                      |                            ^       |                           |
//!                      |                            |       +--> probe                  |
//!                      |                            +--health------+                    |
//!                      +------------------------------retry-----------------------------+
//! ```
//!
//! A packet that no server takes is sent round again (retry, by way of body and by way of key), and the server picked
//! last is probed for the next pick (health): three loops, and each needs a buffer. The wire back is long, and is drawn as
//! two pins that are marked as joined: retry at the splitter, and again at the joiner. Joiner and parser are one hard block,
//! and merged runs inside of it: no buffer can stand there, so it is kept.
//!
//! What is printed, worked out by hand. Retry (8) and again (9) become one wire, numbered as the first of them, so the
//! wires are nodes 0 to 8, as many as the pins but one, and the blocks edges 0 to 7: 17 vertices.
//!
//! - Nothing leads to receive, so it goes freely, and then arrived; transmit leads to nothing, and goes with leaving: 4.
//!   Of the wires left, server has one arc in and two out and scores 2; the others have one each and score 1. Server (4)
//!   is chosen.
//! - Without it probe, health, pick and key go: 4. Left are merged, body, ready and retry, with the four blocks between
//!   them. All score 1, and the lowest is chosen: merged (1).
//! - Without it three wires and four blocks go, which is all: 7. Chosen are 1 and 4; freely went 4 + 4 + 7 = 15.
//! - Where merged is kept, server is chosen as before, and of merged, body, ready and retry then the lowest other one: body
//!   (2). Without it the other three wires and four blocks go. Chosen are 2 and 4, and as many went freely.
//! - Body has two entries and server three, so spiderizing them adds 5 nodes to 9, and two spiders for each to 8 edges.
//!   The spiders have a port for each of the 5 entries and two for each of the 2 nodes: 19 + 5 + 4 = 28.
//! - Probe and rewriter both use server, so the path is not once-fed. Afterwards each fresh node joins one entry to one
//!   spider, body and server each join two spiders, and the other wires are as they were, fed and used once.

use ohg::{Choice, Graph, NodeId, Refused};

const ARRIVED: NodeId = NodeId(0);
const MERGED: NodeId = NodeId(1);
const BODY: NodeId = NodeId(2);
const KEY: NodeId = NodeId(3);
const SERVER: NodeId = NodeId(4);
const HEALTH: NodeId = NodeId(5);
const READY: NodeId = NodeId(6);
const LEAVING: NodeId = NodeId(7);
const RETRY: NodeId = NodeId(8);
const AGAIN: NodeId = NodeId(9);

/// The pins' names and, as labels, how many bits they carry at once; a pin's place is its id.
const PINS: [(&str, u32); 10] = [
    ("arrived", 512),
    ("merged", 512),
    ("body", 512),
    ("key", 104),
    ("server", 16),
    ("health", 1),
    ("ready", 512),
    ("leaving", 512),
    ("retry", 512),
    ("again", 512),
];

/// The blocks: kinds as labels, sources, targets.
const BLOCKS: [(u32, &[NodeId], &[NodeId]); 8] = [
    (1, &[], &[ARRIVED]),               // receive
    (11, &[ARRIVED, AGAIN], &[MERGED]), // joiner
    (3, &[MERGED], &[BODY, KEY]),       // parser
    (6, &[KEY, HEALTH], &[SERVER]),     // pick
    (8, &[SERVER], &[HEALTH]),          // probe
    (7, &[BODY, SERVER], &[READY]),     // rewriter
    (10, &[READY], &[LEAVING, RETRY]),  // splitter
    (2, &[LEAVING], &[]),               // transmit
];

fn show(name: &str, graph: &Graph) -> Result<(), Refused> {
    let sizes = graph.sizes();
    let said = |yes| if yes { "yes" } else { "no" };
    println!(
        "{name}: {} wires, {} blocks, {} ports",
        sizes.nodes, sizes.edges, sizes.ports
    );
    println!("  no loop: {}", said(graph.no_loop()?));
    println!("  once fed: {}", said(graph.once_fed()?));
    Ok(())
}

/// The chosen wires. A wire is named by the first of its pins.
fn show_buffers(name: &str, choice: &Choice, wires: &[NodeId]) {
    let Choice { nodes, free } = choice;
    println!("{name}: {} (removed freely: {free})", nodes.len());
    for node in nodes {
        let pin = wires.iter().position(|wire| wire == node);
        let (name, _) = PINS[pin.expect("every wire has a pin")];
        println!("  wire {}, {name}", node.0);
    }
}

fn main() -> Result<(), Refused> {
    let mut path = Graph::empty();
    let mut steps = path.build();
    for (_, bits) in PINS {
        steps = steps.new_node(bits);
    }
    for (kind, sources, targets) in BLOCKS {
        steps = steps.new_edge(kind, sources, targets);
    }
    steps.unify(RETRY, AGAIN).finish()?;
    let drawn = path.sizes();
    println!("drawn: {} pins, {} pair joined", drawn.nodes, drawn.pairs);

    let wires = path.quotient()?;
    show("packet path", &path)?;

    let choice = path.cycle_breaking_nodes()?;
    show_buffers("loop buffers", &choice, &wires);
    // Pins have become wires, by which a kept one is named.
    let kept = wires[MERGED.0 as usize];
    let choice = path.cycle_breaking_nodes_keeping(&[kept.0])?;
    show_buffers("loop buffers, merged kept", &choice, &wires);

    show("spiderized", &path.spiderize_nodes(&choice.nodes)?)
}
