//! Why each wire of a drawing gets a loop buffer or does not, in words: `cargo run --example why <../../examples/packet-path.ohg`.
//! A stage begins with what remained after the choice before it. What goes freely is freed, the rest is the stage's core.

use ohg::{Graph, Reason};
use std::error::Error;
use std::io::{stdin, Read};
use std::process::ExitCode;

fn why() -> Result<(), Box<dyn Error>> {
    let mut bytes = Vec::new();
    stdin().read_to_end(&mut bytes)?;
    let reasons = Graph::from_bytes(bytes)?.reasons()?;
    let is_chosen = |reason: &&Reason| matches!(reason, Reason::Chosen { .. });
    let last = 1 + reasons.iter().filter(is_chosen).count() as u32;
    for (node, reason) in reasons.into_iter().enumerate() {
        match reason {
            Reason::Chosen {
                stage,
                arcs_in,
                arcs_out,
            } => println!("node {node}: chosen at stage {stage}, arcs in the core: {arcs_in} in, {arcs_out} out"),
            Reason::NotLedTo { stage } if stage == last => {
                println!("node {node}: freed at stage {stage}, no loop is left")
            }
            Reason::NotLedTo { stage } => {
                println!("node {node}: freed at stage {stage}, nothing in the core leads to it")
            }
            Reason::LeadsToNone { stage } => {
                println!("node {node}: freed at stage {stage}, it leads to nothing in the core")
            }
        }
    }
    Ok(())
}

fn main() -> ExitCode {
    let Err(error) = why() else {
        return ExitCode::SUCCESS;
    };
    eprintln!("{error}");
    ExitCode::FAILURE
}
