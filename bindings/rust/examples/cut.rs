use ohg::Graph;
use std::error::Error;
use std::io::{stdin, Read};
use std::process::ExitCode;

fn cut() -> Result<(), Box<dyn Error>> {
    let mut bytes = Vec::new();
    stdin().read_to_end(&mut bytes)?;
    let graph = Graph::from_bytes(bytes)?;
    let found = graph.find_loop()?;
    if !found.vertices.is_empty() {
        let vertices: Vec<String> = found.vertices.iter().map(|v| v.to_string()).collect();
        println!("loop: {}", vertices.join(" "));
    }
    let choice = graph.cycle_breaking_nodes()?;
    println!("cut {} free {}", choice.nodes.len(), choice.free);
    let cut = graph.spiderize_nodes(&choice.nodes)?;
    println!("no loop: {}", if cut.no_loop()? { "yes" } else { "no" });
    Ok(())
}

fn main() -> ExitCode {
    let Err(error) = cut() else {
        return ExitCode::SUCCESS;
    };
    eprintln!("{error}");
    ExitCode::FAILURE
}
