//! A drawing to look at: reads a stored form of either version and writes it in the language of Graphviz, whose `dot` makes
//! the picture: `cargo run --example picture <../../examples/packet-path.ohg | dot -Tsvg >packet-path.svg`.

mod drawing;
mod picture;

use ohg::Graph;
use picture::Picture;
use std::error::Error;
use std::io::{stdin, stdout, Read, Write};
use std::process::ExitCode;

fn show() -> Result<(), Box<dyn Error>> {
    let mut bytes = Vec::new();
    stdin().read_to_end(&mut bytes)?;
    let picture = Picture::of(&Graph::from_bytes(bytes)?)?;
    stdout().write_all(picture.to_string().as_bytes())?;
    Ok(())
}

fn main() -> ExitCode {
    let Err(error) = show() else {
        return ExitCode::SUCCESS;
    };
    eprintln!("{error}");
    ExitCode::FAILURE
}
