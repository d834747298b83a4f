//! Measures each exported function beside the original and plain Rust, on the same inputs in one process, and prints
//! tables for docs/MEASURES.md; or, by `scanning`, the second engine beside the first; or, by `reasons`, `pricing` or `steps`, the reasons, the priced parts list or many steps in one call alone; or, by `growth FILE.svg`, how the time of each grows with its drawing; or, by `between
//! BEFORE.a NOW.a`, two builds of the port beside each other; or, by `calls ARCHIVE.a NAME TIMES`, nothing: it only makes
//! the calls.
//!
//! A group of functions has a module, which declares them and puts each behind a safe one of the same name. A slice
//! passes as a pointer and a length. No two slices of a call overlap here, and a slice's pointer is never null: that is
//! all the port asks of its caller.

mod between;
mod building;
mod choice;
mod deleting;
mod drawings;
mod explaining;
mod growth;
mod inputs;
mod keeping;
mod many;
mod merging;
mod once_fed;
mod plot;
mod port;
mod pricing;
mod reading;
mod scanning;
mod showing;
mod sides;
mod spidering;
mod stored;
mod table;
mod timing;

use differential::rooms::Rooms;
use std::env;
use std::process::ExitCode;

fn main() -> ExitCode {
    let arguments: Vec<String> = env::args().skip(1).collect();
    let measured = match &arguments[..] {
        [] => measure(),
        [mode] if mode == "scanning" => scanning::measure(),
        [mode] if mode == "reasons" => explaining::measure_alone(),
        [mode] if mode == "pricing" => measure_pricing(),
        [mode] if mode == "steps" => many::measure_alone(),
        [mode, file] if mode == "growth" => growth::measure(file),
        [mode, before, now] if mode == "between" => between::measure(before, now),
        [mode, archive, name, times] if mode == "calls" => {
            between::make_calls(archive, name, times)
        }
        _ => Err(
            "usage: cargo run --release [-- scanning | -- reasons | -- pricing | -- steps | -- growth FILE.svg | -- between BEFORE.a NOW.a | -- calls ARCHIVE.a NAME TIMES]"
                .to_string(),
        ),
    };
    match measured {
        Ok(()) => ExitCode::SUCCESS,
        Err(message) => {
            eprintln!("{message}");
            ExitCode::FAILURE
        }
    }
}

fn measure() -> Result<(), String> {
    let rooms = Rooms::read()?;
    port::open_measured()?;
    table::print_preface();
    let mut tables = reading::measure();
    tables.extend(building::measure());
    tables.extend(deleting::measure(&rooms)?);
    tables.extend(many::measure(&rooms)?);
    tables.extend(merging::measure(&rooms)?);
    tables.extend(choice::measure(&rooms)?);
    tables.extend(keeping::measure(&rooms)?);
    tables.extend(explaining::measure(&rooms)?);
    tables.extend(showing::measure(&rooms)?);
    tables.extend(once_fed::measure(&rooms)?);
    tables.extend(spidering::measure(&rooms)?);
    tables.extend(pricing::measure(&rooms)?);
    table::print_summary(&tables);
    Ok(())
}

fn measure_pricing() -> Result<(), String> {
    let rooms = Rooms::read()?;
    port::open_measured()?;
    table::print_summary(&pricing::measure(&rooms)?);
    Ok(())
}
