//! Shows a disagreement.

use crate::call::{packed, unpacked, written, Call, Due};
use crate::compare::{compare, Disagreement, Salt};
use crate::operation::Function;
use crate::port::Port;
use crate::shrink::shrunk;

/// Shows it on the smallest call that has one, or as it was met.
pub fn show(port: &mut Port, function: &Function, call: &Call, salt: Salt, met: &Disagreement) {
    // With all of the work room filled, no call before matters.
    let alone = Salt {
        whole_room: true,
        ..salt
    };
    let smallest = shrunk(port, function, call.clone(), alone);
    let outcome = (function.operation.expected)(&smallest.arguments);
    let due = function.due(&smallest, &outcome);
    if let Err(disagreement) = compare(port, function, &smallest, due, alone) {
        print_disagreement(function, &smallest, due, &disagreement);
    } else {
        println!("after other calls, which left their bytes in the work room:");
        let outcome = (function.operation.expected)(&call.arguments);
        print_disagreement(function, call, function.due(call, &outcome), met);
    }
}

fn print_disagreement(function: &Function, call: &Call, due: Due, seen: &Disagreement) {
    println!("{} disagrees in {}", function.operation.name, seen.place);
    for number in &call.arguments.numbers {
        println!("  number {number}");
    }
    for (i, input) in call.arguments.inputs.iter().enumerate() {
        println!("  input {i}, {} bytes: {}", input.len(), hex(input));
    }
    if let Some(room) = call.room {
        println!("  work room of {room} bytes");
    }
    println!("  due:  {}", numbers(packed(due)));
    if let Some(returned) = seen.returned {
        println!("  port: {}", numbers(returned));
    }
    for (i, [before, held, after]) in seen.answers.iter().enumerate() {
        println!(
            "  answer buffer {i}, {} bytes, {} to be written",
            held.len(),
            written(due, i).len()
        );
        println!("    before: {}", hex(before));
        println!("    due:    {}", hex(held));
        println!("    port:   {}", hex(after));
    }
}

fn numbers(returned: u64) -> String {
    let (code, a, b) = unpacked(returned);
    format!("code {code}, a {a}, b {b}")
}

fn hex(bytes: &[u8]) -> String {
    bytes.iter().map(|byte| format!("{byte:02X}")).collect()
}
