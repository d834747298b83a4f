//! Makes a call that disagrees as small as it gets while it still does.

mod sections;

use crate::call::{Arguments, Call};
use crate::compare::{compare, Salt};
use crate::form;
use crate::operation::Function;
use crate::port::Port;
use sections::{parts, shifted, Sections};
use std::ops::Range;
use std::time::{Duration, Instant};

/// A bound on the time that one disagreement may cost.
const MOST_TIME: Duration = Duration::from_secs(10);

/// The smallest call found, by taking each smaller one that still disagrees.
pub fn shrunk(port: &mut Port, function: &Function, call: Call, salt: Salt) -> Call {
    let mut smallest = call;
    let start = Instant::now();
    let mut disagrees = |call: &Call| {
        let outcome = (function.operation.expected)(&call.arguments);
        let due = function.due(call, &outcome);
        compare(port, function, call, due, salt).is_err()
    };
    loop {
        let in_time = |_: &Call| start.elapsed() < MOST_TIME;
        let graph = smallest.arguments.inputs.first();
        let sections = graph.and_then(|form| Sections::of(form));
        let smaller = smaller_calls(function, &smallest, sections.as_ref())
            .take_while(in_time)
            .find(&mut disagrees);
        match smaller {
            Some(smaller) => smallest = smaller,
            None => return smallest,
        }
    }
}

fn smaller_calls<'a>(
    function: &'a Function,
    call: &'a Call,
    sections: Option<&'a Sections>,
) -> impl Iterator<Item = Call> + 'a {
    let needed = needed(function, call, &call.arguments);
    let in_sections = sections
        .into_iter()
        .flat_map(|sections| smaller_graphs(&call.arguments, sections));
    in_sections
        .chain(smaller_inputs(&call.arguments))
        .chain(smaller_numbers(&call.arguments))
        .flat_map(move |arguments| with_lengths(function, call, &needed, arguments))
        .chain(shorter_buffers(call))
}

/// The lengths of the answers, 0 where the arguments are refused.
fn needed(function: &Function, call: &Call, arguments: &Arguments) -> Vec<usize> {
    match (function.operation.expected)(arguments) {
        Ok(answer) => answer.lengths(),
        Err(_) => vec![0; call.answers.len()],
    }
}

/// The call on other arguments: with buffers that differ as much from what is needed, and with the same buffers.
fn with_lengths(
    function: &Function,
    call: &Call,
    old: &[usize],
    arguments: Arguments,
) -> [Call; 2] {
    let old_and_new = old.iter().zip(needed(function, call, &arguments));
    let answers = old_and_new
        .zip(&call.answers)
        .map(|((old, new), length)| (new + length).saturating_sub(*old))
        .collect();
    let same = Call {
        arguments,
        ..call.clone()
    };
    let moved = Call {
        answers,
        ..same.clone()
    };
    [moved, same]
}

fn shorter_buffers(call: &Call) -> impl Iterator<Item = Call> + '_ {
    (0..call.answers.len()).flat_map(move |buffer| {
        below(call.answers[buffer]).map(move |len| {
            let mut shorter = call.clone();
            shorter.answers[buffer] = len;
            shorter
        })
    })
}

/// Some numbers below one.
fn below(n: usize) -> impl Iterator<Item = usize> {
    [0, n / 2, n.saturating_sub(1)]
        .into_iter()
        .filter(move |&smaller| smaller < n)
}

/// The graph without some of its edges or nodes, and the ids beside it counting on from where these stood, or as they
/// are; then the graph without some entries of its lists.
fn smaller_graphs<'a>(
    arguments: &'a Arguments,
    sections: &'a Sections,
) -> impl Iterator<Item = Arguments> + 'a {
    let form = arguments.graph();
    let fewer = sections.fewer(form).flat_map(|(form, gone)| {
        [with_shifted_ids(arguments, &gone), arguments.clone()]
            .map(|arguments| (form.clone(), arguments))
    });
    let shorter = sections.shorter(form).map(|form| (form, arguments.clone()));
    fewer.chain(shorter).map(|(form, mut arguments)| {
        arguments.inputs[0] = form;
        arguments
    })
}

fn with_shifted_ids(arguments: &Arguments, gone: &Range<usize>) -> Arguments {
    let mut changed = arguments.clone();
    let width = form::width(arguments.graph());
    for list in &mut changed.inputs[1..] {
        for id in list.chunks_exact_mut(width) {
            let new = shifted(form::number(id, 0, width) as usize, gone);
            form::put_number(id, 0, width, new as u32);
        }
    }
    for id in &mut changed.numbers {
        *id = shifted(*id as usize, gone) as u32;
    }
    changed
}

/// Any input cut at its end, without some of its 16-bit numbers, or with a byte put to 0.
fn smaller_inputs(arguments: &Arguments) -> impl Iterator<Item = Arguments> + '_ {
    let inputs = arguments.inputs.iter().enumerate();
    inputs.flat_map(move |(i, input)| {
        let cut = below(input.len()).map(|n| input[..n].to_vec());
        let gaps = parts(input.len() / 2).map(|part| {
            let (before, after) = (&input[..2 * part.start], &input[2 * part.end..]);
            [before, after].concat()
        });
        let zeroed = (0..input.len()).filter(|&at| input[at] != 0).map(|at| {
            let mut zeroed = input.to_vec();
            zeroed[at] = 0;
            zeroed
        });
        cut.chain(gaps).chain(zeroed).map(move |smaller| {
            let mut changed = arguments.clone();
            changed.inputs[i] = smaller;
            changed
        })
    })
}

fn smaller_numbers(arguments: &Arguments) -> impl Iterator<Item = Arguments> + '_ {
    let numbers = arguments.numbers.iter().enumerate();
    numbers.flat_map(move |(i, &n)| {
        below(n as usize).map(move |smaller| {
            let mut changed = arguments.clone();
            changed.numbers[i] = smaller as u32;
            changed
        })
    })
}
