//! Calls one after the other, each on what the port answered before: merge, choose, with kept nodes too, ask for the reasons, which must
//! say chosen of the chosen nodes, show a loop, which must pass a chosen node, spiderize what was chosen, and ask for loops, of which there must be none; and spiderize all, which must be as T-11 says, by both checks too, and spiderize it
//! again.

use super::{explicit, GROUP};
use crate::call::{Answer, Arguments, Outcome};
use crate::cases::random;
use crate::classes;
use crate::convert::{self, to_lax};
use crate::form::{self, Refusal};
use crate::rows::choice::reasons::ENTRY;
use crate::run::{Amount, Run};
use std::collections::HashSet;

/// How large its part of a run's calls is, beside the groups' parts.
pub const SHARE: u64 = 1;

const CYCLE_BREAKING_NODES: u8 = 14;
const SPIDERIZE: u8 = 15;
const SPIDERIZE_NODES: u8 = 16;
const NO_LOOP: u8 = 17;
const ONCE_FED: u8 = 18;
const QUOTIENT: u8 = 19;
const CYCLE_BREAKING_NODES_KEEPING: u8 = 20;
const FIND_LOOP: u8 = 22;
const REASONS: u8 = 23;

/// Follows the chains on the graphs that spiderizing is tried on, large and small, and on more by chance.
pub fn follow(run: &mut Run, amount: Amount) {
    let end = run.calls() + SHARE * amount.per_share;
    let fixed = (GROUP.fixed)(&mut run.rng).into_iter();
    for form in fixed.chain(run.every(&GROUP, amount)) {
        follow_on(run, &form, amount);
    }
    while run.calls() < end {
        let drawing = random::drawing_for(&mut run.rng, &GROUP);
        follow_on(run, &form::write(&drawing), amount);
    }
}

/// A quick run spiderizes one in three.
fn follow_on(run: &mut Run, form: &[u8], amount: Amount) {
    choose_on(run, form);
    if amount.full || run.rng.once_in(3) {
        spiderize_on(run, form);
    }
}

fn choose_on(run: &mut Run, form: &[u8]) {
    let graph = Arguments::new(&[], &[form]);
    let Some(merged) = answered(run, QUOTIENT, graph) else {
        return;
    };
    let form = &merged.written[0];
    let graph = Arguments::new(&[], &[form]);
    let Some(chosen) = answered(run, CYCLE_BREAKING_NODES, graph) else {
        return;
    };
    explain_on(run, form, &chosen);
    show_on(run, form, &chosen);
    break_on(run, form, &chosen);
    // Every other one of those that were chosen is kept, and others are chosen in their place where there are such.
    let width = form::width(form);
    let entries = chosen.written[0].chunks(width);
    let kept = entries.step_by(2).collect::<Vec<_>>().concat();
    let graph_and_kept = Arguments::new(&[], &[form, &kept]);
    if let Some(chosen) = answered(run, CYCLE_BREAKING_NODES_KEEPING, graph_and_kept) {
        break_on(run, form, &chosen);
    }
}

/// Asks for the reasons, which say chosen of just these nodes.
fn explain_on(run: &mut Run, form: &[u8], chosen: &Answer) {
    let graph = Arguments::new(&[], &[form]);
    let Some(explained) = answered(run, REASONS, graph) else {
        return;
    };
    let kinds = explained.written[0].chunks(ENTRY).map(|entry| entry[0]);
    let said = (0..).zip(kinds).filter(|(_, kind)| *kind == 0);
    let said: Vec<u32> = said.map(|(node, _)| node).collect();
    let list = form::id_list(&chosen.written[0], form::width(form));
    assert_eq!(said, list, "chosen is said of the chosen nodes");
    assert_eq!(explained.b, chosen.a, "and as many are chosen");
}

/// Shows a loop, of which a node was chosen.
fn show_on(run: &mut Run, form: &[u8], chosen: &Answer) {
    let graph = Arguments::new(&[], &[form]);
    let Some(shown) = answered(run, FIND_LOOP, graph) else {
        return;
    };
    let ids = |answer: &Answer| form::id_list(&answer.written[0], form::width(form));
    let chosen: HashSet<_> = ids(chosen).into_iter().collect();
    let passed = ids(&shown).iter().any(|id| chosen.contains(id));
    assert_eq!(passed, !chosen.is_empty(), "a chosen node is on the loop");
}

/// Spiderizes what was chosen, and asks for loops.
fn break_on(run: &mut Run, form: &[u8], chosen: &Answer) {
    let graph_and_list = Arguments::new(&[], &[form, &chosen.written[0]]);
    let Some(spiderized) = answered(run, SPIDERIZE_NODES, graph_and_list) else {
        return;
    };
    let graph = Arguments::new(&[], &[&spiderized.written[0]]);
    if let Some(no_loop) = answered(run, NO_LOOP, graph.clone()) {
        assert_eq!(no_loop.a, 1, "the chosen nodes break every loop");
    }
    if let Some(shown) = answered(run, FIND_LOOP, graph) {
        assert_eq!((shown.a, shown.b), (0, 0), "there is none to be shown");
    }
}

/// The sizes of the graph that is read tell how long the answer is, and then whether the answer may be spiderized again.
fn spiderize_on(run: &mut Run, form: &[u8]) {
    let graph = Arguments::new(&[], &[form]);
    let Some(spiderized) = answered(run, SPIDERIZE, graph) else {
        return;
    };
    let all = &spiderized.written[0];
    let read = |form: &[u8]| to_lax(&form::read(form).expect("it is a good form"));
    let (graph, result) = (read(form), read(all));
    explicit::hold(&graph, &result);
    let (merged, _) = classes::merged(&graph).expect("it was merged");
    assert_eq!(all.len(), explicit::form_bytes(convert::sizes(&merged)));
    for check in [ONCE_FED, NO_LOOP] {
        if let Some(said) = answered(run, check, Arguments::new(&[], &[all])) {
            assert_eq!(said.a, 1, "both checks say yes once all is spiderized");
        }
    }
    let again = explicit::spiderized_sizes(convert::sizes(&result));
    match called(run, SPIDERIZE, Arguments::new(&[], &[all])) {
        Some(Ok(_)) => assert!(again.within_limits()),
        Some(Err(refused)) => {
            assert_eq!(refused, Refusal::Result.nowhere());
            assert!(!again.within_limits());
        }
        None => {}
    }
}

/// The exact call of a function, and the second engine's beside the first's: its answer, where it has one and the port gave the same.
fn answered(run: &mut Run, number: u8, arguments: Arguments) -> Option<Answer> {
    called(run, number, arguments)?.ok()
}

/// The same, answered or refused.
fn called(run: &mut Run, number: u8, arguments: Arguments) -> Option<Outcome> {
    let function = run.function(number);
    let outcome = (function.operation.expected)(&arguments);
    let mut agreed = true;
    for function in run.engines(&function, &arguments, &outcome) {
        let call = function.exact(arguments.clone(), &outcome);
        agreed &= run.call(&function, &call, function.due(&call, &outcome));
    }
    agreed.then_some(outcome)
}
