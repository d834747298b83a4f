//! The recorded list: a sample of calls and their due answers, for a program that has no Rust at hand to replay.
//!
//! README.md describes its layout and its contents.

use crate::call::{packed, written, Arguments, Call, Due};
use crate::cases::{self, damage, random};
use crate::form::{self, Drawing, VERSION_1, VERSION_2};
use crate::operation::{Function, Group};
use crate::rng::Rng;
use crate::rooms::Rooms;
use crate::rows::{functions, GROUPS};
use std::cmp::Reverse;
use std::collections::BTreeMap;

/// What every answer buffer is filled with before a call.
const FILL: u8 = 0xA5;

/// In place of the work room's length, where the function takes none.
const NO_ROOM: u32 = u32::MAX;

/// Random drawings for each function.
const RANDOM: usize = 8;

/// Refused forms for each function and each refusal.
const REFUSED: usize = 2;

/// Of the forms whose places are worked out by hand, each function that reads a graph has one in so many.
const DEALT: usize = 8;

/// Of arguments picked by hand, those with up to so many bytes in and out are recorded in the exact call and in another one. Of
/// those with up to so many more, one of each kind is recorded in the exact call: of those that tell the highest place up to 2,
/// since 0 is told of much else, the shortest.
const SMALL: usize = 300;
const LARGE: usize = 42_000;

pub struct List {
    pub bytes: Vec<u8>,
    /// Of each record, the function's number, what kind of call it is, and the place that is told.
    pub records: Vec<(u8, Kind, u32)>,
}

/// What a function returns as its code, what a refusal's place tells, and the versions of the graph that it reads and of the
/// one that it answers.
pub type Kind = (u8, &'static str, Option<u16>, Option<u16>);

fn kind(arguments: &Arguments, due: Due) -> Kind {
    let answer = due.ok().and_then(|answer| answer.written.first());
    (
        packed(due) as u8,
        due.err().map_or("", |refused| refused.what),
        arguments.version(),
        answer.and_then(|form| Some(form::version(form).ok()?.number)),
    )
}

/// Which of the calls that a run makes with some arguments are recorded.
#[derive(Clone, Copy)]
enum Which {
    All,
    ExactAndAnother,
    OneByChance,
    Exact,
}

/// The whole list.
pub fn list(rooms: &Rooms, rng: &mut Rng) -> Result<List, String> {
    let mut list = List {
        bytes: b"OHGLIST1".to_vec(),
        records: vec![],
    };
    let by_hand: Vec<Vec<u8>> = cases::worked_by_hand().iter().map(form::write).collect();
    let refused = refused();
    let damaged = damaged();
    let broken: Vec<Vec<u8>> = damage::with_places()
        .into_iter()
        .map(|(form, ..)| form)
        .collect();
    let outgrown = form::write(&Drawing {
        sources: vec![2; VERSION_1.most.sources + 1],
        ..cases::p7()
    });
    let rows: usize = GROUPS.iter().map(|group| group.operations.len()).sum();
    let mut row = 0;
    for group in GROUPS {
        for function in functions(group, rooms)? {
            list.put_picked(&function, rng);
            for form in &by_hand {
                list.put_form(&function, form, Which::All, rng);
            }
            for forms in &refused {
                for form in forms.iter().cycle().skip(row * REFUSED).take(REFUSED) {
                    list.put_form(&function, form, Which::Exact, rng);
                }
            }
            if function.operation.refusals.contains(&1) {
                for form in broken.iter().skip(row % DEALT).step_by(DEALT) {
                    list.put_form(&function, form, Which::Exact, rng);
                }
            }
            for _ in 0..RANDOM {
                let form = short_form(group, rng);
                list.put_form(&function, &form, Which::OneByChance, rng);
            }
            // Dealt out, so that the list grows little as functions are added.
            for form in damaged.iter().skip(row).step_by(rows) {
                list.put_form(&function, form, Which::OneByChance, rng);
            }
            // What has outgrown version 1 goes to the functions that nothing is picked for; the others have it from there.
            if (function.operation.picked)().is_empty() {
                list.put_form(&function, &outgrown, Which::Exact, rng);
            }
            // Version 1's largest drawing goes to the one function whose answer shows every byte of it.
            if function.operation.name == "ohg_rewrite" {
                let largest = form::write(&random::drawing(rng, VERSION_1.most));
                list.put_form(&function, &largest, Which::Exact, rng);
            }
            row += 1;
        }
    }
    Ok(list)
}

/// The form of a drawing by chance, drawn again while it is long.
fn short_form(group: &Group, rng: &mut Rng) -> Vec<u8> {
    loop {
        let form = form::write(&(group.drawing)(rng, 8));
        if form.len() <= SMALL {
            return form;
        }
    }
}

/// For each refusal of a form, the short forms that are refused by it.
fn refused() -> Vec<Vec<Vec<u8>>> {
    let mut forms = damage::each_refusal();
    forms.retain(|form| form.len() <= SMALL);
    let mut by_refusal: BTreeMap<u8, Vec<Vec<u8>>> = BTreeMap::new();
    for form in forms {
        if let Err(refusal) = form::sizes(&form) {
            by_refusal.entry(refusal as u8).or_default().push(form);
        }
    }
    by_refusal.into_values().collect()
}

/// Many more forms that are refused: each cut of P8, in version 1 and in version 2, bytes of both changed, headers, and port
/// sums about their limit.
fn damaged() -> Vec<Vec<u8>> {
    let [one, two] = [VERSION_1, VERSION_2].map(|version| form::write_as(version, &cases::p8()));
    let cuts = [&one, &two].map(|p8| (0..p8.len()).map(|n| p8[..n].to_vec()));
    let short_sums = damage::port_sums()
        .into_iter()
        .filter(|form| form.len() < 100);
    cuts.into_iter()
        .flatten()
        .chain(damage::damages(&one).step_by(5))
        .chain(damage::damages(&two).step_by(11))
        .chain(damage::headers().step_by(997))
        .chain(short_sums)
        .collect()
}

impl List {
    /// Records a function with the arguments picked by hand.
    fn put_picked(&mut self, function: &Function, rng: &mut Rng) {
        let mut small: Vec<Kind> = vec![];
        let mut large: BTreeMap<Kind, ((Reverse<u32>, usize), Arguments)> = BTreeMap::new();
        for arguments in (function.operation.picked)() {
            let outcome = (function.operation.expected)(&arguments);
            let due = outcome.as_ref().map_err(|refused| *refused);
            let written = due.map_or(0, |answer| answer.written.concat().len());
            let bytes = arguments.inputs.concat().len() + written;
            let kind = kind(&arguments, due);
            let place = due.err().map_or(0, |refused| refused.place.min(2));
            let rank = (Reverse(place), bytes);
            if bytes <= SMALL {
                small.push(kind);
                self.put_calls(function, arguments, Which::ExactAndAnother, rng);
            } else if bytes <= LARGE && large.get(&kind).is_none_or(|(least, _)| rank < *least) {
                large.insert(kind, (rank, arguments));
            }
        }
        large.retain(|kind, _| !small.contains(kind));
        for (_, arguments) in large.into_values() {
            self.put_calls(function, arguments, Which::Exact, rng);
        }
    }

    /// Records a function on a form, with the first of the arguments that a run tries it with, drawn again while they are
    /// long by chance.
    fn put_form(&mut self, function: &Function, form: &[u8], which: Which, rng: &mut Rng) {
        let mut draw = || (function.operation.arguments)(form, rng).into_iter().next();
        let long = |arguments: &Arguments| arguments.inputs.concat().len() > form.len() + SMALL;
        let mut drawn = draw();
        while drawn.as_ref().is_some_and(long) {
            drawn = draw();
        }
        if let Some(arguments) = drawn {
            self.put_calls(function, arguments, which, rng);
        }
    }

    fn put_calls(
        &mut self,
        function: &Function,
        arguments: Arguments,
        which: Which,
        rng: &mut Rng,
    ) {
        let outcome = (function.operation.expected)(&arguments);
        let calls = function.calls(arguments, &outcome, rng);
        let mut by_chance = |from: usize| rng.between(from, calls.len() - 1);
        let chosen = match which {
            Which::All => (0..calls.len()).collect(),
            Which::ExactAndAnother => vec![0, by_chance(1)],
            Which::OneByChance => vec![by_chance(0)],
            Which::Exact => vec![0],
        };
        for call in chosen.into_iter().map(|i| &calls[i]) {
            self.put_record(
                function.operation.number,
                call,
                function.due(call, &outcome),
            );
        }
    }

    fn put_record(&mut self, number: u8, call: &Call, due: Due) {
        let place = due.err().map_or(0, |refused| refused.place);
        self.records
            .push((number, kind(&call.arguments, due), place));
        self.bytes.push(number);

        self.bytes.push(call.arguments.numbers.len() as u8);
        for n in &call.arguments.numbers {
            self.put_number(*n);
        }

        self.bytes.push(call.arguments.inputs.len() as u8);
        for input in &call.arguments.inputs {
            self.put_bytes(input);
        }

        self.bytes.push(call.answers.len() as u8);
        for (buffer, &length) in call.answers.iter().enumerate() {
            let answer = written(due, buffer);
            let mut held = vec![FILL; length];
            held[..answer.len()].copy_from_slice(answer);
            self.put_bytes(&held);
        }

        self.put_number(call.room.map_or(NO_ROOM, |room| room as u32));
        self.bytes.extend_from_slice(&packed(due).to_le_bytes());
    }

    fn put_bytes(&mut self, bytes: &[u8]) {
        self.put_number(bytes.len() as u32);
        self.bytes.extend_from_slice(bytes);
    }

    fn put_number(&mut self, n: u32) {
        self.bytes.extend_from_slice(&n.to_le_bytes());
    }
}

#[cfg(test)]
mod tests {
    use super::*;
    use crate::operation::Operation;
    use crate::place::{SHORT, SINGLE_ID, TOLD};
    use std::collections::BTreeSet;

    /// The shortest calls that pass version 2's limits are too long to be recorded of every function that can pass them.
    const RECORDED_WITH_9: [&str; 3] = ["ohg_identity", "ohg_singleton", "ohg_spiderize"];

    /// The replaying program reads no more than this.
    const MOST_BYTES: usize = 1 << 20;

    fn recorded() -> (List, impl Iterator<Item = &'static Operation>) {
        let rooms = Rooms::read().expect("the header is there");
        let list = list(&rooms, &mut Rng::new(1)).expect("it names all work rooms");
        (list, GROUPS.iter().flat_map(|group| group.operations))
    }

    fn kinds(list: &List, operation: &Operation) -> BTreeSet<Kind> {
        let own = |record: &&(u8, Kind, u32)| record.0 == operation.number;
        let records = list.records.iter().filter(own);
        records.map(|record| record.1).collect()
    }

    #[test]
    fn every_function_is_recorded_with_an_answer_and_its_refusals() {
        let (list, operations) = recorded();
        for operation in operations {
            let mut due: BTreeSet<u8> = operation.refusals.iter().copied().chain([0]).collect();
            if !RECORDED_WITH_9.contains(&operation.name) {
                due.remove(&9);
            }
            let kinds = kinds(&list, operation);
            let codes: BTreeSet<u8> = kinds.iter().map(|kind| kind.0).collect();
            assert_eq!(codes, due, "{}", operation.name);
        }
    }

    /// Both versions are read and answered, and what can grow or shrink goes from one to the other.
    #[test]
    fn every_function_is_recorded_with_both_versions() {
        let (list, operations) = recorded();
        let [none, one, two] = [None, Some(1), Some(2)];
        for operation in operations {
            let due: &[_] = match operation.name {
                "ohg_empty" => &[(none, one)],
                "ohg_rewrite" => &[(one, one), (two, two)],
                "ohg_discrete" | "ohg_identity" | "ohg_singleton" => &[(none, one), (none, two)],
                "ohg_delete_edges" | "ohg_delete_nodes" | "ohg_quotient" => {
                    &[(one, one), (two, one), (two, two)]
                }
                _ if operation.refusals.contains(&9) => &[(one, one), (one, two), (two, two)],
                _ => &[(one, none), (two, none)],
            };
            let kinds = kinds(&list, operation);
            for &(read, answered) in due {
                let kind = (0, "", read, answered);
                assert!(kinds.contains(&kind), "{}: {kind:?}", operation.name);
            }
        }
    }

    /// In both versions, where a version was read; a version 2 whose header is cut was not. And above 0, where it can be.
    #[test]
    fn every_place_is_recorded_several_times() {
        let (list, _) = recorded();
        for (code, what) in TOLD {
            let versions: &[_] = match code {
                1..=3 => &[None],
                5 if what == SHORT => &[None, Some(1), Some(2)],
                13 => &[Some(2)],
                _ => &[Some(1), Some(2)],
            };
            for &version in versions {
                let told = (code, what, version, None);
                let always_0 = matches!(code, 2 | 13) || what == SINGLE_ID;
                let records = list.records.iter().filter(|record| record.1 == told);
                let places = records.filter(|record| always_0 || record.2 > 0);
                assert!(places.count() >= 3, "{told:?}");
            }
        }
    }

    #[test]
    fn the_list_fits_the_program_that_replays_it() {
        assert!(recorded().0.bytes.len() < MOST_BYTES);
    }
}
