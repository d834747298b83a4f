//! A run: the functions of every group on forms of many kinds, each call compared and counted.

use crate::call::{packed, Arguments, Call, Due, Outcome};
use crate::cases::{self, damage, random};
use crate::compare::{compare, Place, Salt};
use crate::form::{self, Refusal};
use crate::operation::{Forms, Function, Group};
use crate::port::Port;
use crate::rng::Rng;
use crate::rooms::Rooms;
use crate::rows::choice::ENGINES;
use crate::rows::many::singly;
use crate::rows::spidering::chain;
use crate::rows::{functions, GROUPS, UNRECORDED};
use crate::show::show;
use std::collections::BTreeMap;
use std::mem::{discriminant, Discriminant};

/// The highest refusal number.
const MOST_CODE: usize = 17;

/// A quick run asks the second engine only what takes it up to about so many steps.
const QUICK_STEPS: usize = 20_000_000;

/// How much is tried.
#[derive(Clone, Copy)]
pub struct Amount {
    /// Calls, at least, for each share that a group has.
    pub per_share: u64,
    /// Whether the forms that are taken one by one are all taken.
    pub full: bool,
}

pub struct Run {
    port: Port,
    pub rng: Rng,
    functions: BTreeMap<u8, Function>,
    full: bool,
    passed: u64,
    failed: u64,
    /// For each function's number, how many calls were to be answered (0) and refused by each number.
    codes: BTreeMap<u8, [u64; MOST_CODE + 1]>,
    /// For each refusal's number, what its place tells, and the version that was read, how many calls were to be refused so.
    told: BTreeMap<(u8, &'static str, Option<u16>), u64>,
    /// How many calls were made again with other bytes behind the count that a 4 tells.
    behind: u64,
    /// The disagreements already shown: one for each function and kind is enough to look at.
    shown: Vec<(u8, Discriminant<Place>)>,
}

/// All shares of a run.
pub fn shares() -> u64 {
    let groups: u64 = GROUPS
        .iter()
        .chain(UNRECORDED)
        .map(|group| group.share)
        .sum();
    groups + chain::SHARE + singly::SHARE
}

/// About how many steps the second engine takes: for each node that is chosen, or may be before 16, it passes over the drawing.
fn sweeping_steps(arguments: &Arguments, outcome: &Outcome) -> usize {
    let Ok(sizes) = form::sizes(arguments.graph()) else {
        return 0;
    };
    let stages = outcome
        .as_ref()
        .map_or(sizes.nodes, |answer| answer.a as usize);
    (1 + stages) * (sizes.nodes + sizes.edges + sizes.ports)
}

/// Compares everything, and says whether all agreed.
pub fn run(seed: u64, amount: Amount) -> Result<bool, String> {
    println!("seed {seed}");
    let mut run = Run::start(seed, amount.full)?;
    for group in GROUPS.iter().chain(UNRECORDED) {
        let before = run.calls();
        let forms = run.group(group, amount);
        let calls = run.calls() - before;
        println!("{}: {calls} calls on {forms} forms", group.name);
    }
    let before = run.calls();
    chain::follow(&mut run, amount);
    println!("chain: {} calls", run.calls() - before);
    let before = run.calls();
    singly::follow(&mut run, amount);
    println!("steps singly: {} calls", run.calls() - before);
    run.print_counts();
    println!("{} passed, {} failed", run.passed, run.failed);
    Ok(run.failed == 0)
}

impl Run {
    fn start(seed: u64, full: bool) -> Result<Self, String> {
        let rooms = Rooms::read()?;
        let mut by_number = BTreeMap::new();
        for group in GROUPS.iter().chain(UNRECORDED) {
            for function in functions(group, &rooms)? {
                by_number.insert(function.operation.number, function);
            }
        }
        let names = by_number.values().map(|f| f.operation.name).collect();
        Ok(Run {
            port: Port::start(names)?,
            rng: Rng::new(seed),
            functions: by_number,
            full,
            passed: 0,
            failed: 0,
            codes: BTreeMap::new(),
            told: BTreeMap::new(),
            behind: 0,
            shown: vec![],
        })
    }

    /// How many calls were made.
    pub fn calls(&self) -> u64 {
        self.passed + self.failed
    }

    pub fn function(&self, number: u8) -> Function {
        self.functions[&number]
    }

    /// A group's functions on all of its forms, of which the number is given.
    fn group(&mut self, group: &Group, amount: Amount) -> u64 {
        let end = self.calls() + group.share * amount.per_share;
        let functions: Vec<Function> = group
            .operations
            .iter()
            .filter(|operation| operation.number != ENGINES[1])
            .map(|operation| self.function(operation.number))
            .collect();
        for function in &functions {
            for arguments in (function.operation.picked)() {
                self.all_lengths(function, arguments);
            }
        }
        let by_hand = [cases::worked_by_hand(), cases::outgrown_by_hand()].concat();
        let by_hand: Vec<Vec<u8>> = by_hand.iter().map(form::write).collect();
        let refused = damage::each_refusal();
        let broken = damage::with_places().into_iter().map(|(form, ..)| form);
        let mut forms = 0;
        for form in by_hand.iter().chain(&refused) {
            forms += 1;
            self.form(&functions, form, Run::all_lengths);
        }
        let fixed = (group.fixed)(&mut self.rng).into_iter();
        for form in broken.chain(fixed).chain(self.every(group, amount)) {
            forms += 1;
            self.form(&functions, &form, Run::some_lengths);
        }
        // However many these were, some are left to chance.
        let end = end.max(self.calls() + group.share * amount.per_share / 4);
        while self.calls() < end {
            forms += 1;
            let form = random::form(&mut self.rng, group);
            self.form(&functions, &form, Run::some_lengths);
        }
        forms
    }

    /// The forms that a group takes one by one; in a quick run, some of them.
    pub fn every(&mut self, group: &Group, amount: Amount) -> Forms {
        let step = if amount.full { 1 } else { group.step };
        let skipped = self.rng.below(step);
        let every = (group.every)(Rng::new(self.rng.number()));
        Box::new(every.skip(skipped).step_by(step))
    }

    /// Some functions on one stored form.
    fn form(
        &mut self,
        functions: &[Function],
        form: &[u8],
        lengths: fn(&mut Run, &Function, Arguments),
    ) {
        for function in functions {
            for arguments in (function.operation.arguments)(form, &mut self.rng) {
                lengths(self, function, arguments);
            }
        }
    }

    /// Calls with every length of answer buffers and work room.
    fn all_lengths(&mut self, function: &Function, arguments: Arguments) {
        let outcome = (function.operation.expected)(&arguments);
        for function in self.engines(function, &arguments, &outcome) {
            let calls = function.calls(arguments.clone(), &outcome, &mut self.rng);
            for call in &calls {
                self.call(&function, call, function.due(call, &outcome));
            }
            self.call_behind(&function, &calls[0], &outcome);
        }
    }

    /// The exact call, and once in four times another one.
    fn some_lengths(&mut self, function: &Function, arguments: Arguments) {
        let outcome = (function.operation.expected)(&arguments);
        for function in self.engines(function, &arguments, &outcome) {
            if self.rng.once_in(4) {
                let calls = function.calls(arguments.clone(), &outcome, &mut self.rng);
                let call = self.rng.pick(&calls);
                self.call(&function, &call, function.due(&call, &outcome));
            }
            let exact = function.exact(arguments.clone(), &outcome);
            self.call(&function, &exact, function.due(&exact, &outcome));
            self.call_behind(&function, &exact, &outcome);
        }
    }

    /// The function and, where it is the first engine's, the second's, which is due the same: but in a quick run not on what
    /// would take it long.
    pub fn engines(
        &self,
        function: &Function,
        arguments: &Arguments,
        outcome: &Outcome,
    ) -> Vec<Function> {
        let mut functions = vec![*function];
        let is_first = function.operation.number == ENGINES[0];
        if is_first && (self.full || sweeping_steps(arguments, outcome) <= QUICK_STEPS) {
            functions.push(self.function(ENGINES[1]));
        }
        functions
    }

    /// Where a count has broken its limit, the call again with other bytes behind that count, all or one: they must not matter.
    fn call_behind(&mut self, function: &Function, call: &Call, outcome: &Outcome) {
        let Err(refused) = outcome else { return };
        let form = call.arguments.graph();
        let behind = refused.place as usize + form::width(form);
        if refused.refusal != Refusal::Limit || behind == form.len() {
            return;
        }
        let changed = if self.rng.once_in(2) {
            behind..form.len()
        } else {
            let at = self.rng.between(behind, form.len() - 1);
            at..at + 1
        };
        let mut call = call.clone();
        let bytes = self.rng.bytes(changed.len());
        call.arguments.inputs[0][changed].copy_from_slice(&bytes);
        let again = (function.operation.expected)(&call.arguments);
        assert_eq!(again.as_ref().err(), Some(refused), "they do not matter");
        self.behind += 1;
        self.call(function, &call, function.due(&call, &again));
    }

    /// Compares one call, counts it, and says whether the port agreed.
    pub fn call(&mut self, function: &Function, call: &Call, due: Due) -> bool {
        let number = function.operation.number;
        let codes = self.codes.entry(number).or_default();
        codes[(packed(due) & 0xFF) as usize] += 1;
        if let Err(refused) = due {
            let version = call.arguments.version();
            let told = (refused.refusal as u8, refused.what, version);
            *self.told.entry(told).or_default() += 1;
        }
        let salt = Salt {
            number: self.calls() as usize,
            whole_room: self.calls().is_multiple_of(64),
        };
        match compare(&mut self.port, function, call, due, salt) {
            Ok(()) => {
                self.passed += 1;
                true
            }
            Err(disagreement) => {
                self.failed += 1;
                let kind = (number, discriminant(&disagreement.place));
                if !self.shown.contains(&kind) {
                    self.shown.push(kind);
                    show(&mut self.port, function, call, salt, &disagreement);
                }
                false
            }
        }
    }

    fn print_counts(&self) {
        for (number, codes) in &self.codes {
            let operation = self.functions[number].operation;
            let calls: u64 = codes.iter().sum();
            print!("{}: {calls} calls, {} answered", operation.name, codes[0]);
            for code in operation.refusals {
                print!(", {} refused by {code}", codes[usize::from(*code)]);
            }
            println!();
        }
        for ((code, what, version), calls) in &self.told {
            let read = version.map_or(String::new(), |version| format!(", version {version}"));
            println!("refused by {code}, which tells {what}{read}: {calls} calls");
        }
        println!("other bytes behind a count: {} calls", self.behind);
    }
}
