//! Two builds of the port beside each other, in one process: an earlier one and a newer one.

use crate::choice::{NODES_1, NODES_2};
use crate::drawings::{every_eighth, label_bytes, list_for, several, size, FAMILIES};
use crate::inputs::{
    Inputs, BARE, EIGHTH_OF_JOINED, EIGHTH_TO_SPIDERIZE, FALLING, GLOBAL_NODES, JOINED,
    JOINED_TO_SPIDERIZE, NODES, ONE_EDGE, RANDOM, RINGS, RISING, TO_ADD_TO, TO_SPIDERIZE, TREES,
};
use crate::port::{place, Build};
use crate::sides::{answered, MOST_LIST_BYTES};
use crate::table::{geometric_mean, print_cells, print_head, print_rounds};
use crate::timing::{medians, Side};
use differential::form::{Version, VERSION_1, VERSION_2};
use std::mem::transmute;
use std::path::Path;

/// Longer than the work room of any function.
const MOST_ROOM: usize = 1 << 24;

/// The slices and numbers of a call: what is read, what is written.
type In = (*const u8, usize);
type Out = (*mut u8, usize);

fn lent(bytes: &[u8]) -> In {
    (bytes.as_ptr(), bytes.len())
}

/// What a call needs besides its input, and its numbers.
struct Lent {
    out: Vec<u8>,
    map: Vec<u8>,
    room: Vec<u8>,
    list: Vec<u8>,
}

impl Lent {
    fn new(list: Vec<u8>) -> Lent {
        Lent {
            out: vec![0; VERSION_2.most_bytes()],
            map: vec![0; MOST_LIST_BYTES],
            room: vec![0; MOST_ROOM],
            list,
        }
    }
}

type Call = Box<dyn Fn(&[u8], &mut Lent) -> u64>;

/// A call of a build, at the place of now, with whatever else it takes: numbers 0 and 1, a short list, and enough room.
fn call(build: &Build, name: &str) -> Result<Call, String> {
    let calls = build
        .addresses(name)
        .ok_or(format!("no {name} in an archive"))?;
    let calls = calls.into_iter().map(|address| call_at(address, name));
    let calls = calls.collect::<Result<Vec<Call>, String>>()?;
    Ok(Box::new(move |src, lent| calls[place()](src, lent)))
}

/// The call of a function that stands at an address.
fn call_at(address: usize, name: &str) -> Result<Call, String> {
    macro_rules! function {
        ($($part:ty),*) => {
            // SAFETY: this is the type that the header gives to the function of this name.
            unsafe { transmute::<*const (), unsafe extern "C" fn($($part),*) -> u64>(address as *const ()) }
        };
    }
    // SAFETY, of all: each part is lent for the call, with its own length.
    Ok(match name {
        "ohg_read" | "ohg_rewrite" | "ohg_discrete" | "ohg_identity" => {
            let f = function!(*const u8, usize, *mut u8, usize);
            Box::new(move |src, lent_too| {
                let (s, out) = (lent(src), writable(&mut lent_too.out));
                unsafe { f(s.0, s.1, out.0, out.1) }
            })
        }
        "ohg_singleton" => {
            let f = function!(u32, *const u8, usize, *const u8, usize, *mut u8, usize);
            Box::new(move |src, lent_too| {
                let middle = src.len() / 8 * 4;
                let (a, b) = (lent(&src[..middle]), lent(&src[middle..]));
                let out = writable(&mut lent_too.out);
                unsafe { f(0, a.0, a.1, b.0, b.1, out.0, out.1) }
            })
        }
        "ohg_new_node" => {
            let f = function!(*const u8, usize, u32, *mut u8, usize);
            Box::new(move |src, lent_too| {
                let (s, out) = (lent(src), writable(&mut lent_too.out));
                unsafe { f(s.0, s.1, 0, out.0, out.1) }
            })
        }
        "ohg_unify" | "ohg_add_edge_source" | "ohg_add_edge_target" => {
            let f = function!(*const u8, usize, u32, u32, *mut u8, usize);
            Box::new(move |src, lent_too| {
                let (s, out) = (lent(src), writable(&mut lent_too.out));
                unsafe { f(s.0, s.1, 1, 0, out.0, out.1) }
            })
        }
        "ohg_new_edge" | "ohg_new_operation" => {
            let f = function!(
                *const u8,
                usize,
                u32,
                *const u8,
                usize,
                *const u8,
                usize,
                *mut u8,
                usize
            );
            Box::new(move |src, lent_too| {
                let (s, list) = (lent(src), lent(&lent_too.list));
                let out = writable(&mut lent_too.out);
                unsafe { f(s.0, s.1, 0, list.0, list.1, list.0, list.1, out.0, out.1) }
            })
        }
        "ohg_delete_edges"
        | "ohg_spiderize_nodes"
        | "ohg_cycle_breaking_nodes_keeping"
        | "ohg_cycle_breaking_nodes_scanning" => {
            let f = function!(
                *const u8,
                usize,
                *const u8,
                usize,
                *mut u8,
                usize,
                *mut u8,
                usize
            );
            Box::new(move |src, lent_too| {
                let (s, list) = (lent(src), lent(&lent_too.list));
                let (out, room) = (writable(&mut lent_too.out), writable(&mut lent_too.room));
                unsafe { f(s.0, s.1, list.0, list.1, out.0, out.1, room.0, room.1) }
            })
        }
        "ohg_delete_nodes" => {
            let f = function!(
                *const u8,
                usize,
                *const u8,
                usize,
                *mut u8,
                usize,
                *mut u8,
                usize,
                *mut u8,
                usize
            );
            Box::new(move |src, lent_too| {
                let (s, list) = (lent(src), lent(&lent_too.list));
                let (out, room) = (writable(&mut lent_too.out), writable(&mut lent_too.room));
                let map = writable(&mut lent_too.map);
                unsafe {
                    f(
                        s.0, s.1, list.0, list.1, out.0, out.1, map.0, map.1, room.0, room.1,
                    )
                }
            })
        }
        "ohg_quotient" => {
            let f = function!(
                *const u8,
                usize,
                *mut u8,
                usize,
                *mut u8,
                usize,
                *mut u8,
                usize
            );
            Box::new(move |src, lent_too| {
                let (s, out) = (lent(src), writable(&mut lent_too.out));
                let (map, room) = (writable(&mut lent_too.map), writable(&mut lent_too.room));
                unsafe { f(s.0, s.1, out.0, out.1, map.0, map.1, room.0, room.1) }
            })
        }
        "ohg_spiderize" | "ohg_cycle_breaking_nodes" | "ohg_reasons" | "ohg_find_loop" => {
            let f = function!(*const u8, usize, *mut u8, usize, *mut u8, usize);
            Box::new(move |src, lent_too| {
                let (s, out) = (lent(src), writable(&mut lent_too.out));
                let room = writable(&mut lent_too.room);
                unsafe { f(s.0, s.1, out.0, out.1, room.0, room.1) }
            })
        }
        "ohg_no_loop" | "ohg_once_fed" => {
            let f = function!(*const u8, usize, *mut u8, usize);
            Box::new(move |src, lent_too| {
                let (s, room) = (lent(src), writable(&mut lent_too.room));
                unsafe { f(s.0, s.1, room.0, room.1) }
            })
        }
        _ => return Err(format!("no call of {name} is known")),
    })
}

fn writable(bytes: &mut [u8]) -> Out {
    (bytes.as_mut_ptr(), bytes.len())
}

/// The list that a call takes beside forms: none, four ids or labels, or every eighth id.
#[derive(Clone, Copy)]
enum Beside {
    Nothing,
    Ids,
    Labels,
    EveryEighth,
}

const CALLS: [(&str, Inputs, Beside); 21] = [
    ("ohg_read", RANDOM, Beside::Nothing),
    ("ohg_rewrite", RANDOM, Beside::Nothing),
    ("ohg_discrete", NODES, Beside::Nothing),
    ("ohg_identity", GLOBAL_NODES, Beside::Nothing),
    ("ohg_singleton", ONE_EDGE, Beside::Nothing),
    ("ohg_new_node", TO_ADD_TO, Beside::Nothing),
    ("ohg_new_edge", TO_ADD_TO, Beside::Ids),
    ("ohg_new_operation", TO_ADD_TO, Beside::Labels),
    ("ohg_unify", TO_ADD_TO, Beside::Nothing),
    ("ohg_add_edge_source", TO_ADD_TO, Beside::Nothing),
    ("ohg_add_edge_target", TO_ADD_TO, Beside::Nothing),
    ("ohg_delete_edges", RANDOM, Beside::EveryEighth),
    ("ohg_delete_nodes", RANDOM, Beside::EveryEighth),
    ("ohg_spiderize", TO_SPIDERIZE, Beside::Nothing),
    (
        "ohg_spiderize_nodes",
        EIGHTH_TO_SPIDERIZE,
        Beside::EveryEighth,
    ),
    ("ohg_cycle_breaking_nodes", BARE, Beside::Nothing),
    ("ohg_cycle_breaking_nodes_keeping", BARE, Beside::Nothing),
    ("ohg_reasons", BARE, Beside::Nothing),
    ("ohg_find_loop", RINGS, Beside::Nothing),
    ("ohg_no_loop", TREES, Beside::Nothing),
    ("ohg_once_fed", RINGS, Beside::Nothing),
];

/// What is merged. A build without `ohg_quotient` refuses to spiderize these.
const MERGING: [(&str, Inputs, Beside); 5] = [
    ("ohg_quotient", JOINED, Beside::Nothing),
    ("ohg_quotient", RISING, Beside::Nothing),
    ("ohg_quotient", FALLING, Beside::Nothing),
    ("ohg_spiderize", JOINED_TO_SPIDERIZE, Beside::Nothing),
    ("ohg_spiderize_nodes", EIGHTH_OF_JOINED, Beside::EveryEighth),
];

/// A call's sizes up to the largest of version 1 are so many, of which four are measured.
const SIZES: usize = 8;

/// The two that are measured on every family of drawings too.
const ON_FAMILIES: [&str; 2] = ["ohg_cycle_breaking_nodes", "ohg_no_loop"];

/// Two builds, an earlier one and a newer one.
struct Builds([Build; 2]);

impl Builds {
    /// What only one of the two has can't be compared.
    fn have(&self, name: &str) -> bool {
        self.0.iter().all(|build| build.addresses(name).is_some())
    }

    /// Whether both make a graph that only version 2 stores.
    fn know_version_2(&self) -> Result<bool, String> {
        let labels = label_bytes(VERSION_1.most.nodes + 1);
        for build in &self.0 {
            let call = call(build, "ohg_discrete")?;
            if answered(call(&labels, &mut Lent::new(vec![]))).is_none() {
                return Ok(false);
            }
        }
        Ok(true)
    }

    /// Measures a call of both by turns, prints a row, and tells the newer one's part of the earlier one's time.
    fn row(
        &self,
        name: &str,
        on: &str,
        size: usize,
        forms: &[Vec<u8>],
        list: Vec<u8>,
    ) -> Result<f64, String> {
        let [before, now] = self.0.each_ref().map(|build| call(build, name));
        let [before, now] = [before?, now?];
        let [mut lent, mut lent_now] = [(); 2].map(|_| Lent::new(list.clone()));
        for form in forms {
            let returned = before(form, &mut lent);
            if answered(returned).is_none() {
                return Err(format!("{name} is refused at {size} nodes + ports"));
            }
            let alike = returned == now(form, &mut lent_now);
            if !alike || lent.out != lent_now.out || lent.map != lent_now.map {
                return Err(format!(
                    "{name} answers differently at {size} nodes + ports"
                ));
            }
        }
        let times = medians(vec![
            Side::new(forms, |form| before(form, &mut lent)),
            Side::new(forms, |form| now(form, &mut lent_now)),
        ]);
        let ratio = times[1] / times[0];
        let cells = [format!("`{name}`"), on.to_string(), size.to_string()];
        let numbers = [
            format!("{:.0}", times[0]),
            format!("{:.0}", times[1]),
            format!("{ratio:.2}"),
        ];
        print_cells(cells.into_iter().chain(numbers));
        Ok(ratio)
    }
}

fn print_table_head() {
    let words = [
        "call",
        "on",
        "nodes + ports",
        "before, ns",
        "now, ns",
        "now / before",
    ];
    print_head(words.map(String::from).to_vec());
}

fn print_mean(ratios: &[f64]) {
    let mean = geometric_mean(ratios.iter().copied());
    let blank = String::new;
    print_cells([
        String::from("geometric mean"),
        blank(),
        blank(),
        blank(),
        blank(),
        format!("{mean:.2}"),
    ]);
}

/// Makes one call so many times on its largest inputs of version 1, and nothing else: for a tool that counts what a program
/// does. Twice, with none and with some, the difference is the calls'.
pub fn make_calls(archive: &str, name: &str, times: &str) -> Result<(), String> {
    let times: usize = times.parse().map_err(|_| format!("{times} is no number"))?;
    let mut calls = CALLS.iter().chain(&MERGING);
    let listed = calls.find(|(call, ..)| *call == name);
    let Some((_, inputs, Beside::Nothing)) = listed else {
        return Err(format!("no call of {name} without a list is known"));
    };
    let (size, forms) = (inputs.of)(inputs.most(VERSION_1));
    let call = call(&Build::open(Path::new(archive))?, name)?;
    let mut lent = Lent::new(vec![]);
    for form in forms.iter().cycle().take(times) {
        call(form, &mut lent);
    }
    println!(
        "{times} calls of {name} on {}, {size} nodes + ports",
        inputs.words
    );
    Ok(())
}

/// Measures every call of two builds on drawings of version 1, and on some of version 2 if both know it.
pub fn measure(before: &str, now: &str) -> Result<(), String> {
    let [before, now] = [before, now].map(|archive| Build::open(Path::new(archive)));
    let builds = Builds([before?, now?]);
    print_rounds();
    measure_version(&builds, VERSION_1, &NODES_1)?;
    if builds.know_version_2()? {
        measure_version(&builds, VERSION_2, &NODES_2)?;
    }
    Ok(())
}

/// Measures every call and prints a table; then a table for each of those that the drawing's shape matters to, on every
/// family with these numbers of nodes.
fn measure_version(builds: &Builds, version: Version, nodes: &[usize]) -> Result<(), String> {
    println!("\nVersion {}:\n", version.number);
    print_table_head();
    let mut ratios = vec![];
    let merging = builds.have("ohg_quotient").then_some(MERGING);
    let calls = CALLS.into_iter().chain(merging.into_iter().flatten());
    for (name, inputs, beside) in calls {
        if !builds.have(name) {
            continue;
        }
        for number in numbers(&inputs, version) {
            let (size, forms) = (inputs.of)(number);
            let list = match beside {
                Beside::Nothing => vec![],
                Beside::Ids => list_for(&forms, [0, 1]),
                Beside::Labels => label_bytes(2),
                Beside::EveryEighth => list_for(&forms, every_eighth(&forms)),
            };
            ratios.push(builds.row(name, inputs.words, size, &forms, list)?);
        }
    }
    print_mean(&ratios);
    for name in ON_FAMILIES {
        if !builds.have(name) {
            continue;
        }
        println!();
        print_table_head();
        let mut ratios = vec![];
        for &nodes in nodes {
            for (family, make) in FAMILIES {
                let forms = several(|rng| make(rng, nodes));
                let on = format!("{family}, {nodes} nodes");
                ratios.push(builds.row(name, &on, size(&forms[0]), &forms, vec![])?);
            }
        }
        print_mean(&ratios);
    }
    Ok(())
}

/// Of version 1 the fewest, where what a call takes on any drawing is most of its time, a small number, a middle one and the
/// most; of version 2, which has no small ones, a quarter of the most, and the most.
fn numbers(inputs: &Inputs, version: Version) -> Vec<usize> {
    let most = inputs.most(version);
    if version == VERSION_2 {
        return vec![most / 4, most];
    }
    let numbers = inputs.numbers(version, SIZES);
    vec![numbers[0], numbers[1], numbers[SIZES / 2], most]
}
