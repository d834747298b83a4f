//! The choice by sweeping: beside the first engine on the six families, and on the drawings that take it longest.

use crate::choice::{choice_times, chosen, measure_families};
use crate::keeping::ohg_cycle_breaking_nodes_keeping;
use crate::port;
use crate::sides::MOST_LIST_BYTES;
use crate::table::{mean, print_cells, print_head, Table};
use crate::timing::{fewest, medians, Side};
use differential::cases::{edge, plain};
use differential::convert::Graph;
use differential::form::{self, id_bytes, Drawing, Edge, Sizes, VERSION_1, VERSION_2};
use differential::rng::Rng;
use differential::rooms::Rooms;

mod exported {
    crate::port::functions! {
        pub fn ohg_cycle_breaking_nodes_scanning(
            src: *const u8,
            src_len: usize,
            kept: *const u8,
            kept_len: usize,
            list: *mut u8,
            list_len: usize,
            room: *mut u8,
            room_len: usize,
        ) -> u64;
    }
}

fn ohg_cycle_breaking_nodes_scanning(
    src: &[u8],
    kept: &[u8],
    list: &mut [u8],
    room: &mut [u8],
) -> u64 {
    // SAFETY: each part is lent for the call, with its own length.
    unsafe {
        exported::ohg_cycle_breaking_nodes_scanning(
            src.as_ptr(),
            src.len(),
            kept.as_ptr(),
            kept.len(),
            list.as_mut_ptr(),
            list.len(),
            room.as_mut_ptr(),
            room.len(),
        )
    }
}

/// Prints two tables: the families, and the worst drawings.
pub fn measure() -> Result<(), String> {
    let rooms = Rooms::read()?;
    port::open_measured()?;
    let mut room = vec![0; rooms.of("ohg_cycle_breaking_nodes_scanning")?];
    let mut first_room = vec![0; rooms.of("ohg_cycle_breaking_nodes_keeping")?];
    let words = &["family", "nodes", "ports", "chosen (mean)"];
    let title = "`ohg_cycle_breaking_nodes_scanning`, none kept";
    let mut families = Table::begin(title, words, &["first engine"]);
    let number = |graphs: &[Graph]| mean(graphs.iter().map(|graph| chosen(graph).len()));
    measure_families(&mut families, number, |forms| {
        beside_first(forms, &mut room, &mut first_room)
    });
    println!("\n## The drawings that take it longest\n");
    let head = ["drawing", "nodes", "edges", "ports", "code", "chosen"];
    let times = ["port, ms", "first engine, ms"];
    print_head(head.iter().chain(&times).map(|s| s.to_string()).collect());
    for most in [VERSION_1.most, VERSION_2.most] {
        for worst in worst_drawings(most) {
            print_worst(&worst, &mut room, &mut first_room);
        }
    }
    Ok(())
}

fn beside_first(forms: &[Vec<u8>], room: &mut [u8], first_room: &mut [u8]) -> Vec<f64> {
    let [mut list, mut first_list] = [(); 2].map(|_| vec![0; MOST_LIST_BYTES]);
    for form in forms {
        let returned = ohg_cycle_breaking_nodes_scanning(form, &[], &mut list, room);
        let first = ohg_cycle_breaking_nodes_keeping(form, &[], &mut first_list, first_room);
        assert_eq!(returned, first, "both engines answer the same");
        assert_eq!(list, first_list, "both engines give the same list");
    }
    medians(vec![
        Side::new(forms, |form| {
            ohg_cycle_breaking_nodes_scanning(form, &[], &mut list, room)
        }),
        Side::new(forms, |form| {
            ohg_cycle_breaking_nodes_keeping(form, &[], &mut first_list, first_room)
        }),
    ])
}

/// The times of the call where none is kept, and those of the original.
pub fn scanning(forms: &[Vec<u8>], room: &mut [u8]) -> Vec<f64> {
    let mut times = choice_times(forms, |form, list| {
        ohg_cycle_breaking_nodes_scanning(form, &[], list, room)
    });
    times.remove(1);
    times
}

/// A drawing with what is kept, and what it is called.
struct Worst {
    name: &'static str,
    drawing: Drawing,
    kept: Vec<usize>,
}

fn print_worst(worst: &Worst, room: &mut [u8], first_room: &mut [u8]) {
    let form = form::write(&worst.drawing);
    let kept = id_bytes(worst.kept.iter().copied(), form::width(&form));
    let [mut list, mut first_list] = [(); 2].map(|_| vec![0; MOST_LIST_BYTES]);
    let (returned, time) =
        fewest(|| ohg_cycle_breaking_nodes_scanning(&form, &kept, &mut list, room));
    let (first, first_time) =
        fewest(|| ohg_cycle_breaking_nodes_keeping(&form, &kept, &mut first_list, first_room));
    assert_eq!(returned, first, "both engines answer the same");
    assert_eq!(list, first_list, "both engines give the same list");
    let sizes = worst.drawing.sizes();
    print_cells([
        worst.name.to_string(),
        sizes.nodes.to_string(),
        sizes.edges.to_string(),
        sizes.ports.to_string(),
        (returned & 0xFF).to_string(),
        (returned >> 8 & 0xFF_FFFF).to_string(),
        format!("{:.1}", time.as_secs_f64() * 1e3),
        format!("{:.2}", first_time.as_secs_f64() * 1e3),
    ]);
}

/// Drawings at a version's limits in which each sweep frees as little as can be, and there are as many stages as can be.
fn worst_drawings(most: Sizes) -> Vec<Worst> {
    let last = most.nodes as u32 - 1;
    let loops: Vec<Edge> = (0..=last).map(|node| arc(node, node)).collect();
    let mut loops_and_long = loops.clone();
    let gone = vec![0; most.ports - 2 * most.nodes];
    loops_and_long[last as usize] = edge(9, &[&gone[..], &[last]].concat(), &[last]);
    let all: Vec<u32> = (0..=last).collect();
    let one_edge = edge(9, &[&gone[..], &all].concat(), &all);
    // The way leads up to a loop, and the edge that is free first stands last.
    let against = (0..last).rev().map(|node| arc(node, node + 1));
    let against: Vec<Edge> = against.chain([arc(last, last)]).collect();
    let none = |name, edges: &[Edge]| Worst {
        name,
        drawing: plain(most.nodes, edges),
        kept: vec![],
    };
    vec![
        none("a loop at each node", &loops),
        none("a loop at each node, one edge long", &loops_and_long),
        none("one edge with all nodes", &[one_edge]),
        none("a way into a loop, edges against it", &against),
        none("a way, edges against both its ends", &from_the_middle(last)),
        none("a ladder", &ladder(most.nodes as u32)),
        stays("edges that stay", most, [most.nodes - 2, 0, 0]),
        stays(
            "the same, gone entries in front",
            most,
            [most.nodes * 5 / 8, 1, 0],
        ),
        stays(
            "the same, half the edges gone",
            most,
            [most.nodes - 2, 1, 2],
        ),
        stays(
            "the same, gone entries by 16",
            most,
            [most.nodes - 2, 16, 2],
        ),
    ]
}

fn arc(from: u32, to: u32) -> Edge {
    edge(9, &[from], &[to])
}

/// A way through all nodes whose edges are numbered from its middle on, so that at both ends the later one is free first.
fn from_the_middle(last: u32) -> Vec<Edge> {
    let middle = last / 2;
    let from = |i: u32| {
        if i % 2 == 0 {
            middle.checked_sub(i / 2)
        } else {
            Some(middle + 1 + i / 2)
        }
    };
    let starts = (0..=last).filter_map(from).filter(|&node| node < last);
    starts.map(|node| arc(node, node + 1)).collect()
}

/// Two rings side by side, whose edges run against the sweep.
fn ladder(nodes: u32) -> Vec<Edge> {
    let half = nodes / 2;
    let rung = |i: u32| {
        let next = (i + half - 1) % half;
        [
            edge(9, &[i], &[next, half + i]),
            edge(9, &[half + i], &[half + next, i]),
        ]
    };
    (0..half).flat_map(rung).collect()
}

/// So many stages: an edge has a node for each. The other edges lead from a kept node to itself and stay to the end, which is 16.
/// In front of that node are entries of one that has gone, by so many, as many times as heads in a row are tossed; and one edge
/// in so many has none and goes at once. So a processor can't foresee what a sweep finds.
fn stays(name: &'static str, most: Sizes, [stages, by, one_in]: [usize; 3]) -> Worst {
    let mut rng = Rng::new(1);
    let [gone, kept] = [most.nodes as u32 - 2, most.nodes as u32 - 1];
    let chosen: Vec<u32> = (0..stages as u32).collect();
    let mut left = most.ports - 2 * stages;
    let mut edges = vec![];
    for after in (0..most.edges - 1).rev() {
        if left < 2 || (one_in > 0 && rng.once_in(one_in)) {
            edges.push(edge(9, &[], &[]));
            continue;
        }
        let mut list = || {
            let mut entries = vec![];
            while by > 0 && rng.once_in(2) {
                entries.extend(vec![gone; by]);
            }
            entries.push(kept);
            entries
        };
        let [mut sources, mut targets] = [list(), list()];
        let most_now = if one_in > 0 { left } else { left - 2 * after };
        if sources.len() + targets.len() > most_now {
            (sources, targets) = (vec![kept], vec![kept]);
        }
        left -= sources.len() + targets.len();
        edges.push(edge(9, &sources, &targets));
    }
    edges.push(edge(9, &chosen, &chosen));
    Worst {
        name,
        drawing: plain(most.nodes, &edges),
        kept: vec![kept as usize],
    }
}
