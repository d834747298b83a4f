//! How the time of each call grows with the drawing that it reads or makes.

use crate::building::{
    add_edge_source, add_edge_target, discrete, empty, identity, new_edge, new_node, new_operation,
    singleton, unify,
};
use crate::choice::{cycle_breaking_nodes, no_loop};
use crate::deleting::{delete_edges, delete_nodes};
use crate::drawings::every_eighth;
use crate::explaining::reasons;
use crate::inputs::{
    Inputs, BARE, EIGHTH_OF_JOINED, EIGHTH_TO_SPIDERIZE, FALLING, GLOBAL_NODES, JOINED,
    JOINED_TO_SPIDERIZE, KEEPING, NODES, NOTHING, ONE_EDGE, PARTS, RANDOM, RINGS, RISING, STEPS,
    TO_ADD_TO, TO_SPIDERIZE, TREES, WITH_STEPS,
};
use crate::keeping::keeping_a_tenth;
use crate::many::{build_from_nothing, build_on_forms};
use crate::merging::quotient;
use crate::once_fed::once_fed;
use crate::plot::{self, Line, Panel};
use crate::port;
use crate::pricing::price;
use crate::reading::{read, rewrite};
use crate::scanning::scanning;
use crate::showing::find_loop;
use crate::sides::Times;
use crate::spidering::{spiderize, spiderize_nodes, Listed};
use crate::table::{print_cells, print_head, print_rounds};
use differential::form::VERSION_2;
use differential::rooms::Rooms;
use oracle::lax::NodeId;
use std::fs;

/// How many sizes a call is measured at.
const SIZES: usize = 11;

const WITHOUT_ROOM: [(&str, Inputs, Times); 12] = [
    ("ohg_read", RANDOM, read),
    ("ohg_rewrite", RANDOM, rewrite),
    ("ohg_empty", NOTHING, empty),
    ("ohg_discrete", NODES, discrete),
    ("ohg_identity", GLOBAL_NODES, identity),
    ("ohg_singleton", ONE_EDGE, singleton),
    ("ohg_new_node", TO_ADD_TO, new_node),
    ("ohg_new_edge", TO_ADD_TO, new_edge),
    ("ohg_new_operation", TO_ADD_TO, new_operation),
    ("ohg_unify", TO_ADD_TO, unify),
    ("ohg_add_edge_source", TO_ADD_TO, add_edge_source),
    ("ohg_add_edge_target", TO_ADD_TO, add_edge_target),
];

const IN_ROOM: [(&str, Inputs, TimesInRoom); 20] = [
    ("ohg_delete_edges", RANDOM, delete_edges),
    ("ohg_delete_nodes", RANDOM, delete_nodes),
    ("ohg_build", STEPS, build_from_nothing),
    ("ohg_build", WITH_STEPS, build_on_forms),
    ("ohg_quotient", JOINED, quotient),
    ("ohg_quotient", RISING, quotient),
    ("ohg_quotient", FALLING, quotient),
    ("ohg_spiderize", TO_SPIDERIZE, spiderize),
    ("ohg_spiderize", JOINED_TO_SPIDERIZE, spiderize),
    ("ohg_spiderize_nodes", EIGHTH_TO_SPIDERIZE, spiderize_eighth),
    ("ohg_spiderize_nodes", EIGHTH_OF_JOINED, spiderize_eighth),
    ("ohg_cycle_breaking_nodes", BARE, cycle_breaking_nodes),
    ("ohg_cycle_breaking_nodes_keeping", KEEPING, keeping_a_tenth),
    ("ohg_cycle_breaking_nodes_scanning", BARE, scanning),
    ("ohg_reasons", BARE, reasons),
    ("ohg_find_loop", BARE, find_loop),
    ("ohg_find_loop", RINGS, find_loop),
    ("ohg_no_loop", TREES, no_loop),
    ("ohg_once_fed", RINGS, once_fed),
    ("ohg_price", PARTS, price),
];

type TimesInRoom = fn(&[Vec<u8>], &mut [u8]) -> Vec<f64>;

fn spiderize_eighth(forms: &[Vec<u8>], room: &mut [u8]) -> Vec<f64> {
    let nodes: Vec<NodeId> = every_eighth(forms).map(NodeId).collect();
    let listed = forms.iter().map(|form| Listed::new(form, nodes.clone()));
    spiderize_nodes(&listed.collect::<Vec<_>>(), room)
}

/// The times of a call over its sizes: of the port, and of what stands beside it.
struct Growth {
    call: &'static str,
    inputs: &'static str,
    end_of_version_1: usize,
    room: usize,
    lines: [Line; 2],
}

/// Measures each call, prints a table and writes the picture to a file.
pub fn measure(file: &str) -> Result<(), String> {
    let rooms = Rooms::read()?;
    port::open_measured()?;
    let mut growths = vec![];
    for (call, inputs, times) in WITHOUT_ROOM {
        growths.push(Growth::of(call, inputs, 0, times));
    }
    for (call, inputs, times) in IN_ROOM {
        let bytes = rooms.of(call)?;
        let mut room = vec![0; bytes];
        let times = |forms: &[Vec<u8>]| times(forms, &mut room);
        growths.push(Growth::of(call, inputs, bytes, times));
    }
    print_table(&growths);
    let panels: Vec<Panel> = growths.into_iter().map(Growth::panel).collect();
    let names = ["port", "original, or plain Rust"];
    let svg = plot::svg(&panels, names, "version 1 ends");
    fs::write(file, svg).map_err(|e| format!("{file}: {e}"))
}

impl Growth {
    fn of(
        call: &'static str,
        inputs: Inputs,
        room: usize,
        mut times: impl FnMut(&[Vec<u8>]) -> Vec<f64>,
    ) -> Self {
        let mut lines = [vec![], vec![]];
        for number in inputs.numbers(VERSION_2, SIZES) {
            let (size, inputs) = (inputs.of)(number);
            let times = times(&inputs);
            lines[0].push([size as f64, times[0]]);
            lines[1].push([size as f64, times[times.len() - 1]]);
        }
        Growth {
            call,
            inputs: inputs.words,
            end_of_version_1: inputs.end_of_version_1(),
            room,
            lines,
        }
    }

    /// The row of a table. A call without sizes has its time in all.
    fn cells(&self) -> Vec<String> {
        let ends = self
            .lines
            .each_ref()
            .map(|line| [line[0], line[line.len() - 1]]);
        let [[smallest, _], [largest, _]] = ends[0];
        let mut cells = vec![format!("`{}`", self.call), self.inputs.to_string()];
        if smallest == largest {
            let [port, beside] = ends.map(|[[_, time], _]| format!("{time:.1} in all"));
            let blank = String::new;
            cells.extend([
                blank(),
                blank(),
                port,
                blank(),
                beside,
                blank(),
                blank(),
                blank(),
            ]);
        } else {
            let each = |[size, time]: [f64; 2]| format!("{:.2}", time / size);
            cells.push(format!("{smallest} to {largest}"));
            cells.push(self.end_of_version_1.to_string());
            cells.extend(ends.as_flattened().iter().map(|end| each(*end)));
            cells.extend(
                self.lines
                    .iter()
                    .map(|line| format!("{:.2}", exponent(line))),
            );
        }
        cells.push(self.room.to_string());
        cells
    }

    fn panel(self) -> Panel {
        let growth = match self.lines[0].len() {
            1 => String::new(),
            _ => format!("exponent {:.2}", exponent(&self.lines[0])),
        };
        Panel {
            title: self.call,
            notes: [self.inputs.to_string(), growth],
            mark: self.end_of_version_1 as f64,
            lines: self.lines,
        }
    }
}

fn print_table(growths: &[Growth]) {
    print_rounds();
    println!(
        "\nNanoseconds for each node and port of the drawing that is read or made, at the smallest size and at the largest, and the exponent of growth: the slope \
         of the logarithm of time against that of nodes + ports, over the larger half of {SIZES} sizes. Up to a size all is of version 1. *Beside* is the original from stored form to stored form, or \
         plain Rust that takes and gives the same.\n"
    );
    let head = [
        "call",
        "on",
        "nodes + ports",
        "version 1 up to",
        "port, ns at smallest",
        "port, ns at largest",
        "beside, ns at smallest",
        "beside, ns at largest",
        "exponent, port",
        "exponent, beside",
        "work room, bytes",
    ];
    print_head(head.map(String::from).to_vec());
    for growth in growths {
        print_cells(growth.cells());
    }
}

/// The slope of the straight line nearest to the logarithms of the larger half.
fn exponent(line: &[[f64; 2]]) -> f64 {
    let half = line[line.len() / 2..].iter();
    let points: Vec<[f64; 2]> = half.map(|point| point.map(f64::ln)).collect();
    let mean = |i: usize| points.iter().map(|point| point[i]).sum::<f64>() / points.len() as f64;
    let [x, y] = [mean(0), mean(1)];
    let rise: f64 = points.iter().map(|[a, b]| (a - x) * (b - y)).sum();
    let run: f64 = points.iter().map(|[a, _]| (a - x) * (a - x)).sum();
    rise / run
}
