//! Small multiples in SVG: a panel for each call, all on the same logarithmic axes.

/// Points of nodes + ports and nanoseconds. A single one has no size and is drawn as a level line.
pub type Line = Vec<[f64; 2]>;

pub struct Panel {
    pub title: &'static str,
    /// Under the title, on the left and, in the first line's colour, on the right.
    pub notes: [String; 2],
    /// The nodes + ports at which a line stands upright, if they are above 0.
    pub mark: f64,
    pub lines: [Line; 2],
}

const COLUMNS: usize = 4;

/// Pixels: those of a panel with all that stands about its field, those of the field, and where in the panel it begins.
const CELL: [f64; 2] = [248.0, 226.0];
const FIELD: [f64; 2] = [180.0, 150.0];
const INSET: [f64; 2] = [58.0, 40.0];

const MARGIN: f64 = 4.0;

const STYLE: &str = ".title { font: bold 12px monospace; fill: #111 }
.legend { font: 12px sans-serif; fill: #111 }
.small { font: 10px sans-serif; fill: #444 }
.grid { stroke: #e4e4e4 }
.frame { stroke: #888; fill: none }
.linear { stroke: #888; stroke-dasharray: 3 3 }
.mark { stroke: #3a7d34 }
.line0, .line1 { stroke: #0b61a4; stroke-width: 1.8; fill: none }
.line1 { stroke: #d1601c }
.point0, .name0 { fill: #0b61a4 }
.point1 { fill: #fff; stroke: #d1601c; stroke-width: 1.4 }";

/// A picture of the panels, and then what the two lines of each are and what is marked.
pub fn svg(panels: &[Panel], names: [&str; 2], marked: &str) -> String {
    let axes = Axes::of(panels);
    let columns = COLUMNS as f64 * CELL[0];
    let rows = (panels.len() / COLUMNS + 1) as f64 * CELL[1];
    let [width, height] = [columns, rows].map(|pixels| pixels + 2.0 * MARGIN);
    let mut cells: Vec<String> = panels.iter().map(|panel| axes.panel(panel)).collect();
    cells.push(legend(names, marked));
    let mut svg = format!(
        "<svg xmlns=\"http://www.w3.org/2000/svg\" width=\"{width}\" height=\"{height}\" viewBox=\"0 0 {width} {height}\">\n\
         <title>Time of each call against nodes + ports</title>\n\
         <style>\n{STYLE}\n</style>\n\
         <defs>\n<g id=\"axes\">\n{}</g>\n</defs>\n\
         <rect width=\"{width}\" height=\"{height}\" fill=\"#fff\"/>\n",
        axes.drawn()
    );
    for (i, cell) in cells.iter().enumerate() {
        let x = MARGIN + (i % COLUMNS) as f64 * CELL[0] + INSET[0];
        let y = MARGIN + (i / COLUMNS) as f64 * CELL[1] + INSET[1];
        svg += &format!("<g transform=\"translate({x} {y})\">\n{cell}</g>\n");
    }
    svg + "</svg>\n"
}

/// A logarithmic axis.
struct Axis {
    low: f64,
    high: f64,
    pixels: f64,
}

impl Axis {
    /// From a little below the lowest value to a little above the highest.
    fn about(values: impl Iterator<Item = f64> + Clone, pixels: f64) -> Self {
        Axis {
            low: values.clone().fold(f64::MAX, f64::min) / 1.8,
            high: values.fold(0.0, f64::max) * 1.8,
            pixels,
        }
    }

    /// Pixels from the low end.
    fn at(&self, value: f64) -> f64 {
        (value / self.low).ln() / (self.high / self.low).ln() * self.pixels
    }

    /// The powers of ten.
    fn ticks(&self) -> impl Iterator<Item = f64> {
        let exponents = self.low.log10().ceil() as i32..=self.high.log10().floor() as i32;
        exponents.map(|exponent| 10f64.powi(exponent))
    }
}

/// Sizes to the right, times upwards.
struct Axes {
    x: Axis,
    y: Axis,
}

impl Axes {
    fn of(panels: &[Panel]) -> Self {
        let points = panels.iter().flat_map(|panel| panel.lines.iter().flatten());
        let sizes = points.clone().map(|[size, _]| *size);
        Axes {
            x: Axis::about(sizes.filter(|&size| size > 0.0), FIELD[0]),
            y: Axis::about(points.map(|[_, time]| *time), FIELD[1]),
        }
    }

    fn place(&self, [size, time]: [f64; 2]) -> [f64; 2] {
        [self.x.at(size), FIELD[1] - self.y.at(time)]
    }

    /// What all panels have: the grid with its numbers, and the line of 1 ns for each node and port.
    fn drawn(&self) -> String {
        let [right, bottom] = FIELD;
        let mut svg = String::new();
        for tick in self.x.ticks() {
            let [x, _] = self.place([tick, 1.0]);
            svg += &line("grid", [x, 0.0], [x, bottom]);
            svg += &text("small", "middle", [x, bottom + 13.0], &count(tick));
        }
        for tick in self.y.ticks() {
            let [_, y] = self.place([1.0, tick]);
            svg += &line("grid", [0.0, y], [right, y]);
            svg += &text("small", "end", [-5.0, y + 3.5], &time(tick));
        }
        let [from, to] = [self.x.low.max(self.y.low), self.x.high.min(self.y.high)];
        svg += &line("linear", self.place([from; 2]), self.place([to; 2]));
        let below = [right / 2.0, bottom + 26.0];
        svg += &text("small", "middle", below, "nodes + ports");
        // Turned, so that it reads upwards: to the right is up now, and downwards is to the right.
        svg += "<g transform=\"rotate(-90)\">\n";
        let left = [-bottom / 2.0, -44.0];
        svg += &text("small", "middle", left, "time of a call");
        svg += "</g>\n";
        svg + &format!("<rect class=\"frame\" width=\"{right}\" height=\"{bottom}\"/>\n")
    }

    fn panel(&self, panel: &Panel) -> String {
        let mut svg = text("title", "start", [0.0, -22.0], panel.title);
        svg += &text("small", "start", [0.0, -7.0], &panel.notes[0]);
        svg += &text("small name0", "end", [FIELD[0], -7.0], &panel.notes[1]);
        svg += "<use href=\"#axes\"/>\n";
        if panel.mark > 0.0 {
            let x = self.x.at(panel.mark);
            svg += &line("mark", [x, 0.0], [x, FIELD[1]]);
        }
        // The first line is drawn last, above the other.
        for (i, points) in panel.lines.iter().enumerate().rev() {
            svg += &match points[..] {
                [[_, time]] => {
                    let ends = [self.x.low, self.x.high].map(|size| self.place([size, time]));
                    line(&format!("line{i}"), ends[0], ends[1])
                }
                _ => {
                    let places: Vec<_> = points.iter().map(|point| self.place(*point)).collect();
                    pointed_line(i, &places)
                }
            };
        }
        svg
    }
}

fn legend(names: [&str; 2], marked: &str) -> String {
    let sample = |y| [[0.0, y], [15.0, y], [30.0, y]];
    let mut svg = String::new();
    for (i, name) in names.iter().enumerate() {
        let y = 10.0 + 24.0 * i as f64;
        svg += &pointed_line(i, &sample(y));
        svg += &text("legend", "start", [40.0, y + 4.0], name);
    }
    let [from, _, to] = sample(58.0);
    svg += &line("linear", from, to);
    svg += &text("legend", "start", [40.0, 62.0], "1 ns per node and port");
    svg += &line("mark", [15.0, 74.0], [15.0, 90.0]);
    svg += &text("legend", "start", [40.0, 86.0], marked);
    let slope = [
        "exponent: slope of the port's line",
        "over the larger half of its sizes",
    ];
    for (y, words) in [114.0, 127.0].into_iter().zip(slope) {
        svg += &text("small", "start", [0.0, y], words);
    }
    svg
}

fn pointed_line(i: usize, places: &[[f64; 2]]) -> String {
    let points: Vec<String> = places
        .iter()
        .map(|[x, y]| format!("{x:.1},{y:.1}"))
        .collect();
    let mut svg = format!(
        "<polyline class=\"line{i}\" points=\"{}\"/>\n",
        points.join(" ")
    );
    for [x, y] in places {
        svg += &format!("<circle class=\"point{i}\" cx=\"{x:.1}\" cy=\"{y:.1}\" r=\"2.6\"/>\n");
    }
    svg
}

fn line(class: &str, [x1, y1]: [f64; 2], [x2, y2]: [f64; 2]) -> String {
    format!(
        "<line class=\"{class}\" x1=\"{x1:.1}\" y1=\"{y1:.1}\" x2=\"{x2:.1}\" y2=\"{y2:.1}\"/>\n"
    )
}

fn text(class: &str, anchor: &str, [x, y]: [f64; 2], words: &str) -> String {
    format!("<text class=\"{class}\" text-anchor=\"{anchor}\" x=\"{x:.1}\" y=\"{y:.1}\">{words}</text>\n")
}

/// A power of ten with its thousands parted.
fn count(n: f64) -> String {
    if n < 1e3 {
        format!("{n}")
    } else {
        format!("{},000", n / 1e3)
    }
}

/// A power of ten of nanoseconds, in the unit that suits.
fn time(ns: f64) -> String {
    match ns {
        ..1e3 => format!("{ns} ns"),
        ..1e6 => format!("{} µs", ns / 1e3),
        _ => format!("{} ms", ns / 1e6),
    }
}
