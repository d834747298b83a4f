//! Tables of measurements, in Markdown.

use crate::port::PLACES;
use crate::timing::{BATCH, FEWEST_ROUNDS, LONGEST, ROUNDS};
use differential::form::{Version, VERSION_1, VERSION_2};
use std::ops::Range;

pub fn print_preface() {
    print_rounds();
    println!(
        "\nThe port goes from stored form to stored form. The original is measured twice: *decoded*, on a graph in memory that is copied for each \
         call outside of what is timed, its answer left there; and *stored*, decoding the form, working, and encoding the answer. What has more than {} nodes, or \
         more than {} global ones, is of version 2.",
        VERSION_1.most.nodes, VERSION_1.most.sources
    );
}

/// Says how times are taken.
pub fn print_rounds() {
    println!(
        "The port's code stands at {PLACES} places in memory by turns, since a processor foresees some short loops at one address and not at another. Times are medians of \
         {ROUNDS} rounds at each place on {}, or of fewer, but at least {FEWEST_ROUNDS}, where all take more than {} ms, and then geometric means over the places. In each round \
         every side makes calls for about {} ms of the processor's time, all by turns in one process. \
         Rust is built with opt-level 3. Answer buffers and work room are lent again and again and are not cleared between calls. Of drawings that are made by chance \
         several of a size are given by turns, as many as are together about as large as the largest of their version: of one small drawing alone the processor would \
         soon foresee every branch.",
        std::env::consts::ARCH,
        LONGEST.as_millis(),
        BATCH.as_millis()
    );
}

/// What stands beside the port, in a table's words: first on a graph in memory, then from stored form to stored form.
pub const ORIGINAL: [&str; 2] = ["original (decoded)", "original (stored)"];
pub const PLAIN_CHECK: [&str; 2] = ["plain check (decoded)", "plain check (stored)"];
pub const PLAIN_WALK: [&str; 2] = ["plain walk (decoded)", "plain walk (stored)"];
pub const CHOICE_AND_PLAIN: [&str; 3] = ["choice", "plain paths (decoded)", "plain paths (stored)"];

/// The priced parts list stands beside a call of the port too, which comes first.
pub const PLAIN_PRICING: [&str; 3] = [
    "the choice alone",
    "plain pricing (decoded)",
    "plain pricing (stored)",
];

/// The report on a range too: beside a single call for each drawing.
pub const SINGLE_AND_PLAIN: [&str; 2] = ["1,000 single calls", "plain report (stored)"];

/// Many steps in one call: beside a single call for each.
pub const SINGLE_AND_ORIGINAL: [&str; 3] =
    ["single calls", "original (decoded)", "original (stored)"];

/// The ratios of one row of a table: the port's time to each of what it stands beside.
struct Row {
    /// The row's first word.
    name: String,
    version: Version,
    ratios: Vec<f64>,
}

/// A table under a heading: what each row tells in words, the nanoseconds of the port and of what it stands beside, and
/// their ratios.
pub struct Table {
    title: &'static str,
    words: &'static [&'static str],
    beside: &'static [&'static str],
    rows: Vec<Row>,
}

impl Table {
    pub fn begin(
        title: &'static str,
        words: &'static [&'static str],
        beside: &'static [&'static str],
    ) -> Self {
        let words_and_port = words.iter().chain(&["port, ns"]).map(|s| s.to_string());
        let nanoseconds = beside.iter().map(|side| format!("{side}, ns"));
        let ratios = beside.iter().map(|side| format!("port / {side}"));
        println!("\n## {title}\n");
        print_head(words_and_port.chain(nanoseconds).chain(ratios).collect());
        Table {
            title,
            words,
            beside,
            rows: vec![],
        }
    }

    /// Prints a row. The first time is the port's.
    pub fn row(&mut self, version: Version, words: &[String], times: &[f64]) {
        let ratios: Vec<f64> = times[1..].iter().map(|time| times[0] / time).collect();
        let nanoseconds = times.iter().map(|time| format!("{time:.0}"));
        let decimals = ratios.iter().map(|ratio| format!("{ratio:.2}"));
        print_cells(words.iter().cloned().chain(nanoseconds).chain(decimals));
        self.rows.push(Row {
            name: words[0].clone(),
            version,
            ratios,
        });
    }

    /// Prints a row with the geometric means of some rows' ratios.
    pub fn mean(&self, over: &str, rows: Range<usize>) {
        self.print_mean(over, &self.rows[rows].iter().collect::<Vec<_>>());
    }

    /// Prints the geometric means of each version's rows.
    pub fn version_means(&self) {
        for version in [VERSION_1, VERSION_2] {
            let rows = self.rows.iter().filter(|row| row.version == version);
            let over = format!("version {}", version.number);
            self.print_mean(&over, &rows.collect::<Vec<_>>());
        }
    }

    fn print_mean(&self, over: &str, rows: &[&Row]) {
        // The name stands in the first of the words; the times stay blank.
        let blanks = vec![String::new(); self.words.len() - 1 + (1 + self.beside.len())];
        let mean = |column: usize| geometric_mean(rows.iter().map(|row| row.ratios[column]));
        let means = (0..self.beside.len()).map(|column| format!("{:.2}", mean(column)));
        let name = format!("geometric mean, {over}");
        print_cells([name].into_iter().chain(blanks).chain(means));
    }

    /// The column of what is given a graph in memory, if there is one.
    fn in_memory(&self) -> Option<usize> {
        self.beside
            .iter()
            .position(|side| side.ends_with("(decoded)"))
    }

    /// The column of what takes and gives the same.
    fn alike(&self) -> usize {
        self.beside.len() - 1
    }

    /// The mean and the worst of a column over each version's rows, where they are of a name.
    fn summary(&self, name: Option<&str>, column: Option<usize>) -> Vec<String> {
        let of_version = |version: Version| -> Vec<f64> {
            let rows = self.rows.iter().filter(|row| row.version == version);
            let named = rows.filter(|row| name.is_none_or(|name| row.name == name));
            named.filter_map(|row| Some(row.ratios[column?])).collect()
        };
        let cells = |ratios: Vec<f64>| {
            if ratios.is_empty() {
                return [String::new(), String::new()];
            }
            let worst = ratios.iter().copied().fold(0.0, f64::max);
            let mean = geometric_mean(ratios.into_iter());
            [mean, worst].map(|ratio| format!("{ratio:.2}"))
        };
        let both = [VERSION_1, VERSION_2].map(|version| cells(of_version(version)));
        both.into_iter().flatten().collect()
    }

    /// The names of the calls, where the rows are of several.
    fn calls(&self) -> Vec<&str> {
        let mut names: Vec<&str> = vec![];
        if self.words[0] == "call" {
            for row in &self.rows {
                if !names.contains(&row.name.as_str()) {
                    names.push(&row.name);
                }
            }
        }
        names
    }
}

/// Prints the means and the worst of all tables' ratios by version, and of each call's where a table has several.
pub fn print_summary(tables: &[Table]) {
    println!(
        "\n## By version\n\nThe port's time over that of what takes and gives the same (*stored*), and over that of what is given a graph in memory and leaves its \
         answer there (*decoded*): geometric means of the ratios above, and the largest.\n"
    );
    let mut head = vec![String::from("what")];
    for side in ["stored", "decoded"] {
        for version in [VERSION_1, VERSION_2] {
            head.push(format!("{side}, version {}", version.number));
            head.push(String::from("worst"));
        }
    }
    print_head(head);
    for table in tables {
        let cells = |name: &str, of: Option<&str>| {
            let ratios = [Some(table.alike()), table.in_memory()];
            let ratios = ratios
                .into_iter()
                .flat_map(|column| table.summary(of, column));
            print_cells([name.to_string()].into_iter().chain(ratios));
        };
        cells(table.title, None);
        for call in table.calls() {
            cells(call, Some(call));
        }
    }
}

pub fn geometric_mean(ratios: impl ExactSizeIterator<Item = f64>) -> f64 {
    let n = ratios.len() as f64;
    (ratios.map(f64::ln).sum::<f64>() / n).exp()
}

/// The mean of some numbers, to the nearest whole one.
pub fn mean(numbers: impl ExactSizeIterator<Item = usize>) -> String {
    let n = numbers.len() as f64;
    format!("{:.0}", numbers.sum::<usize>() as f64 / n)
}

/// What several answers are, in words.
pub fn yes_or_no(answers: impl Iterator<Item = bool>) -> String {
    let (yes, no): (Vec<bool>, Vec<bool>) = answers.partition(|&answer| answer);
    match (yes.len(), no.len()) {
        (_, 0) => "yes".to_string(),
        (0, _) => "no".to_string(),
        (yes, no) => format!("{yes} yes, {no} no"),
    }
}

/// Prints the first line of a table and what parts it from the rows.
pub fn print_head(cells: Vec<String>) {
    let rule = "---|".repeat(cells.len());
    print_cells(cells);
    println!("|{rule}");
}

/// Prints one line of a table.
pub fn print_cells(cells: impl IntoIterator<Item = String>) {
    let cells: Vec<String> = cells.into_iter().collect();
    println!("| {} |", cells.join(" | "));
}
