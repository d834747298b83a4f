//! Compares the port with the original, or records the original's answers. README.md says how to run it.

use differential::record;
use differential::rng::Rng;
use differential::rooms::Rooms;
use differential::run::{run, shares, Amount};
use std::process::ExitCode;

const USAGE: &str = "usage: differential [--full | --calls N] [--seed N]
       differential record FILE [--seed N]";

/// About how many calls a quick run makes, and how many a full one makes for each share of a group.
const QUICK_CALLS: u64 = 80_770;
const FULL_CALLS_PER_SHARE: u64 = 500_000;

fn main() -> ExitCode {
    let words: Vec<String> = std::env::args().skip(1).collect();
    let Some(asked) = asked(&words) else {
        eprintln!("{USAGE}");
        return ExitCode::from(2);
    };
    let done = match &asked.record {
        Some(file) => write_list(file, asked.seed),
        None => run(asked.seed, asked.amount),
    };
    match done {
        Ok(true) => ExitCode::SUCCESS,
        Ok(false) => ExitCode::FAILURE,
        Err(message) => {
            eprintln!("{message}");
            ExitCode::from(2)
        }
    }
}

/// What the command line asks for.
struct Asked {
    record: Option<String>,
    seed: u64,
    amount: Amount,
}

fn asked(words: &[String]) -> Option<Asked> {
    let mut asked = Asked {
        record: None,
        seed: 1,
        amount: quick(QUICK_CALLS),
    };
    let mut words = words.iter();
    while let Some(word) = words.next() {
        match word.as_str() {
            "--full" => {
                asked.amount = Amount {
                    per_share: FULL_CALLS_PER_SHARE,
                    full: true,
                }
            }
            "--calls" => asked.amount = quick(words.next()?.parse().ok()?),
            "--seed" => asked.seed = words.next()?.parse().ok()?,
            "record" => asked.record = Some(words.next()?.clone()),
            _ => return None,
        }
    }
    Some(asked)
}

/// A quick run of about so many calls.
fn quick(calls: u64) -> Amount {
    Amount {
        per_share: calls / shares(),
        full: false,
    }
}

fn write_list(file: &str, seed: u64) -> Result<bool, String> {
    let list = record::list(&Rooms::read()?, &mut Rng::new(seed))?;
    println!(
        "seed {seed}, {} records, {} bytes",
        list.records.len(),
        list.bytes.len()
    );
    std::fs::write(file, list.bytes).map_err(|e| format!("{file}: {e}"))?;
    Ok(true)
}
