//! Measures the static library `plover` beside the ordinary program, bounds its work, and asks
//! tools from outside about its sheets.
//!
//! Usage: `measure table`, `measure bounds`, `measure outside [quick|long [SEED]]`. It ends with
//! status 1 if a bound or an agreement does not hold.

mod ands;
mod blif;
mod bounds;
mod drawings;
mod meter;
mod outside;
mod process;
mod scratch;
mod stack;
mod subject;
mod table;
mod texts;
mod tools;

use crate::subject::{Job, Subject, Task};
use std::env;
use std::process::ExitCode;

const QUICK: outside::Size = outside::Size { any: 40, ands: 20, full: false };
const LONG: outside::Size = outside::Size { any: 600, ands: 300, full: true };

const USUAL_SEED: u64 = 20_231_117;

fn main() -> ExitCode {
    let words: Vec<String> = env::args().skip(1).collect();
    let words: Vec<&str> = words.iter().map(String::as_str).collect();
    let result = match words[..] {
        ["table"] => table::print(),
        ["bounds"] => bounds::check(),
        ["outside"] => outside::check(LONG, USUAL_SEED),
        ["outside", size] => outside(size, None),
        ["outside", size, seed] => outside(size, Some(seed)),
        // One call for Callgrind to count in.
        ["call", subject, drawing] => call(subject, drawing),
        _ => Err(String::from("usage: measure table|bounds|outside [quick|long [SEED]]")),
    };
    match result {
        Ok(()) => ExitCode::SUCCESS,
        Err(why) => {
            eprintln!("measure: {why}");
            ExitCode::FAILURE
        }
    }
}

fn outside(size: &str, seed: Option<&str>) -> Result<(), String> {
    let size = match size {
        "quick" => QUICK,
        "long" => LONG,
        _ => return Err(format!("neither quick nor long: {size}")),
    };
    let seed = match seed {
        Some(seed) => seed.parse().map_err(|error| format!("{seed}: {error}"))?,
        None => USUAL_SEED,
    };
    outside::check(size, seed)
}

fn call(subject: &str, name: &str) -> Result<(), String> {
    let subject = Subject::named(subject).ok_or_else(|| format!("no subject {subject}"))?;
    let found = match subject.task {
        Task::Equations => texts::find(name),
        Task::Map | Task::Inspect => drawings::find(name),
    };
    let found = found.ok_or_else(|| format!("no drawing or text {name}"))?;
    Job::new(subject, &found.bytes).call();
    Ok(())
}
