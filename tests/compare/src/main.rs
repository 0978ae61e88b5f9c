//! Compares the library with the second implementation, subject by subject.
//!
//! Usage: `compare quick|long [SEED [SUBJECT]]`. It ends with status 1 at the first difference.

mod careless;
mod drawn;
mod equations;
mod inspecting;
mod library;
mod mapped;
mod mapping;
#[cfg(test)]
mod mutants;
mod reading;
mod reply;
mod tally;

use std::env;
use std::process::ExitCode;

/// How much a run covers: a few seconds' worth, or a million tables and more.
#[derive(Clone, Copy)]
pub enum Size {
    Quick,
    Long,
}

impl Size {
    /// How often a subject does something, at each size.
    fn of(self, quick: usize, long: usize) -> usize {
        match self {
            Size::Quick => quick,
            Size::Long => long,
        }
    }
}

/// Compares one subject, from a seed, and says what differs.
type Subject = fn(Size, u64) -> Result<(), String>;

const SUBJECTS: [(&str, Subject); 4] = [
    ("reading", reading::compare),
    ("mapping", mapping::compare),
    ("inspecting", inspecting::compare),
    ("equations", equations::compare),
];

const USUAL_SEED: u64 = 20_231_117;

/// What the command line asks for.
struct Run {
    size: Size,
    seed: u64,
    /// The one subject, or all.
    subject: Option<String>,
}

fn main() -> ExitCode {
    let words: Vec<String> = env::args().skip(1).collect();
    let run = match run(&words) {
        Some(run) => run,
        None => {
            eprintln!("usage: compare quick|long [SEED [SUBJECT]]");
            return ExitCode::from(2);
        }
    };
    let seed = run.seed;
    println!("compare: seed {seed}");
    for (name, compare) in SUBJECTS {
        if run.subject.as_deref().map_or(false, |subject| subject != name) {
            continue;
        }
        if let Err(difference) = compare(run.size, seed) {
            eprintln!("compare: {name}: DIFFERENCE, seed {seed}\n{difference}");
            return ExitCode::FAILURE;
        }
    }
    ExitCode::SUCCESS
}

fn run(words: &[String]) -> Option<Run> {
    let size = match words.first()?.as_str() {
        "quick" => Size::Quick,
        "long" => Size::Long,
        _ => return None,
    };
    let seed = words.get(1).map_or(Some(USUAL_SEED), |word| word.parse().ok())?;
    let subject = words.get(2).cloned();
    let is_subject = |name: &String| SUBJECTS.iter().any(|(subject, _)| subject == name);
    let is_good = words.len() <= 3 && subject.as_ref().map_or(true, is_subject);
    is_good.then_some(Run { size, seed, subject })
}

fn hexadecimal(bytes: &[u8]) -> String {
    bytes.iter().map(|byte| format!("{byte:02x}")).collect()
}
