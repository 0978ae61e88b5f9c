//! What is measured: `map` and `inspect`, of the static library and of the ordinary program, and
//! `equations` of the library, which the other has not.

use plain::mapping::SHEET_ROOM;
use plover::TABLE_ROOM;

/// The K that texts are given.
pub const K: u64 = 4;

#[derive(Clone, Copy, Debug, PartialEq, Eq)]
pub enum Maker {
    Proved,
    Plain,
}

#[derive(Clone, Copy, Debug, PartialEq, Eq)]
pub enum Task {
    Map,
    Inspect,
    Equations,
}

/// A function, by who made it and what it does.
#[derive(Clone, Copy, Debug, PartialEq, Eq)]
pub struct Subject {
    pub maker: Maker,
    pub task: Task,
}

/// The one that reads texts.
pub const EQUATIONS: Subject = Subject { maker: Maker::Proved, task: Task::Equations };

pub const SUBJECTS: [(&str, Subject); 5] = [
    ("plover-map", Subject { maker: Maker::Proved, task: Task::Map }),
    ("plover-inspect", Subject { maker: Maker::Proved, task: Task::Inspect }),
    ("plain-map", Subject { maker: Maker::Plain, task: Task::Map }),
    ("plain-inspect", Subject { maker: Maker::Plain, task: Task::Inspect }),
    ("plover-equations", EQUATIONS),
];

impl Subject {
    pub fn name(self) -> &'static str {
        let known = SUBJECTS.iter().find(|(_, subject)| *subject == self);
        known.expect("all are listed").0
    }

    pub fn named(name: &str) -> Option<Subject> {
        SUBJECTS.iter().find(|(known, _)| *known == name).map(|&(_, subject)| subject)
    }
}

/// The library's sheet of a table, which both inspectors are given.
pub fn sheet_of(table: &[u8]) -> Result<Vec<u8>, plover::Refusal> {
    let mut sheet = vec![0; SHEET_ROOM];
    let length = plover::map(table, &mut sheet).length()?;
    sheet.truncate(length);
    Ok(sheet)
}

/// A table or a text, and the bytes that a subject is called with: room for a sheet or a table, or
/// the sheet.
#[derive(Clone)]
pub struct Job {
    subject: Subject,
    given: Vec<u8>,
    other: Vec<u8>,
}

impl Job {
    pub fn new(subject: Subject, given: &[u8]) -> Job {
        let other = match subject.task {
            Task::Map => vec![0; SHEET_ROOM],
            Task::Inspect => sheet_of(given).expect("the library maps what is measured"),
            Task::Equations => vec![0; TABLE_ROOM],
        };
        Job { subject, given: given.to_vec(), other }
    }

    /// Calls the subject once. A refusal of a table or a sheet would make what is measured
    /// worthless, so it panics. A text that is refused may cost most of all.
    pub fn call(&mut self) -> usize {
        let answer = measured_call(self.subject, &self.given, &mut self.other);
        answer.expect("what is measured is taken")
    }
}

/// Whether the ordinary program takes the library's steps: it writes the same sheet to the last
/// byte, evidence too, which only the order of the search decides; and it finds the same depth.
pub fn are_alike(table: &[u8]) -> bool {
    let [mut ours, mut theirs] = [vec![0; SHEET_ROOM], vec![0; SHEET_ROOM]];
    match (plover::map(table, &mut ours).length(), plain::map(table, &mut theirs)) {
        (Ok(length), Ok(plain_length)) if length == plain_length && ours == theirs => {
            let depth = depth_of(table, &ours[..length]);
            depth.is_some() && depth == plain::inspect(table, &ours[..length]).ok()
        }
        _ => false,
    }
}

/// The depth that the library's inspector accepts a sheet with.
fn depth_of(table: &[u8], sheet: &[u8]) -> Option<usize> {
    plover::inspect(table, sheet).depth().map(|depth| depth as usize).ok()
}

/// Callgrind counts between this function's entry and its return, and knows it by its name.
#[no_mangle]
#[inline(never)]
pub fn measured_call(subject: Subject, given: &[u8], other: &mut [u8]) -> Option<usize> {
    match (subject.maker, subject.task) {
        (Maker::Proved, Task::Map) => plover::map(given, other).length().ok(),
        (Maker::Proved, Task::Inspect) => depth_of(given, other),
        (Maker::Proved, Task::Equations) => {
            let reply = plover::equations(given, K, other).length();
            Some(reply.unwrap_or_else(|refusal| refusal.place as usize))
        }
        (Maker::Plain, Task::Map) => plain::map(given, other).ok(),
        (Maker::Plain, Task::Inspect) => plain::inspect(given, other).ok(),
        (Maker::Plain, Task::Equations) => None,
    }
}
