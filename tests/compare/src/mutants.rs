//! Wrong readers, mappers and inspectors, and readers of equations, in the library's place, each of which has to be noticed,
//! and by the comparison that is there for it. They are made from the second implementation, which
//! stands in for the library where it is right.

mod equations;
mod inspectors;
mod mappers;
mod readers;

use crate::library::Library;
use crate::reply::Reply;
use second::inspect::inspect;
use second::sheet::Sheet;
use second::{equations as texts, sheet, table, Refused};

/// The second implementation with the library's faces.
const STAND_IN: Library = Library { map: &map, inspect: &inspect, equations: &equations };

fn map(table: &[u8], buffer: &mut [u8]) -> Reply {
    stored(sheet::map(table, buffer.len()), buffer)
}

fn equations(text: &[u8], k: u64, buffer: &mut [u8]) -> Reply {
    stored(texts::compile(text, k, buffer.len()), buffer)
}

/// Stores bytes, if there are some, and says how many.
fn stored(bytes: Result<Vec<u8>, Refused>, buffer: &mut [u8]) -> Reply {
    let bytes = bytes?;
    buffer[..bytes.len()].copy_from_slice(&bytes);
    Ok(bytes.len())
}

/// The reply, but for refusals of this number.
fn changed(reply: Reply, number: u32, change: impl Fn(Refused) -> Reply) -> Reply {
    match reply {
        Err(refused) if refused.0 == number => change(refused),
        reply => reply,
    }
}

fn a_place_further((number, place): Refused) -> Reply {
    Err((number, place + 1))
}

/// Maps, and changes the sheet.
fn map_changed(table: &[u8], buffer: &mut [u8], change: impl Fn(&mut Sheet)) -> Reply {
    let made = sheet::map(table, buffer.len());
    let read = table::read(table).table();
    match (made, read) {
        (Ok(bytes), Ok(table)) => {
            let mut sheet = sheet::read(&table, &bytes).expect("it is the mapper's");
            change(&mut sheet);
            let bytes = sheet.bytes();
            buffer[..bytes.len()].copy_from_slice(&bytes);
            Ok(bytes.len())
        }
        _ => map(table, buffer),
    }
}

/// The difference that must be found begins with these words, in one of its lines.
fn assert_noticed(found: Result<(), String>, words: &str) {
    let difference = found.expect_err("a wrong answer went unnoticed");
    let is_such = difference.lines().any(|line| line.contains(words));
    assert!(is_such, "noticed otherwise than by '{words}': {difference}");
}
