//! The mapper's program.

use crate::listing;
use crate::machine::{same, Folder};
use second::listing::TABLE_BYTES;
use second::random::Random;
use second::sheet::{map, BUFFER_LIMIT};

/// The tables that the lister is tried on; how many.
pub fn by_hand(folder: &Folder) -> usize {
    let cases = listing::known();
    for (table, _) in &cases {
        run(folder, table);
    }
    cases.len()
}

/// Drawings at random; how many.
pub fn drawn(folder: &Folder, rounds: usize, random: &mut Random) -> usize {
    for round in 0..rounds {
        run(folder, &listing::table(round, random));
    }
    rounds
}

fn run(folder: &Folder, table: &[u8]) {
    let written = folder.streams("mapper", table);
    same("the sheet or the refusal", &[table], &written, &due(table));
}

/// The library's sheet on standard output; or on standard error the refusal, in the words of the
/// second implementation. (The two choose other paths as evidence, so the sheet is not its own.)
fn due(standard_input: &[u8]) -> (Vec<u8>, Vec<u8>) {
    let table = &standard_input[..standard_input.len().min(TABLE_BYTES)];
    match map(table, BUFFER_LIMIT) {
        Ok(_) => (sheet(table), Vec::new()),
        Err((number, place)) => (Vec::new(), format!("refused {number} at {place}\n").into_bytes()),
    }
}

fn sheet(table: &[u8]) -> Vec<u8> {
    let mut sheet = vec![0; plover::ROOM];
    let length = plover::map(table, &mut sheet).length().expect("the table is taken");
    sheet.truncate(length);
    sheet
}
