//! The lister.

use crate::machine::{same, Folder};
use second::drawings::{named, paper};
use second::listing::listing;
use second::random::{shapes, Random};
use second::table::{field, gate_field, head_field, output_field};

const P1: &str = "\
K 3 inputs 4 gates 3 luts 3 depth 2
lut 4 depth 1 leaves 0 1 table 0000000000000008
lut 5 depth 1 leaves 2 3 table 0000000000000008
lut 6 depth 2 leaves 4 5 table 000000000000000E
output 6 depth 2
";

/// What the paper prints, its drawings, its limits, and tables longer than what is read; how many.
pub fn by_hand(folder: &Folder) -> usize {
    let cases = known();
    for (table, due) in &cases {
        same("the listing", &[table], &folder.run("lister", table), due);
    }
    cases.len()
}

/// Tables by hand, each with what the lister prints.
pub fn known() -> Vec<(Vec<u8>, String)> {
    let mut cases = vec![(named("P1").bytes(), P1.to_string())];
    cases.extend(paper().iter().map(|drawing| told(drawing.table.bytes())));
    cases.extend(refused(limits()));
    cases.extend(cut_short());
    cases
}

/// Drawings at random; how many.
pub fn drawn(folder: &Folder, rounds: usize, random: &mut Random) -> usize {
    for round in 0..rounds {
        let table = table(round, random);
        same("the listing", &[&table], &folder.run("lister", &table), &listing(&table));
    }
    rounds
}

/// A table at random, every eighth a large one, every third with a byte changed.
pub fn table(round: usize, random: &mut Random) -> Vec<u8> {
    let nodes = random.between(1, if round % 8 == 0 { 192 } else { 24 });
    let mut table = shapes::any(nodes, random).bytes();
    if round % 3 == 0 {
        let at = random.below(table.len());
        table[at] = table[at].wrapping_add(random.between(1, 255) as u8);
    }
    table
}

fn told(table: Vec<u8>) -> (Vec<u8>, String) {
    let due = listing(&table);
    (table, due)
}

/// Tables with the line that the paper has for them, where it refuses; else the listing.
fn refused(cases: Vec<(Vec<u8>, Option<&str>)>) -> Vec<(Vec<u8>, String)> {
    let line = |(table, line): (Vec<u8>, Option<&str>)| match line {
        Some(line) => (table, line.to_string()),
        None => told(table),
    };
    cases.into_iter().map(line).collect()
}

fn limits() -> Vec<(Vec<u8>, Option<&'static str>)> {
    vec![
        (Vec::new(), Some("refused 1 at 0\n")),
        (small(6), None),
        (small(7), Some("refused 4 at 0\n")),
        (chain(191), None),
        (chain(192), Some("refused 4 at 0\n")),
        (outputs(64), None),
        (outputs(65), Some("refused 6 at 263\n")),
        (named("P8").bytes(), Some("refused 7 at 1\n")),
        (named("P9").bytes(), Some("refused 7 at 2\n")),
    ]
}

fn small(k: u8) -> Vec<u8> {
    [head_field(k, 1, 0), output_field(0)].concat()
}

/// A chain of so many gates AND(x,x): what recurses without memory does not end on 191.
fn chain(gates: u8) -> Vec<u8> {
    let chained = (0..gates).flat_map(|before| gate_field(&[before, before], 0x8));
    let body: Vec<u8> = chained.collect();
    [head_field(2, 1, gates), body, output_field(gates)].concat()
}

fn outputs(count: usize) -> Vec<u8> {
    [head_field(2, 1, 0), output_field(0).repeat(count)].concat()
}

/// The 4,096th byte is read, and the next is not.
fn cut_short() -> Vec<(Vec<u8>, String)> {
    let start = 7;
    let long = |bytes: usize| [head_field(2, 1, 1), field(2, &vec![0; bytes - start - 3])].concat();
    vec![
        (long(4_096), "refused 3 at 7\n".to_string()),
        (long(4_097), "refused 1 at 7\n".to_string()),
    ]
}
