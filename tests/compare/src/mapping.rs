//! Mapping: `plover_map` against the second mapper, in groups of cases.

pub mod buffer;
pub mod comparison;
pub mod known;
mod labels;
pub mod sheet;

use crate::library::LINKED;
use crate::reading::damage::{damaged, telling_bytes};
use crate::reading::edges;
use crate::{careless, drawn, Size};
use buffer::LONGEST;
use comparison::Comparison;
use plain::shapes::{CARELESS, LADDERS, USUAL};
use second::random::shapes::{self, NUMBERINGS, SHAPES};
use second::random::Random;
use second::sheet::{read, BUFFER_LIMIT};
use second::table::{Table, FANIN_LIMIT, NODE_LIMIT};
use second::{LOOP, ROOM};

pub fn compare(size: Size, seed: u64) -> Result<(), String> {
    let mut comparison = Comparison::new(LINKED, seed);
    by_hand(&mut comparison)?;
    edges_of_reading(&mut comparison)?;
    careless_shapes(&mut comparison)?;
    measured_shapes(&mut comparison)?;
    largest(&mut comparison, size.of(1, 6))?;
    drawings(&mut comparison, size.of(1_200, 30_000))?;
    damaged_tables(&mut comparison, size.of(6_000, 150_000))?;
    cut_tables(&mut comparison, size.of(2, 60))?;
    let sheets = comparison.tally.due(0);
    println!("mapping: {sheets} sheets of each mapper accepted by each inspector");
    comparison.labels.report()?;
    comparison.tally.report("mapping", &[0, 1, 2, 3, 4, 5, 6, 7, 8])
}

/// Each of the drawings by hand, with buffers that are long enough and too short.
pub fn by_hand(comparison: &mut Comparison) -> Result<(), String> {
    comparison.tally.begin("by hand");
    for known in known::all() {
        let named = |difference| format!("'{}': {difference}", known.name);
        for length in [0, 1, 6, BUFFER_LIMIT - 1, BUFFER_LIMIT, BUFFER_LIMIT + 1, LONGEST] {
            let outcome = comparison.check(&known.table, length).map_err(named)?;
            if !known.is_due(&outcome, length) {
                return Err(named(format!("not what is due by hand: {outcome:?}")));
            }
        }
    }
    Ok(())
}

/// The edges of the reading rules: what is refused there is refused here, whatever the buffer.
fn edges_of_reading(comparison: &mut Comparison) -> Result<(), String> {
    comparison.tally.begin("edges of reading");
    for edge in edges::all() {
        let named = |difference| format!("'{}': {difference}", edge.name);
        for length in [0, BUFFER_LIMIT - 1, BUFFER_LIMIT] {
            let outcome = comparison.check(&edge.bytes, length).map_err(named)?;
            let is_due = match edge.due {
                Err(refused) => outcome == Err(refused),
                // A whole table has a loop, or else too short a buffer is its one fault.
                Ok(_) => match outcome {
                    Ok(_) => length >= BUFFER_LIMIT,
                    Err((number, _)) => [LOOP, ROOM].contains(&number),
                },
            };
            if !is_due {
                return Err(named(format!("not what is due by hand: {outcome:?}")));
            }
        }
    }
    Ok(())
}

/// Shapes that blow up a careless program: what is due is known by hand, and that it comes at all
/// is what is tested.
fn careless_shapes(comparison: &mut Comparison) -> Result<(), String> {
    comparison.tally.begin("that blow up a careless program");
    for shape in careless::all() {
        let named = |difference| format!("'{}': {difference}", shape.name);
        let outcome = comparison.check(&shape.table.bytes(), BUFFER_LIMIT).map_err(named)?;
        let sheet = outcome.and_then(|bytes| read(&shape.table, &bytes));
        match sheet {
            Ok(sheet) if shape.is_due(&sheet) => {}
            _ => return Err(named(format!("not what is due by hand: {sheet:?}"))),
        }
    }
    Ok(())
}

/// The shapes that are measured, of full size, numbered both ways.
fn measured_shapes(comparison: &mut Comparison) -> Result<(), String> {
    comparison.tally.begin("measured shapes");
    for shape in USUAL.into_iter().chain(LADDERS).chain(CARELESS) {
        for k in (2..=FANIN_LIMIT).filter(|&k| shape.takes(k)) {
            let forwards = shape.drawing(NODE_LIMIT, k);
            for drawing in [forwards.backwards(), forwards] {
                comparison.check_bytes(&plain::table::write(&drawing), usize::MAX)?;
            }
        }
    }
    Ok(())
}

/// Drawings of as many nodes as may be, of every shape, so many times over.
fn largest(comparison: &mut Comparison, times: usize) -> Result<(), String> {
    comparison.tally.begin("of full size");
    for turn in 0..times {
        for (at, shape) in SHAPES.into_iter().enumerate() {
            let k = 2 + (at + turn) % 5;
            let numbering = NUMBERINGS[(at + turn) % NUMBERINGS.len()];
            let random = &mut comparison.random;
            let table = shapes::drawing(shape, numbering, k, NODE_LIMIT, random);
            comparison.check_table(&table, usize::MAX)?;
        }
    }
    Ok(())
}

/// Drawings of any shape, most of them small. One in eight is given too short a buffer.
pub fn drawings(comparison: &mut Comparison, count: usize) -> Result<(), String> {
    comparison.tally.begin("drawings");
    for _ in 0..count {
        let most = if comparison.random.one_in(25) { NODE_LIMIT } else { 36 };
        let nodes = comparison.random.between(1, most);
        let table = shapes::any(nodes, &mut comparison.random);
        comparison.check_table(&table, 8)?;
    }
    Ok(())
}

/// Tables of all sizes, damaged; most of the undamaged ones have a loop or are small. One in four
/// is given too short a buffer.
pub fn damaged_tables(comparison: &mut Comparison, count: usize) -> Result<(), String> {
    comparison.tally.begin("damaged tables");
    for turn in 0..count {
        let bytes = damaged_table(turn, &mut comparison.random);
        comparison.check_bytes(&bytes, 4)?;
    }
    Ok(())
}

/// A head with bytes of no form behind it, or a table with a few fields and bytes damaged.
pub fn damaged_table(turn: usize, random: &mut Random) -> Vec<u8> {
    let table = match turn % 8 {
        0..=3 => drawn::table(random),
        _ => shapes::any(random.between(1, 24), random),
    };
    if turn % 8 == 0 {
        let length = random.below(100);
        return [table.fields().remove(0), telling_bytes(random, length)].concat();
    }
    damaged(random, &table)
}

/// Tables cut at every byte.
fn cut_tables(comparison: &mut Comparison, count: usize) -> Result<(), String> {
    comparison.tally.begin("cut tables");
    let random_tables: Vec<Table> =
        (0..count).map(|_| shapes::any(12, &mut comparison.random)).collect();
    for table in random_tables.into_iter().chain([second::drawings::named("P1")]) {
        let bytes = table.bytes();
        for length in 0..bytes.len() {
            comparison.check_bytes(&bytes[..length], 4)?;
        }
    }
    Ok(())
}
