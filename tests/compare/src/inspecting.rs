//! Inspecting: `plover_inspect` against the second inspector, in groups of cases.

mod bytes;
pub mod comparison;
pub mod edges;
pub mod leaves;
mod lies;
pub mod long;

use crate::library::LINKED;
use crate::mapped::Mapped;
use crate::mapping::damaged_table;
use crate::reading::damage as table_damage;
use crate::reply::{described, Reply};
use crate::{careless, Size};
use comparison::Comparison;
use lies::LIES;
use second::cuts::lean_cuts;
use second::drawings;
use second::inspect::inspect;
use second::random::damage::{damaged, Due, DAMAGES};
use second::random::others::other_sheet;
use second::random::shapes::{self, Numbering, Shape};
use second::sheet::{read, Sheet};
use second::table::{FANIN_LIMIT, NODE_LIMIT};

/// The most cuts of a gate for which other cuts than the mapper's are drawn.
const CUT_LIMIT: usize = 200;
/// The most ids that a path's length byte can tell.
const PATH_LIMIT: usize = 255;

pub fn compare(size: Size, seed: u64) -> Result<(), String> {
    let mut comparison = Comparison::new(LINKED, seed);
    by_hand(&mut comparison)?;
    bytes::cut_and_added(&mut comparison, size.of(20, 600))?;
    bytes::changed(&mut comparison, size.of(2, 60))?;
    other_sheets(&mut comparison, size.of(1_000, 20_000))?;
    damaged_sheets(&mut comparison, size.of(700, 20_000))?;
    told_lies(&mut comparison, size.of(1_500, 40_000))?;
    leaves::lists(&mut comparison, size.of(1_500, 25_000))?;
    damaged_tables(&mut comparison, size.of(3_000, 60_000))?;
    no_sheets(&mut comparison, size.of(1_000, 20_000))?;
    largest(&mut comparison, size.of(1, 20))?;
    long::compare(&mut comparison)?;
    let numbers: Vec<usize> = (0..=7).chain(21..=31).collect();
    comparison.tally.report("inspecting", &numbers)
}

/// Rulings that are written down.
pub fn by_hand(comparison: &mut Comparison) -> Result<(), String> {
    comparison.tally.begin("by hand");
    for edge in edges::all() {
        let named = |difference| format!("'{}': {difference}", edge.name);
        let table = edge.table.bytes();
        let second = inspect(&table, &edge.sheet);
        if second != edge.reply {
            let (due, second) = (described(edge.reply), described(second));
            return Err(named(format!("by hand {due}, second inspector {second}")));
        }
        comparison.check_due(&table, &edge.sheet, edge.reply).map_err(named)?;
    }
    for shape in careless::all() {
        let mapped = Mapped::of_table(shape.table).ok_or("a loop")?;
        accept(comparison, &mapped, &mapped.sheet)?;
    }
    Ok(())
}

/// A drawing of any shape without a loop, most of them small.
fn some_drawing(comparison: &mut Comparison) -> Mapped {
    loop {
        let most = if comparison.random.one_in(60) { NODE_LIMIT } else { 30 };
        let nodes = comparison.random.between(1, most);
        let table = shapes::any(nodes, &mut comparison.random);
        if let Some(mapped) = Mapped::of_table(table) {
            return mapped;
        }
    }
}

/// A sheet that has to be accepted.
fn accept(comparison: &mut Comparison, mapped: &Mapped, sheet: &Sheet) -> Result<(), String> {
    match comparison.ruling(mapped, &sheet.bytes())? {
        Ok(_) => Ok(()),
        reply => Err(format!("a true sheet, {}: {sheet:?}", described(reply))),
    }
}

/// True sheets, the mapper's and ones that it would not make.
pub fn other_sheets(comparison: &mut Comparison, count: usize) -> Result<(), String> {
    comparison.tally.begin("true sheets");
    for _ in 0..count {
        let mapped = some_drawing(comparison);
        accept(comparison, &mapped, &mapped.sheet)?;
        if let Some(lists) = lean_cuts(&mapped.graph, CUT_LIMIT) {
            for _ in 0..2 {
                let labels = &mapped.labelled.labels;
                let other = other_sheet(&mapped.graph, &lists, labels, &mut comparison.random);
                accept(comparison, &mapped, &other)?;
            }
        }
    }
    Ok(())
}

/// Sheets with each kind of damage, and with damage upon damage.
pub fn damaged_sheets(comparison: &mut Comparison, count: usize) -> Result<(), String> {
    comparison.tally.begin("damaged sheets");
    for _ in 0..count {
        let mapped = some_drawing(comparison);
        damage_of_each_kind(comparison, &mapped)?;
        damage_upon_damage(comparison, &mapped)?;
    }
    Ok(())
}

fn damage_of_each_kind(comparison: &mut Comparison, mapped: &Mapped) -> Result<(), String> {
    for damage in DAMAGES {
        let random = &mut comparison.random;
        if let Some(damaged) = damaged(&mapped.graph, &mapped.sheet, damage, random) {
            let reply = comparison.ruling(mapped, &damaged.bytes)?;
            as_due(reply, damaged.due).map_err(|words| format!("{damage:?}: {words}"))?;
        }
    }
    Ok(())
}

fn as_due(reply: Reply, due: Due) -> Result<(), String> {
    let is_such = match due {
        Due::Refusal(refused) => reply == Err(refused),
        Due::SomeRefusal => reply.is_err(),
        Due::Open => true,
    };
    match is_such {
        true => Ok(()),
        false => Err(format!("{} by both, due {due:?}", described(reply))),
    }
}

fn damage_upon_damage(comparison: &mut Comparison, mapped: &Mapped) -> Result<(), String> {
    let mut sheet = mapped.sheet.clone();
    for _ in 0..10 {
        let damage = *comparison.random.pick(&DAMAGES);
        if let Some(damaged) = damaged(&mapped.graph, &sheet, damage, &mut comparison.random) {
            comparison.check(mapped, &damaged.bytes)?;
            sheet = read(&mapped.graph.table, &damaged.bytes).unwrap_or(sheet);
        }
    }
    Ok(())
}

/// Lies of each kind. A true sheet may come of one by chance, so the second inspector rules.
pub fn told_lies(comparison: &mut Comparison, count: usize) -> Result<(), String> {
    comparison.tally.begin("lies");
    let mut told = [0; LIES.len()];
    for _ in 0..count {
        let mapped = some_drawing(comparison);
        for (at, (name, lie)) in LIES.into_iter().enumerate() {
            if let Some(sheet) = lie(&mapped, &mut comparison.random) {
                let named = |difference| format!("{name}: {difference}");
                let reply = comparison.ruling(&mapped, &sheet.bytes()).map_err(named)?;
                told[at] += usize::from(reply.is_err());
            }
        }
    }
    match told.iter().position(|&refused| refused == 0) {
        Some(at) => Err(format!("{}: never refused", LIES[at].0)),
        None => Ok(()),
    }
}

/// Damaged tables, with no sheet or with the sheet of the undamaged drawing.
pub fn damaged_tables(comparison: &mut Comparison, count: usize) -> Result<(), String> {
    comparison.tally.begin("damaged tables");
    for turn in 0..count {
        let bytes = damaged_table(turn, &mut comparison.random);
        comparison.check_bytes(&bytes, &[])?;
        let mapped = some_drawing(comparison);
        let sheet = mapped.sheet.bytes();
        let damaged = table_damage::damaged(&mut comparison.random, &mapped.graph.table);
        comparison.check_bytes(&damaged, &sheet)?;
    }
    Ok(())
}

/// Bytes of no form, the sheet of another drawing, far too many bytes.
fn no_sheets(comparison: &mut Comparison, count: usize) -> Result<(), String> {
    comparison.tally.begin("of no drawing");
    let mut before = drawings::named("P1");
    for turn in 0..count {
        let mapped = some_drawing(comparison);
        let random = &mut comparison.random;
        let length = random.below(120);
        let mut bytes = match turn % 3 {
            0 => table_damage::any_bytes(random, length),
            1 => {
                let more = table_damage::telling_bytes(random, length);
                [mapped.sheet.fields().remove(0), more].concat()
            }
            _ => mapped.sheet.bytes(),
        };
        if turn % 50 == 0 {
            bytes.extend(table_damage::any_bytes(random, 70_000));
        }
        comparison.check(&mapped, &bytes)?;
        comparison.check_bytes(&before.bytes(), &mapped.sheet.bytes())?;
        before = mapped.graph.table.clone();
    }
    Ok(())
}

/// Drawings of full size: their sheets, damaged in every way.
fn largest(comparison: &mut Comparison, times: usize) -> Result<(), String> {
    comparison.tally.begin("of full size");
    let shapes = [Shape::Deep, Shape::Lanes, Shape::Crossing, Shape::Wide, Shape::Reconvergent];
    for turn in 0..times * shapes.len() {
        let shape = shapes[turn % shapes.len()];
        let k = comparison.random.between(2, FANIN_LIMIT);
        let random = &mut comparison.random;
        let table = shapes::drawing(shape, Numbering::Shuffled, k, NODE_LIMIT, random);
        let mapped = Mapped::of_table(table).ok_or("a loop")?;
        accept(comparison, &mapped, &mapped.sheet)?;
        damage_of_each_kind(comparison, &mapped)?;
    }
    Ok(())
}
