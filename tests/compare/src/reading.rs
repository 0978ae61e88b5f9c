//! Reading a gate table and looking for loops: both functions of the library against the second
//! reader, in groups of cases. No table is mapped here, so that there can be many.

pub mod damage;
pub mod edges;
mod loops;

use crate::library::LINKED;
use crate::mapping::comparison::Comparison;
use crate::{drawn, Size};
use damage::{any_bytes, telling_bytes};
use edges::Read;
use second::drawings;
use second::graph::lowest_loop;
use second::random::shapes;
use second::table::{head_field, read, NODE_LIMIT, OUTPUT_LIMIT};

pub fn compare(size: Size, seed: u64) -> Result<(), String> {
    let mut comparison = Comparison::new(LINKED, seed);
    by_hand(&mut comparison)?;
    heads(&mut comparison, size)?;
    cut_at_every_byte(&mut comparison, size.of(4, 60))?;
    changes_of_p1(&mut comparison)?;
    damaged(&mut comparison, size.of(1_200, 100_000))?;
    random_bytes(&mut comparison, size.of(2_000, 100_000))?;
    good_beginnings(&mut comparison, size.of(2_000, 100_000))?;
    far_too_long(&mut comparison, size.of(30, 1_500))?;
    drawings(&mut comparison, size.of(4_000, 40_000))?;
    println!("reading: {} tables taken by both functions", comparison.tally.due(8));
    comparison.tally.report("reading", &[1, 2, 3, 4, 5, 6, 7, 8])
}

/// Readings and loops that are written down.
pub fn by_hand(comparison: &mut Comparison) -> Result<(), String> {
    comparison.tally.begin("by hand");
    for edge in edges::all() {
        let named = |difference| format!("'{}': {difference}", edge.name);
        let second = read_as(&edge.bytes);
        if second != edge.due {
            return Err(named(format!("by hand {:?}, second reader {second:?}", edge.due)));
        }
        comparison.check_reading(&edge.bytes).map_err(named)?;
    }
    for (table, gate) in loops::known() {
        let (bytes, second) = (table.bytes(), lowest_loop(&table));
        if second != gate {
            return Err(format!("{table:?}\nby hand a loop at {gate:?}, second reader {second:?}"));
        }
        comparison.check_reading(&bytes)?;
    }
    Ok(())
}

/// What the second reader finds.
fn read_as(bytes: &[u8]) -> Read {
    let reading = read(bytes).table();
    let table = reading.map_err(|refusal| (refusal.fault.number(), refusal.place))?;
    Ok([table.k, table.inputs, table.gates.len(), table.outputs.len()])
}

/// Heads with nothing behind them: every I and G at every K, or at quick size those near limits.
fn heads(comparison: &mut Comparison, size: Size) -> Result<(), String> {
    comparison.tally.begin("heads");
    let numbers: Vec<u8> = match size {
        Size::Quick => vec![0, 1, 2, 63, 64, 65, 127, 128, 129, 190, 191, 192, 255],
        Size::Long => (0..=255).collect(),
    };
    for k in 0..=8 {
        for &inputs in &numbers {
            for &gates in &numbers {
                comparison.check_reading(&head_field(k, inputs, gates))?;
            }
        }
    }
    Ok(())
}

/// The paper's drawings and random tables, cut at every byte, every other one of the random
/// tables with two outputs too many.
fn cut_at_every_byte(comparison: &mut Comparison, count: usize) -> Result<(), String> {
    comparison.tally.begin("cut at a byte");
    let mut tables: Vec<_> = drawings::paper().into_iter().map(|drawing| drawing.table).collect();
    for index in 0..count {
        let mut table = drawn::table(&mut comparison.random);
        if index % 2 == 0 {
            table.outputs.resize(OUTPUT_LIMIT + 2, 0);
        }
        tables.push(table);
    }
    for table in tables {
        let bytes = table.bytes();
        for length in 0..=bytes.len() {
            comparison.check_reading(&bytes[..length])?;
        }
    }
    Ok(())
}

/// P1's table with each byte in turn changed to each of the 255 other values.
fn changes_of_p1(comparison: &mut Comparison) -> Result<(), String> {
    comparison.tally.begin("P1 with a byte changed");
    let bytes = drawings::named("P1").bytes();
    for position in 0..bytes.len() {
        for change in 1..=255 {
            let mut changed = bytes.clone();
            changed[position] ^= change;
            comparison.check_reading(&changed)?;
        }
    }
    Ok(())
}

/// Random tables of all sizes, each damaged several times over.
pub fn damaged(comparison: &mut Comparison, count: usize) -> Result<(), String> {
    comparison.tally.begin("damaged tables");
    for _ in 0..count {
        let table = drawn::table(&mut comparison.random);
        for _ in 0..8 {
            let bytes = damage::damaged(&mut comparison.random, &table);
            comparison.check_reading(&bytes)?;
        }
    }
    Ok(())
}

/// Bytes of no form, evenly drawn or drawn from those that mean something in a table.
fn random_bytes(comparison: &mut Comparison, count: usize) -> Result<(), String> {
    comparison.tally.begin("of no form");
    for index in 0..count {
        let random = &mut comparison.random;
        let length = random.below(300);
        let bytes = match index % 2 {
            0 => any_bytes(random, length),
            _ => telling_bytes(random, length),
        };
        comparison.check_reading(&bytes)?;
    }
    Ok(())
}

/// A good head, with up to three good fields behind it, and then bytes of no form.
fn good_beginnings(comparison: &mut Comparison, count: usize) -> Result<(), String> {
    comparison.tally.begin("good beginnings");
    for _ in 0..count {
        let random = &mut comparison.random;
        let mut fields = drawn::table(random).fields();
        fields.truncate(random.between(1, 4));
        let length = random.below(100);
        fields.push(telling_bytes(random, length));
        comparison.check_reading(&fields.concat())?;
    }
    Ok(())
}

/// Some 70,000 bytes: a table with bytes of no form or with more outputs behind it, or no table.
fn far_too_long(comparison: &mut Comparison, count: usize) -> Result<(), String> {
    comparison.tally.begin("far too long");
    for index in 0..count {
        let random = &mut comparison.random;
        let mut bytes = drawn::table(random).bytes();
        let length = random.between(69_000, 71_000);
        match index % 3 {
            0 => bytes.extend(any_bytes(random, length)),
            1 => bytes.extend([3, 0, 1, 0].repeat(length / 4)),
            _ => bytes = any_bytes(random, length),
        }
        comparison.check_reading(&bytes)?;
    }
    Ok(())
}

/// Whole tables of any size, of which the drawings of some shapes have loops.
pub fn drawings(comparison: &mut Comparison, count: usize) -> Result<(), String> {
    comparison.tally.begin("whole tables");
    for turn in 0..count {
        let random = &mut comparison.random;
        let table = match turn % 3 {
            0 => drawn::table(random),
            _ => shapes::any(random.between(1, NODE_LIMIT), random),
        };
        comparison.check_reading(&table.bytes())?;
    }
    Ok(())
}
