//! The measure, as a table: what the library costs beside the ordinary program, drawing by drawing.

use crate::blif;
use crate::drawings::{careless, ladders, usual, Named};
use crate::meter::{nanoseconds, Meter};
use crate::scratch::Scratch;
use crate::stack::stack_of;
use crate::subject::{are_alike, sheet_of, Maker, Subject, Task, EQUATIONS, K};
use crate::texts;
use crate::tools::Tool;
use plain::mapping::SHEET_ROOM;
use plover::TABLE_ROOM;
use second::table::read;

/// One drawing's costs, of the library and of the ordinary program.
struct Row {
    map: [u64; 2],
    inspect: [u64; 2],
}

impl Row {
    fn measure(meter: Meter, drawing: &Named) -> Result<Row, String> {
        if !are_alike(&drawing.bytes) {
            return Err(format!("{}: the ordinary program's sheet is another", drawing.name));
        }
        let cost = |maker, task| meter.cost(Subject { maker, task }, drawing);
        let both = |task| -> Result<[u64; 2], String> {
            Ok([cost(Maker::Proved, task)?, cost(Maker::Plain, task)?])
        };
        Ok(Row { map: both(Task::Map)?, inspect: both(Task::Inspect)? })
    }
}

/// Prints the tables, the ten usual drawings first.
pub fn print() -> Result<(), String> {
    let ten = usual();
    let meter = Meter::find(&ten[0]);
    println!("Counted in {}.", meter.unit());
    for (title, drawings) in
        [("ten drawings", ten), ("ladders and careless shapes", [ladders(), careless()].concat())]
    {
        println!("\n### The cost of {title} of 192 nodes, in thousands of {}\n", meter.unit());
        print_costs(meter, &drawings)?;
        println!("\n### Stack and time of {title} of 192 nodes\n");
        print_others(&drawings)?;
    }
    println!("\n### Equations: the texts of 8,192 bytes that cost most\n");
    print_texts(meter)
}

/// What the library's reader of equations costs.
fn print_texts(meter: Meter) -> Result<(), String> {
    println!("| text | thousands of {} | ms | stack, bytes | reply |", meter.unit());
    println!("|{}", "---|".repeat(5));
    for text in texts::all() {
        let cost = meter.cost(EQUATIONS, &text)?;
        let time = nanoseconds(&[EQUATIONS], &text)?[0] as f64 / 1e6;
        let buffer = std::sync::Mutex::new([0; TABLE_ROOM]);
        let stack = stack_of(|| {
            let mut buffer = buffer.lock().expect("no call panics");
            plover::equations(&text.bytes, K, &mut buffer[..]);
        });
        let reply = match plover::equations(&text.bytes, K, &mut [0; TABLE_ROOM]).length() {
            Ok(length) => format!("{length} bytes"),
            Err(refusal) => refusal.to_string(),
        };
        println!("| {} | {} | {time:.2} | {stack} | {reply} |", text.name, thousands(cost));
    }
    Ok(())
}

fn print_costs(meter: Meter, drawings: &[Named]) -> Result<(), String> {
    println!(
        "| drawing | map: library | ordinary | ratio | inspect: library | ordinary | ratio | \
         library's inspect / map |"
    );
    println!("|{}", "---|".repeat(8));
    let mut ratios = [Vec::new(), Vec::new(), Vec::new()];
    for drawing in drawings {
        let row = Row::measure(meter, drawing)?;
        let found = [
            row.map[0] as f64 / row.map[1] as f64,
            row.inspect[0] as f64 / row.inspect[1] as f64,
            row.inspect[0] as f64 / row.map[0] as f64,
        ];
        let (map, inspect) = (row.map.map(thousands), row.inspect.map(thousands));
        println!(
            "| {} | {} | {} | {:.2} | {} | {} | {:.2} | {:.2} |",
            drawing.name, map[0], map[1], found[0], inspect[0], inspect[1], found[1], found[2]
        );
        ratios.iter_mut().zip(found).for_each(|(list, ratio)| list.push(ratio));
    }
    let text = ratios.map(|list| summary(&list));
    println!("| mean, greatest | | | {} | | | {} | {} |", text[0], text[1], text[2]);
    Ok(())
}

/// The geometric mean and the greatest.
fn summary(ratios: &[f64]) -> String {
    let logs: f64 = ratios.iter().map(|ratio| ratio.ln()).sum();
    let greatest = ratios.iter().copied().fold(0.0, f64::max);
    format!("{:.2}, {greatest:.2}", (logs / ratios.len() as f64).exp())
}

fn print_others(drawings: &[Named]) -> Result<(), String> {
    println!(
        "| drawing | stack of map, bytes | of inspect | map: library, ms | ordinary | ratio | \
         inspect: library, ms | ordinary | ratio | Yosys' flowmap, ms | ABC's if, ms |"
    );
    println!("|{}", "---|".repeat(11));
    let scratch = Scratch::new()?;
    let installed = [Tool::Yosys, Tool::Abc].map(|tool| tool.version().map(|_| tool));
    for drawing in drawings {
        let [map, inspect] = stacks(drawing)?;
        let mut cells = vec![drawing.name.clone(), map.to_string(), inspect.to_string()];
        for task in [Task::Map, Task::Inspect] {
            let makers = [Maker::Proved, Maker::Plain];
            let times = nanoseconds(&makers.map(|maker| Subject { maker, task }), drawing)?;
            let times: Vec<f64> = times.into_iter().map(|time| time as f64 / 1e6).collect();
            cells.extend(times.iter().map(|time| format!("{time:.2}")));
            cells.push(format!("{:.2}", times[0] / times[1]));
        }
        let table = read(&drawing.bytes).table().expect("what is measured is a table");
        scratch.write(&scratch.gates(), &blif::gates(&table))?;
        for tool in installed {
            cells.push(match tool {
                Some(tool) => milliseconds(tool.milliseconds(&scratch.gates(), table.k)?),
                None => String::from("not installed"),
            });
        }
        println!("| {} |", cells.join(" | "));
    }
    Ok(())
}

/// A tool's time. It is a difference of two runs, and below some milliseconds mostly noise.
fn milliseconds(time: f64) -> String {
    match time < 5.0 {
        true => String::from("< 5"),
        false => format!("{time:.0}"),
    }
}

/// The stack that the library's two functions take.
fn stacks(drawing: &Named) -> Result<[usize; 2], String> {
    let sheet = sheet_of(&drawing.bytes).map_err(|refusal| refusal.to_string())?;
    let buffer = std::sync::Mutex::new(vec![0; SHEET_ROOM]);
    let map = stack_of(|| {
        let mut buffer = buffer.lock().expect("no call panics");
        plover::map(&drawing.bytes, &mut buffer);
    });
    let inspect = stack_of(|| {
        plover::inspect(&drawing.bytes, &sheet);
    });
    Ok([map, inspect])
}

/// In thousands, with a comma at each thousand of these.
fn thousands(number: u64) -> String {
    let rounded = (number + 500) / 1_000;
    match rounded / 1_000 {
        0 => rounded.to_string(),
        more => format!("{more},{:03}", rounded % 1_000),
    }
}

#[cfg(test)]
mod tests {
    use super::*;

    #[test]
    fn numbers_read_well() {
        assert_eq!(thousands(1_499), "1");
        assert_eq!(thousands(12_345_678), "12,346");
        assert_eq!(summary(&[1.0, 4.0]), "2.00, 4.00");
    }
}
