//! Bounds on work. What blows up a careless program (a chain of AND(x,x), gates that all read the
//! same two nodes, diamonds) must cost no more than a few times what an ordinary drawing of the
//! same size costs, both measured in this run; where instructions are counted, no more than so many
//! for a pair of nodes as well.
//!
//! The worst texts of equations have a bound in instructions, where these are counted. There the
//! program is no guest of an emulator either, and their times have one too; no other bound is in
//! seconds.

use crate::drawings::{careless, usual, Named};
use crate::meter::{nanoseconds, Meter};
use crate::subject::{Maker, Subject, Task, EQUATIONS, K};
use crate::texts;
use plain::table::NODE_LIMIT;
use second::equations::{compile, TABLE_ROOM};
use std::thread;
use std::time::Duration;

/// The ordinary drawing, by name.
const ORDINARY: &str = "Deep K 2";
/// A careless shape's cost in costs of the ordinary drawing. Today it is less than half of one.
const MOST_TIMES: u64 = 4;
/// Instructions for a pair of nodes: three times what the dearest takes today.
const MOST_A_PAIR: u64 = 320;

/// Instructions for a text, and nanoseconds. The dearest compares 2.8 million pairs of words, and
/// 5.6 million pairs of bytes in them.
const MOST_A_TEXT: u64 = 340_000_000;
const MOST_TIME_A_TEXT: u64 = 20_000_000;
/// A neighbour on the machine's processors can double a time, for seconds. So one above the bound is
/// taken again, a moment later, and the least counts.
const TRIES: usize = 20;
const MOMENT: Duration = Duration::from_millis(500);

/// Checks all of them, and says which cost too much.
pub fn check() -> Result<(), String> {
    let ordinary = usual().into_iter().find(|drawing| drawing.name == ORDINARY);
    let ordinary = ordinary.expect("it is one of the usual drawings");
    let meter = Meter::find(&ordinary);
    for task in [Task::Map, Task::Inspect] {
        let subject = Subject { maker: Maker::Proved, task };
        let usual_cost = meter.cost(subject, &ordinary)?;
        for drawing in careless() {
            let cost = meter.cost(subject, &drawing)?;
            check_one(meter, task, &drawing, cost, usual_cost)?;
        }
    }
    let (count, unit) = (careless().len(), meter.unit());
    println!("bounds: {count} careless drawings mapped and inspected within bounds, in {unit}");
    check_texts(meter)
}

/// Every one of the texts is answered as it should be, at a cost within bounds.
fn check_texts(meter: Meter) -> Result<(), String> {
    let mut most = [0, 0];
    for text in texts::all() {
        check_reply(&text)?;
        if meter == Meter::Instructions {
            let costs = [meter.cost(EQUATIONS, &text)?, least_time(&text)?];
            check_text(&text, costs)?;
            most = [most[0].max(costs[0]), most[1].max(costs[1])];
        }
    }
    let (count, milliseconds) = (texts::all().len(), most[1] as f64 / 1e6);
    print!("bounds: {count} texts of equations ");
    match meter {
        Meter::Instructions => {
            println!("within bounds, at most {} instructions, {milliseconds:.1} ms", most[0])
        }
        Meter::Nanoseconds => println!("answered, not measured"),
    }
    Ok(())
}

fn least_time(text: &Named) -> Result<u64, String> {
    least(MOMENT, || Ok(nanoseconds(&[EQUATIONS], text)?[0]))
}

/// The least of the times taken, up to the first that keeps the bound.
fn least(pause: Duration, mut take: impl FnMut() -> Result<u64, String>) -> Result<u64, String> {
    let mut least = take()?;
    for _ in 1..TRIES {
        if least <= MOST_TIME_A_TEXT {
            break;
        }
        thread::sleep(pause);
        least = least.min(take()?);
    }
    Ok(least)
}

/// A cost is worth nothing where the answer is wrong.
fn check_reply(text: &Named) -> Result<(), String> {
    let found = plover::equations(&text.bytes, K, &mut [0; TABLE_ROOM]).length();
    let found = found.map_err(|refusal| (refusal.number, refusal.place as usize));
    let due = compile(&text.bytes, K, TABLE_ROOM).map(|table| table.len());
    match found == due {
        true => Ok(()),
        false => Err(format!("equations, {}: {found:?}, due {due:?}", text.name)),
    }
}

fn check_text(text: &Named, [instructions, time]: [u64; 2]) -> Result<(), String> {
    let name = &text.name;
    if instructions > MOST_A_TEXT {
        return Err(format!("{name}: {instructions} instructions, allowed: {MOST_A_TEXT}"));
    }
    if time > MOST_TIME_A_TEXT {
        return Err(format!("{name}: {time} nanoseconds, allowed: {MOST_TIME_A_TEXT}"));
    }
    Ok(())
}

fn check_one(
    meter: Meter,
    task: Task,
    drawing: &Named,
    cost: u64,
    usual_cost: u64,
) -> Result<(), String> {
    let (name, unit) = (&drawing.name, meter.unit());
    if cost > MOST_TIMES * usual_cost {
        return Err(format!("{task:?} of {name}: {cost} {unit}, of {ORDINARY}: {usual_cost}"));
    }
    let most = MOST_A_PAIR * (NODE_LIMIT * NODE_LIMIT) as u64;
    if meter == Meter::Instructions && cost > most {
        return Err(format!("{task:?} of {name}: {cost} {unit}, allowed: {most}"));
    }
    Ok(())
}

#[cfg(test)]
mod tests {
    use super::*;

    #[test]
    fn bounds_of_texts_can_fail() {
        let text = &texts::all()[0];
        assert_eq!(check_text(text, [MOST_A_TEXT, MOST_TIME_A_TEXT]), Ok(()));
        assert!(check_text(text, [MOST_A_TEXT + 1, 0]).is_err());
        assert!(check_text(text, [0, MOST_TIME_A_TEXT + 1]).is_err());
    }

    #[test]
    fn a_time_above_the_bound_is_taken_again() {
        let mut taken = 0;
        let mut least = |times: &[u64]| {
            taken = 0;
            let found = super::least(Duration::ZERO, || {
                taken += 1;
                Ok(times[(taken - 1) % times.len()])
            });
            (found, taken)
        };
        let most = MOST_TIME_A_TEXT;
        assert_eq!(least(&[most, 0]), (Ok(most), 1));
        assert_eq!(least(&[most + 2, most + 1, most]), (Ok(most), 3));
        assert_eq!(least(&[most + 2, most + 1]), (Ok(most + 1), TRIES));
    }

    #[test]
    fn both_bounds_can_fail() {
        let drawing = &careless()[0];
        let check = |meter, cost, usual| check_one(meter, Task::Map, drawing, cost, usual);
        assert_eq!(check(Meter::Instructions, 1_000, 1_000), Ok(()));
        assert!(check(Meter::Nanoseconds, MOST_TIMES * 1_000 + 1, 1_000).is_err());
        let large = MOST_A_PAIR * (NODE_LIMIT * NODE_LIMIT) as u64 + 1;
        assert!(check(Meter::Instructions, large, large).is_err());
        assert_eq!(check(Meter::Nanoseconds, large, large), Ok(()));
    }
}
