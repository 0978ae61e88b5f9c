//! Wrong readers of gate tables, in the mapper's place and in the inspector's.

use super::{a_place_further, assert_noticed, changed, map, STAND_IN};
use crate::library::Library;
use crate::mapping::comparison::Comparison;
use crate::reading::{by_hand, damaged, drawings};
use crate::reply::Reply;
use second::graph::{behind, fanins, Graph};
use second::nodes::NodeSet;
use second::sheet::BUFFER_LIMIT;
use second::table::{read, row_mask, Table, OUTPUT_LIMIT};
use second::{Refused, LOOP, ROOM};

fn run(library: Library) -> Result<(), String> {
    let mut comparison = Comparison::new(library, 1);
    by_hand(&mut comparison)?;
    damaged(&mut comparison, 60)?;
    drawings(&mut comparison, 120)
}

/// Whether a table is taken.
type Taken = Result<(), Refused>;

fn taken(table: &[u8]) -> Taken {
    Graph::read(table).map(drop)
}

/// The comparison of a library whose mapper reads by this reader, and of one whose inspector does.
fn asked(reader: &dyn Fn(&[u8]) -> Taken) -> [Result<(), String>; 2] {
    let map = |table: &[u8], buffer: &mut [u8]| {
        reader(table)?;
        match buffer.len() < BUFFER_LIMIT {
            true => Err((ROOM, BUFFER_LIMIT)),
            false => Ok(0),
        }
    };
    let inspect = |table: &[u8], _: &[u8]| reader(table).and(Err((21, 0)));
    [run(Library { map: &map, ..STAND_IN }), run(Library { inspect: &inspect, ..STAND_IN })]
}

/// A wrong reader is noticed in either function.
fn notices(wrong: &dyn Fn(&[u8]) -> Taken) {
    let [in_map, in_inspect] = asked(wrong);
    assert_noticed(in_map, "reply:");
    assert_noticed(in_inspect, "ruling:");
}

/// A reader that says something else where this number is due.
fn notices_instead(number: u32, other: impl Fn(&[u8], usize) -> Taken) {
    notices(&|table| match taken(table) {
        Err((refused, place)) if refused == number => other(table, place),
        reply => reply,
    });
}

#[test]
fn the_stand_in_passes() {
    assert_eq!(run(STAND_IN), Ok(()));
    assert_eq!(asked(&taken), [Ok(()), Ok(())]);
}

/// Each number that is given at another place, as another number, or not at all.
#[test]
fn wrong_numbers_and_places() {
    for number in 1..=LOOP {
        notices_instead(number, |_, place| Err((number, place + 1)));
        notices_instead(number, |_, place| Err((16, place)));
        notices_instead(number, |_, _| Ok(()));
    }
    let further =
        |table: &[u8], buffer: &mut [u8]| changed(map(table, buffer), ROOM, a_place_further);
    assert_noticed(run(Library { map: &further, ..STAND_IN }), "reply:");
}

fn word(bytes: &[u8]) -> u64 {
    bytes.iter().fold(0, |word, &byte| word << 8 | u64::from(byte))
}

/// Two faults of one field, in the other order than the paper's.
#[test]
fn rules_in_another_order() {
    let tag_first = |table: &[u8], place: usize| match table.get(place) {
        Some(tag) if table.len() - place < 3 && !(1..=3).contains(tag) => Err((2, place)),
        _ => Err((1, place)),
    };
    notices_instead(1, tag_first);
    let outputs_first = |table: &[u8], place: usize| match read(table).outputs.len() {
        OUTPUT_LIMIT => Err((6, place)),
        _ => Err((2, place)),
    };
    notices_instead(2, outputs_first);
    let rows_first = |table: &[u8], place: usize| {
        let m = usize::from(table[place + 3]);
        let rows = match table[place] {
            2 => word(&table[place + 4 + m..place + 12 + m]),
            _ => 0,
        };
        match rows & !row_mask(m) {
            0 => Err((4, place)),
            _ => Err((5, place)),
        }
    };
    notices_instead(4, rows_first);
}

/// Limits that are off by one.
#[test]
fn less_than_the_paper_takes() {
    let refusing = |is_such: fn(&Table) -> bool| {
        notices(&|table| {
            taken(table)?;
            match read(table).table().map_or(false, |table| is_such(&table)) {
                true => Err((4, 0)),
                false => Ok(()),
            }
        });
    };
    refusing(|table| table.k == 6);
    refusing(|table| table.inputs == 64);
    refusing(|table| table.inputs + table.gates.len() == 192);
    refusing(|table| table.outputs.len() == 64);
}

/// A reader that names this gate for a loop, by what lies behind each node, or none.
fn notices_loop_at(lowest: fn(&Table, &[NodeSet]) -> Option<usize>) {
    notices_instead(LOOP, |bytes, _| {
        let table = read(bytes).table().expect("a loop follows a whole reading");
        match lowest(&table, &behind(&table)) {
            Some(gate) => Err((LOOP, gate)),
            None => Ok(()),
        }
    });
}

/// Loops are looked for behind outputs alone, or a gate is named that only lies downstream of one,
/// or the highest on one, or a gate of a loop of one alone.
#[test]
fn wrong_loops() {
    notices_loop_at(|table, behind| {
        let is_needed = |gate: usize| {
            table.outputs.iter().any(|&output| output == gate || behind[output].contains(gate))
        };
        (0..behind.len()).find(|&gate| behind[gate].contains(gate) && is_needed(gate))
    });
    notices_loop_at(|_, behind| {
        let is_on = |gate: usize| behind[gate].contains(gate);
        (0..behind.len()).find(|&gate| behind[gate].rising().any(is_on))
    });
    notices_loop_at(|_, behind| (0..behind.len()).rev().find(|&gate| behind[gate].contains(gate)));
    notices_loop_at(|table, behind| {
        (0..behind.len()).find(|&gate| fanins(table, gate).contains(&gate))
    });
}

/// A refusal leaves the buffer as it was, whether it is long enough or not.
#[test]
fn a_buffer_that_is_not_left_alone() {
    let noticed = |is_such: fn(usize) -> bool| {
        let wrong = |table: &[u8], buffer: &mut [u8]| -> Reply {
            let reply = map(table, buffer);
            if reply.is_err() && is_such(buffer.len()) {
                buffer.iter_mut().take(1).for_each(|byte| *byte = !*byte);
            }
            reply
        };
        assert_noticed(run(Library { map: &wrong, ..STAND_IN }), "buffer: byte 0 ");
    };
    noticed(|length| length < BUFFER_LIMIT);
    noticed(|length| length >= BUFFER_LIMIT);
}
