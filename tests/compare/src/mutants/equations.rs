//! Wrong readers of equations.

use super::{a_place_further, assert_noticed, changed, equations, stored, STAND_IN};
use crate::equations::comparison::{same_values, Comparison};
use crate::equations::{by_hand, damaged_texts, ends, full_length, single_bytes, whole_texts};
use crate::library::Library;
use crate::reply::Reply;
use second::equations::system::System;
use second::equations::{
    again, compile, compile_by, is_in_numbers, misnamed, read, table, undefined,
};
use second::equations::{Rules, NAME, NUMBERS, REQUEST, TABLE_ROOM, TEXT, TEXT_LIMIT};
use second::graph::{behind, lowest_loop};
use second::random::Random;
use second::table::{Gate, Table};
use second::{table as tables, Refused, LOOP, ROOM};

fn run(library: Library) -> Result<(), String> {
    let mut comparison = Comparison::new(library, 1);
    by_hand(&mut comparison)?;
    drawn(&mut comparison)
}

/// What is not by hand, at a small size.
fn drawn(comparison: &mut Comparison) -> Result<(), String> {
    ends(comparison, 2)?;
    single_bytes(comparison, 3)?;
    whole_texts(comparison, 600)?;
    damaged_texts(comparison, 1_500)?;
    full_length(comparison, 12)
}

fn notices(equations: &dyn Fn(&[u8], u64, &mut [u8]) -> Reply, words: &str) {
    assert_noticed(run(Library { equations, ..STAND_IN }), words);
}

/// Compiles, and then changes the reply or the buffer.
fn notices_after(change: impl Fn(Reply, &mut [u8]) -> Reply, words: &str) {
    let wrong = |text: &[u8], k: u64, buffer: &mut [u8]| {
        let reply = equations(text, k, buffer);
        change(reply, buffer)
    };
    notices(&wrong, words);
}

/// A reader by other rules; noticed by the cases by hand, and as well by those that are drawn.
fn notices_rules(rules: Rules) {
    let wrong = |text: &[u8], k: u64, buffer: &mut [u8]| {
        stored(compile_by(rules, text, k, buffer.len()), buffer)
    };
    notices(&wrong, ":");
    let library = Library { equations: &wrong, ..STAND_IN };
    assert_noticed(drawn(&mut Comparison::new(library, 2)), ":");
}

/// A reader that makes another table.
fn notices_table(change: impl Fn(&mut Table)) {
    let wrong = |text: &[u8], k: u64, buffer: &mut [u8]| {
        let bytes = compile(text, k, buffer.len())?;
        let mut table = tables::read(&bytes).table().expect("it was compiled");
        change(&mut table);
        stored(Ok(table.bytes()), buffer)
    };
    notices(&wrong, "due");
}

/// A reader that goes on from the text's statements in its own way.
fn notices_system(reply: impl Fn(&System, u64) -> Result<Vec<u8>, Refused>) {
    let wrong = |text: &[u8], k: u64, buffer: &mut [u8]| {
        let made = read(REQUEST, text).and_then(|system| reply(&system, k));
        match made {
            Ok(_) if buffer.len() < TABLE_ROOM => Err((ROOM, TABLE_ROOM)),
            made => stored(made, buffer),
        }
    };
    notices(&wrong, "reply:");
}

/// The rest of the rules behind this test of names. There is no table of names that are missing.
fn with_names(system: &System, k: u64, misnamed: Option<usize>) -> Result<Vec<u8>, Refused> {
    match misnamed {
        Some(place) => Err((NAME, place)),
        None if !is_in_numbers(system, k) => Err((NUMBERS, 0)),
        None if !undefined(system).is_empty() => Err((40, 0)),
        None => looped(table(system, k)),
    }
}

fn looped(table: Table) -> Result<Vec<u8>, Refused> {
    match lowest_loop(&table) {
        Some(gate) => Err((LOOP, gate)),
        None => Ok(table.bytes()),
    }
}

#[test]
fn the_stand_in_passes() {
    assert_eq!(run(STAND_IN), Ok(()));
}

#[test]
fn wrong_replies() {
    notices_after(|_, _| Err((TEXT, 0)), "reply:");
    notices_after(|reply, _| reply.map(|length| length + 1), "reply:");
    notices_after(|reply, _| reply.map(|length| length - 1), "reply:");
    notices_after(|reply, _| Ok(reply.unwrap_or(0)), "reply:");
    for number in [TEXT, NAME, NUMBERS, LOOP, ROOM] {
        notices_after(|reply, _| changed(reply, number, a_place_further), "reply:");
        notices_after(|reply, _| changed(reply, number, |(_, place)| Err((40, place))), "reply:");
    }
    for number in [TEXT, NAME, LOOP] {
        let before = |(number, place): Refused| Err((number, place.saturating_sub(1)));
        notices_after(|reply, _| changed(reply, number, before), "reply:");
    }
}

#[test]
fn one_fixed_table_or_none() {
    let bytes = compile(b"in a;out a;", 3, TABLE_ROOM).unwrap();
    let fixed = |text: &[u8], k: u64, buffer: &mut [u8]| {
        equations(text, k, buffer)?;
        stored(Ok(bytes.clone()), buffer)
    };
    notices(&fixed, "table:");
    notices(&|text, k, buffer| equations(text, k, &mut buffer.to_vec()), "table:");
}

#[test]
fn bytes_that_are_not_left_alone() {
    let inverted = |place: usize, buffer: &mut [u8]| {
        if let Some(byte) = buffer.get_mut(place) {
            *byte = !*byte;
        }
    };
    for number in [TEXT, NAME, NUMBERS, LOOP] {
        let wrong = |reply: Reply, buffer: &mut [u8]| {
            if matches!(reply, Err((refused, _)) if refused == number) {
                inverted(0, buffer);
            }
            reply
        };
        notices_after(wrong, "buffer: byte 0 ");
    }
    let on_room = |reply: Reply, buffer: &mut [u8]| {
        if matches!(reply, Err((ROOM, _))) {
            inverted(buffer.len().wrapping_sub(1), buffer);
        }
        reply
    };
    notices_after(on_room, "buffer:");
    let behind_the_table = |reply: Reply, buffer: &mut [u8]| {
        inverted(reply.unwrap_or(usize::MAX), buffer);
        reply
    };
    notices_after(behind_the_table, "buffer:");
    let last_of_all = |reply: Reply, buffer: &mut [u8]| {
        inverted(buffer.len().wrapping_sub(1), buffer);
        reply
    };
    notices_after(last_of_all, "buffer:");
}

#[test]
fn other_blanks() {
    notices_rules(Rules { blanks: b" \n\r\t", ..REQUEST });
    notices_rules(Rules { blanks: b" \n", ..REQUEST });
    notices_rules(Rules { blanks: b" \r", ..REQUEST });
    notices_rules(Rules { blanks: b" \n\r\x0B", ..REQUEST });
    notices_rules(Rules { blanks: b" \n\r\0", ..REQUEST });
}

#[test]
fn other_words() {
    notices_rules(Rules { reserved: &[], ..REQUEST });
    notices_rules(Rules { reserved: &[b"in"], ..REQUEST });
    notices_rules(Rules { reserved: &[b"in", b"out", b"IN"], ..REQUEST });
    for name_limit in [15, 17] {
        notices_rules(Rules { name_limit, ..REQUEST });
    }
}

#[test]
fn other_expressions() {
    for nesting_limit in [31, 33] {
        notices_rules(Rules { nesting_limit, ..REQUEST });
    }
    notices_rules(Rules { is_left_first: false, ..REQUEST });
    let exchanged = |text: &[u8], k: u64, buffer: &mut [u8]| {
        let other = |&byte: &u8| match byte {
            b'*' => b'+',
            b'+' => b'*',
            byte => byte,
        };
        equations(&text.iter().map(other).collect::<Vec<u8>>(), k, buffer)
    };
    notices(&exchanged, "table:");
}

/// The place of a text that goes wrong behind a word that is no name: the word's first byte.
#[test]
fn a_keyword_stopped_at_its_first_byte() {
    let wrong = |text: &[u8], k: u64, buffer: &mut [u8]| {
        changed(equations(text, k, buffer), TEXT, |(number, place)| {
            let before = &text[..place.min(text.len())];
            let word = before.iter().rev().take_while(|byte| byte.is_ascii_alphanumeric()).count();
            match &before[before.len() - word..] {
                b"in" | b"out" if place < text.len() => Err((number, place - word)),
                _ => Err((number, place)),
            }
        })
    };
    notices(&wrong, "reply:");
}

#[test]
fn texts_of_other_lengths() {
    let limited = |most: usize| {
        let wrong = |text: &[u8], k: u64, buffer: &mut [u8]| match text.len() {
            length if length > most => Err((TEXT, TEXT_LIMIT)),
            _ => equations(text, k, buffer),
        };
        notices(&wrong, "reply:");
    };
    limited(8_191);
    let long = |text: &[u8], k: u64, buffer: &mut [u8]| match text.len() {
        8_193 => equations(&text[..8_192], k, buffer),
        _ => equations(text, k, buffer),
    };
    notices(&long, "reply:");
    // The grammar is looked at first, in what is within the limit.
    let grammar_first = |text: &[u8], k: u64, buffer: &mut [u8]| {
        let within = &text[..text.len().min(TEXT_LIMIT)];
        match read(REQUEST, within) {
            Err(refused) => Err(refused),
            Ok(_) => equations(text, k, buffer),
        }
    };
    notices(&grammar_first, "reply:");
    // A beginning must be completed within the limit.
    let completed_within = |text: &[u8], k: u64, buffer: &mut [u8]| {
        changed(equations(text, k, buffer), TEXT, |(number, place)| match text.len() {
            TEXT_LIMIT => Err((number, place.min(TEXT_LIMIT - 1))),
            _ => Err((number, place)),
        })
    };
    notices(&completed_within, "reply:");
}

#[test]
fn other_tables() {
    notices_table(|table| table.gates.iter_mut().for_each(|gate| gate.fanins.reverse()));
    notices_table(|table| table.outputs.reverse());
    notices_table(|table| table.outputs.dedup());
    notices_table(|table| table.k = 2);
    notices_table(|table| drop(table.gates.pop()));
    let each =
        |change: fn(&mut Gate)| notices_table(|table| table.gates.iter_mut().for_each(change));
    each(|gate| gate.rows = if gate.rows == 2 { 1 } else { gate.rows });
    each(|gate| gate.rows = if gate.rows == 8 { 14 } else { gate.rows });
    each(|gate| gate.fanins = gate.fanins.iter().map(|&id| id.saturating_sub(1)).collect());
}

#[test]
fn wrong_places_of_names() {
    notices_system(|system, k| with_names(system, k, undefined(system).into_iter().min()));
    notices_system(|system, k| with_names(system, k, again(system).into_iter().min()));
    notices_system(|system, k| {
        with_names(system, k, undefined(system).into_iter().chain(again(system)).max())
    });
    // One kind before the other.
    notices_system(|system, k| {
        with_names(system, k, undefined(system).into_iter().chain(again(system)).next())
    });
    notices_system(|system, k| {
        with_names(system, k, again(system).into_iter().chain(undefined(system)).next())
    });
    // Outputs are not looked up before numbers are.
    notices_system(|system, k| {
        let behind = system.outputs[0].place;
        match misnamed(system).filter(|&place| place < behind) {
            None if !is_in_numbers(system, k) => Err((NUMBERS, 0)),
            None => with_names(system, k, misnamed(system)),
            first => with_names(system, k, first),
        }
    });
    // The earlier of two definitions.
    notices_system(|system, k| {
        let text_at = |place: usize| {
            system.definitions().into_iter().find(|name| name.place == place).map(|name| name.text)
        };
        let earlier = |place: usize| {
            let text = text_at(place);
            let mut same = system.definitions().into_iter().filter(|name| Some(name.text) == text);
            same.next().map_or(place, |name| name.place)
        };
        with_names(system, k, misnamed(system).map(earlier))
    });
    // An input may be defined again.
    notices_system(|system, k| {
        let inputs = &system.inputs;
        let is_input = |place: &usize| inputs.iter().any(|input| input.place == *place);
        let places = undefined(system).into_iter().chain(again(system));
        with_names(system, k, places.filter(|place| !is_input(place)).min())
    });
}

#[test]
fn rules_in_another_order() {
    notices_system(|system, k| match is_in_numbers(system, k) {
        false => Err((NUMBERS, 0)),
        true => with_names(system, k, misnamed(system)),
    });
    let room_first = |text: &[u8], k: u64, buffer: &mut [u8]| match equations(text, k, buffer) {
        Err((LOOP, _)) if buffer.len() < TABLE_ROOM => Err((ROOM, TABLE_ROOM)),
        reply => reply,
    };
    notices(&room_first, "reply:");
    let room_as_needed = |text: &[u8], k: u64, buffer: &mut [u8]| {
        let bytes = compile(text, k, TABLE_ROOM)?;
        match bytes.len() <= buffer.len() {
            true => stored(Ok(bytes), buffer),
            false => Err((ROOM, TABLE_ROOM)),
        }
    };
    notices(&room_as_needed, "reply:");
}

#[test]
fn other_numbers() {
    notices(&|text, k, buffer| equations(text, k & 0xFF, buffer), "reply:");
    notices(&|text, k, buffer| equations(text, k & 0xFFFF_FFFF, buffer), "reply:");
    let refusing = |is_such: fn(&System, u64) -> bool| {
        notices_system(|system, k| {
            let made = with_names(system, k, misnamed(system))?;
            match is_such(system, k) {
                true => Err((NUMBERS, 0)),
                false => Ok(made),
            }
        });
    };
    refusing(|_, k| k == 6);
    refusing(|_, k| k == 2);
    refusing(|system, _| system.inputs.len() == 64);
    refusing(|system, _| system.outputs.len() == 64);
    refusing(|system, k| system.inputs.len() + table(system, k).gates.len() == 192);
    // One more than there may be is not refused for its number.
    let taking = |is_such: fn(&System) -> bool| {
        notices_system(|system, k| match misnamed(system) {
            None if is_such(system) && (2..=6).contains(&k) => Err((40, 0)),
            place => with_names(system, k, place),
        });
    };
    taking(|system| system.inputs.len() == 65);
    taking(|system| system.outputs.len() == 65);
    taking(|system| system.inputs.len() + table(system, 2).gates.len() == 193);
}

#[test]
fn wrong_loops() {
    let looped_at = |find: fn(&Table) -> Option<usize>| {
        notices_system(|system, k| {
            let made = with_names(system, k, misnamed(system));
            match made {
                Err((LOOP, _)) => {
                    let table = table(system, k);
                    find(&table).map_or(Ok(table.bytes()), |gate| Err((LOOP, gate)))
                }
                made => made,
            }
        });
    };
    looped_at(|_| None);
    looped_at(|table| {
        let behind = behind(table);
        let is_seen = |gate: usize| {
            table.outputs.iter().any(|&output| output == gate || behind[output].contains(gate))
        };
        (0..behind.len()).find(|&gate| behind[gate].contains(gate) && is_seen(gate))
    });
    looped_at(|table| {
        let behind = behind(table);
        (0..behind.len()).rev().find(|&gate| behind[gate].contains(gate))
    });
    looped_at(|table| lowest_loop(table).map(|gate| gate - table.inputs));
}

/// These are behind the comparison of tables, so they are called by themselves.
#[test]
fn wrong_values_and_tables_that_are_not_mapped() {
    let text = b"in a b s;f=a*!s+b*s;g=!f;out f g;";
    let bytes = compile(text, 3, TABLE_ROOM).unwrap();
    let mut random = Random::seeded(3);
    assert_eq!(same_values(text, &bytes, &mut random), Ok(()));
    let good = tables::read(&bytes).table().unwrap();
    for gate in 0..good.gates.len() {
        let mut wrong = good.clone();
        wrong.gates[gate].rows ^= 1;
        assert_noticed(same_values(text, &wrong.bytes(), &mut random), "values:");
    }
    let mut wrong = good;
    wrong.outputs.swap(0, 1);
    assert_noticed(same_values(text, &wrong.bytes(), &mut random), "values:");
    let refusing = |_: &[u8], _: &mut [u8]| Err((1, 0));
    assert_noticed(run(Library { map: &refusing, ..STAND_IN }), "map:");
}
