//! Wrong mappers.

use super::{a_place_further, assert_noticed, changed, inspect, map, map_changed, STAND_IN};
use crate::library::Library;
use crate::mapped::Mapped;
use crate::mapping::comparison::Comparison;
use crate::mapping::{by_hand, damaged_tables, drawings, sheet};
use crate::reply::Reply;
use second::cuts::{cone, lean_cuts};
use second::drawings::named;
use second::graph::Graph;
use second::labels::{d, labelled, p, Labelled};
use second::nodes::NodeSet;
use second::random::Random;
use second::sheet::{Sheet, BUFFER_LIMIT};
use second::{LOOP, ROOM};

fn run(library: Library) -> Result<(), String> {
    let mut comparison = Comparison::new(library, 1);
    by_hand(&mut comparison)?;
    drawings(&mut comparison, 200)?;
    damaged_tables(&mut comparison, 400)
}

fn notices(map: &dyn Fn(&[u8], &mut [u8]) -> Reply, words: &str) {
    assert_noticed(run(Library { map, ..STAND_IN }), words);
}

/// Maps, and then changes the reply or the buffer.
fn notices_after(change: impl Fn(Reply, &mut [u8]) -> Reply, words: &str) {
    let wrong = |table: &[u8], buffer: &mut [u8]| {
        let reply = map(table, buffer);
        change(reply, buffer)
    };
    notices(&wrong, words);
}

/// Maps, and changes the sheet.
fn notices_changed(change: impl Fn(&mut Sheet), words: &str) {
    notices(&|table, buffer| map_changed(table, buffer, &change), words);
}

#[test]
fn the_stand_in_passes() {
    assert_eq!(run(STAND_IN), Ok(()));
}

#[test]
fn wrong_replies() {
    notices_after(|_, _| Err((1, 0)), "reply:");
    notices_after(|reply, _| reply.map(|length| length + 1), "shape:");
    notices_after(|reply, _| reply.map(|length| length - 1), "buffer:");
    notices_after(|reply, _| Ok(reply.unwrap_or(0)), "reply:");
    notices_after(|reply, _| reply.map(|_| 1 << 31), "reply:");
    for number in 1..=8 {
        notices_after(|reply, _| changed(reply, number, a_place_further), "reply:");
        notices_after(|reply, _| changed(reply, number, |(_, place)| Err((16, place))), "reply:");
    }
}

#[test]
fn room_before_loop() {
    let wrong = |table: &[u8], buffer: &mut [u8]| match map(table, buffer) {
        Err((LOOP, _)) if buffer.len() < BUFFER_LIMIT => Err((ROOM, BUFFER_LIMIT)),
        reply => reply,
    };
    notices(&wrong, "reply:");
}

#[test]
fn one_fixed_sheet() {
    let bytes = Mapped::of_table(named("P1")).unwrap().sheet.bytes();
    let wrong = |table: &[u8], buffer: &mut [u8]| {
        map(table, buffer)?;
        buffer[..bytes.len()].copy_from_slice(&bytes);
        Ok(bytes.len())
    };
    notices(&wrong, "shape:");
    notices(&|table, buffer| map(table, &mut buffer.to_vec()), "shape:");
}

#[test]
fn bytes_that_are_not_left_alone() {
    let inverted = |place: usize, buffer: &mut [u8]| {
        if let Some(byte) = buffer.get_mut(place) {
            *byte = !*byte;
        }
    };
    for place in [0, 5, 48_000] {
        let wrong = |reply: Reply, buffer: &mut [u8]| {
            if reply.is_err() {
                inverted(place, buffer);
            }
            reply
        };
        notices_after(wrong, &format!("buffer: byte {place} "));
    }
    let past_the_end = |reply: Reply, buffer: &mut [u8]| {
        if let Ok(length) = reply {
            inverted(length, buffer);
        }
        reply
    };
    notices_after(past_the_end, "buffer:");
    let last_of_all = |reply: Reply, buffer: &mut [u8]| {
        inverted(buffer.len().wrapping_sub(1), buffer);
        reply
    };
    notices_after(last_of_all, "buffer:");
}

#[test]
fn wrong_fixed_parts() {
    notices_changed(|sheet| sheet.depth += 1, "fixed part:");
    notices_changed(|sheet| drop(sheet.luts.pop()), "fixed part:");
    notices_changed(|sheet| sheet.luts.truncate(2), "fixed part:");
    notices_changed(|sheet| sheet.luts.iter_mut().for_each(|lut| lut.rows ^= 2), "fixed part:");
    let last_label = |sheet: &mut Sheet| {
        if let Some(line) = sheet.lines.last_mut() {
            line.label = 1 + line.label % 190;
        }
    };
    notices_changed(last_label, "fixed part:");
    let fewer_leaves = |sheet: &mut Sheet| {
        let lines = sheet.lines.iter_mut().filter(|line| line.leaves.len() > 1);
        lines.for_each(|line| line.leaves.truncate(1));
    };
    notices_changed(fewer_leaves, "fixed part:");
}

/// The least cut nearest to a gate whose label is p, and any other gate's own.
fn nearest_cuts(graph: &Graph, Labelled { labels, cuts }: &Labelled) -> Vec<NodeSet> {
    let lists = match lean_cuts(graph, 200) {
        Some(lists) => lists,
        None => return cuts.clone(),
    };
    let mut nearest = cuts.clone();
    for gate in graph.gates().filter(|&gate| p(graph, labels, gate) == labels[gate]) {
        let d = d(graph, labels, gate);
        let is_least = |cut: &&NodeSet| cut.len() == cuts[gate].len() && cut.without(d) == **cut;
        let least = lists[gate].iter().filter(is_least);
        let least = least.min_by_key(|cut| cone(graph, gate, **cut).len());
        nearest[gate] = *least.expect("the mapper's cut is one of them");
    }
    nearest
}

/// The first gate is labelled and the rest is guessed; no cut is looked for; of the least cuts the
/// nearest is taken, and not the one with the largest cone.
#[test]
fn wrong_labels_and_cuts() {
    let guessed = |sheet: &mut Sheet| {
        sheet.lines.iter_mut().skip(1).for_each(|line| line.label = 1);
    };
    notices_changed(guessed, "fixed part:");
    let with_cuts = |choose: fn(&Graph, &Labelled) -> Vec<NodeSet>| {
        let wrong = |table: &[u8], buffer: &mut [u8]| {
            let graph = Graph::read(table)?;
            let cuts = choose(&graph, &labelled(&graph));
            map_changed(table, buffer, |sheet| {
                for (gate, line) in graph.gates().zip(&mut sheet.lines) {
                    line.leaves = cuts[gate].list();
                }
            })
        };
        notices(&wrong, "fixed part:");
    };
    with_cuts(|graph, _| (0..graph.nodes()).map(|node| graph.fanin_set(node)).collect());
    with_cuts(nearest_cuts);
}

#[test]
fn false_evidence() {
    let changed = |change: fn(&mut Vec<Vec<usize>>)| {
        let each = move |sheet: &mut Sheet| {
            let lines = sheet.lines.iter_mut().filter(|line| !line.paths.is_empty());
            lines.for_each(|line| change(&mut line.paths));
        };
        notices_changed(each, "evidence:");
    };
    changed(|paths| paths[0] = paths[1].clone());
    changed(|paths| paths.clear());
    changed(|paths| paths[0].reverse());
    changed(|paths| paths.iter_mut().for_each(|path| drop(path.drain(..path.len() - 1))));
    let needless = |sheet: &mut Sheet| {
        let with = sheet.lines.iter().find(|line| !line.paths.is_empty());
        let paths = with.map_or(Vec::new(), |line| line.paths.clone());
        sheet.lines[..1].iter_mut().for_each(|line| line.paths = paths.clone());
    };
    let some = |sheet: &mut Sheet| {
        if !sheet.lines.is_empty() {
            needless(sheet);
        }
    };
    notices_changed(some, "evidence:");
}

/// These are behind the comparison of fixed parts, so they are called by themselves.
#[test]
fn wrong_values_and_parts_by_themselves() {
    let mut random = Random::seeded(2);
    for name in ["P1", "P2", "P4", "P5 at K 2"] {
        let mapped = Mapped::of_table(named(name)).unwrap();
        let mut wrong = mapped.sheet.clone();
        assert_eq!(sheet::values(&mapped.graph, &wrong.luts, &mut random), Ok(()));
        let last = wrong.luts.len() - 1;
        wrong.luts[last].rows ^= 1;
        assert_noticed(sheet::values(&mapped.graph, &wrong.luts, &mut random), "values:");
        assert_noticed(sheet::fixed_part(&mapped, &wrong), "fixed part:");
    }
}

#[test]
fn inspectors_are_given_both_sheets() {
    let deeper = |table: &[u8], sheet: &[u8]| inspect(table, sheet).map(|depth| depth + 1);
    let exchanged = "exchange: the library's sheet by the library";
    assert_noticed(run(Library { inspect: &deeper, ..STAND_IN }), exchanged);
    let with_paths_reversed = |table: &[u8], buffer: &mut [u8]| {
        map_changed(table, buffer, |sheet| {
            sheet.lines.iter_mut().for_each(|line| line.paths.reverse())
        })
    };
    let own_alone = |table: &[u8], sheet: &[u8]| {
        let own = &mut vec![0; BUFFER_LIMIT];
        let length = with_paths_reversed(table, own)?;
        match own[..length] == *sheet {
            true => inspect(table, sheet),
            false => Err((27, 0)),
        }
    };
    let agree = Library { map: &with_paths_reversed, inspect: &own_alone, ..STAND_IN };
    assert_noticed(run(agree), "exchange: the second's sheet by the library");
}
