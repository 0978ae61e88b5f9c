//! Damage to the lines of gates.

use super::{other_list, some_below, some_gate, two_below, Damaged, Due};
use crate::graph::Graph;
use crate::random::Random;
use crate::sheet::Sheet;

/// The most ids that a path's length byte can tell.
const PATH_LIMIT: usize = 255;

/// The lines may be alike.
pub fn swapped(sheet: &Sheet, random: &mut Random) -> Option<Damaged> {
    let (lower, higher) = two_below(sheet.lines.len(), random)?;
    let mut sheet = sheet.clone();
    sheet.lines.swap(lower, higher);
    Some(Damaged::left_open(&sheet))
}

/// Labels are what they are, so that no other can stand.
pub fn other_label(sheet: &Sheet, random: &mut Random) -> Option<Damaged> {
    let mut sheet = sheet.clone();
    let at = some_below(sheet.lines.len(), random)?;
    let label = sheet.lines[at].label;
    sheet.lines[at].label = match random.below(4) {
        0 => (label + random.between(1, 190) - 1) % 191 + 1,
        1 if label > 1 => label - 1,
        _ => label + 1,
    };
    Some(Damaged { bytes: sheet.bytes(), due: Due::SomeRefusal })
}

pub fn other_labels(sheet: &Sheet) -> Option<Damaged> {
    let mut sheet = sheet.clone();
    sheet.lines.iter_mut().for_each(|line| line.label += 1);
    let has_lines = !sheet.lines.is_empty();
    has_lines.then(|| Damaged { bytes: sheet.bytes(), due: Due::SomeRefusal })
}

pub fn other_leaves(graph: &Graph, sheet: &Sheet, random: &mut Random) -> Option<Damaged> {
    let mut sheet = sheet.clone();
    let at = some_below(sheet.lines.len(), random)?;
    sheet.lines[at].leaves = other_list(&sheet.lines[at].leaves, graph.nodes(), random);
    Some(Damaged::left_open(&sheet))
}

/// The place among the lines of a gate that has paths, or has none.
fn some_line(
    graph: &Graph,
    sheet: &Sheet,
    has_paths: bool,
    random: &mut Random,
) -> Option<(usize, usize)> {
    let place = |gate: usize| gate - graph.table.inputs;
    let is_such = |gate: usize| sheet.lines[place(gate)].paths.is_empty() != has_paths;
    let gate = some_gate(graph, random, is_such)?;
    Some((gate, place(gate)))
}

pub fn other_path(graph: &Graph, sheet: &Sheet, random: &mut Random) -> Option<Damaged> {
    let (_, at) = some_line(graph, sheet, true, random)?;
    let mut sheet = sheet.clone();
    let paths = &mut sheet.lines[at].paths;
    let another = random.pick(paths).clone();
    let which = random.below(paths.len());
    let path = &mut paths[which];
    let node = random.below(graph.nodes());
    let place = random.below(path.len());
    match random.below(6) {
        0 => path.push(node),
        1 => path.insert(place, node),
        2 => drop(path.remove(place)),
        3 => path.extend(another),
        4 => path.truncate(place + 1),
        _ => path[place] = node,
    }
    path.truncate(PATH_LIMIT);
    Some(Damaged::left_open(&sheet))
}

pub fn no_paths(graph: &Graph, sheet: &Sheet, random: &mut Random) -> Option<Damaged> {
    let (gate, at) = some_line(graph, sheet, true, random)?;
    let mut sheet = sheet.clone();
    sheet.lines[at].paths.clear();
    Some(Damaged::refused(sheet.bytes(), 27, gate))
}

pub fn needless_paths(graph: &Graph, sheet: &Sheet, random: &mut Random) -> Option<Damaged> {
    let (gate, at) = some_line(graph, sheet, false, random)?;
    let mut sheet = sheet.clone();
    let behind = graph.behind(gate).list();
    sheet.lines[at].paths = (0..=graph.k()).map(|_| vec![*random.pick(&behind)]).collect();
    Some(Damaged::refused(sheet.bytes(), 27, gate))
}
