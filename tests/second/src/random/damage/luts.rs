//! Damage to the LUTs.

use super::{other_list, some_below, some_gate, starts, two_below, Damaged};
use crate::graph::Graph;
use crate::mapping::{cover, cover_depth, lut};
use crate::nodes::NodeSet;
use crate::random::Random;
use crate::sheet::Sheet;

/// The LUT after the one that came too early is the first whose root does not rise.
pub fn swapped(sheet: &Sheet, random: &mut Random) -> Option<Damaged> {
    let (lower, higher) = two_below(sheet.luts.len(), random)?;
    let mut sheet = sheet.clone();
    sheet.luts.swap(lower, higher);
    let fields_before = 1 + sheet.lines.len() + lower + 1;
    Some(Damaged::refused(sheet.bytes(), 24, starts(&sheet.fields())[fields_before]))
}

pub fn other_leaves(graph: &Graph, sheet: &Sheet, random: &mut Random) -> Option<Damaged> {
    let mut sheet = sheet.clone();
    let at = some_below(sheet.luts.len(), random)?;
    let found = &mut sheet.luts[at];
    let leaves = match random.one_in(3) {
        true => graph.fanin_set(found.root),
        false => NodeSet::from(&other_list(&found.leaves, graph.nodes(), random)[..]),
    };
    *found = lut(graph, found.root, leaves);
    Some(Damaged::left_open(&sheet))
}

pub fn other_table(sheet: &Sheet, random: &mut Random) -> Option<Damaged> {
    let mut sheet = sheet.clone();
    let at = some_below(sheet.luts.len(), random)?;
    let lut = &mut sheet.luts[at];
    let rows = if random.one_in(2) { 64 } else { 1 << lut.leaves.len() };
    lut.rows ^= 1 << random.below(rows);
    let root = lut.root;
    Some(Damaged::refused(sheet.bytes(), 29, root))
}

/// The missing root is asked for, and its leaves perhaps no longer.
pub fn missing(graph: &Graph, sheet: &Sheet, random: &mut Random) -> Option<Damaged> {
    let mut sheet = sheet.clone();
    let at = some_below(sheet.luts.len(), random)?;
    let gone = sheet.luts.remove(at);
    let is_leaf = |node: usize| sheet.luts.iter().any(|lut| lut.leaves.contains(&node));
    let is_asked_for = |node: usize| graph.table.outputs.contains(&node) || is_leaf(node);
    let leaves = gone.leaves.iter().copied();
    let needless = leaves.filter(|&leaf| !graph.is_input(leaf) && !is_asked_for(leaf));
    let lowest = needless.chain([gone.root]).min()?;
    Some(Damaged::refused(sheet.bytes(), 28, lowest))
}

/// The needless root is there, and its leaves perhaps are not.
pub fn needless(graph: &Graph, sheet: &Sheet, random: &mut Random) -> Option<Damaged> {
    let roots: NodeSet = sheet.luts.iter().map(|lut| lut.root).collect();
    let gate = some_gate(graph, random, |gate| !roots.contains(gate))?;
    let needless = lut(graph, gate, graph.fanin_set(gate));
    let leaves = needless.leaves.iter().copied();
    let missing = leaves.filter(|&leaf| !graph.is_input(leaf) && !roots.contains(leaf));
    let lowest = missing.chain([gate]).min()?;
    let mut sheet = sheet.clone();
    sheet.luts.push(needless);
    sheet.luts.sort_by_key(|lut| lut.root);
    Some(Damaged::refused(sheet.bytes(), 28, lowest))
}

/// A cover all the same, but one whose depth is perhaps not least.
pub fn deeper(graph: &Graph, sheet: &Sheet, random: &mut Random) -> Damaged {
    let fanins: Vec<NodeSet> = (0..graph.nodes()).map(|node| graph.fanin_set(node)).collect();
    let luts = cover(graph, &fanins);
    let depth = cover_depth(graph, &luts);
    let said = if random.one_in(2) { depth } else { sheet.depth };
    let deeper = Sheet { depth: said, luts, ..sheet.clone() };
    match depth == sheet.depth {
        true => Damaged::left_open(&deeper),
        false => Damaged::refused(deeper.bytes(), 30, 0),
    }
}
