//! False LUTs and depths.

use super::{some_below, some_gate};
use crate::mapped::Mapped;
use second::mapping::{cover, cover_depth, lut};
use second::nodes::NodeSet;
use second::random::Random;
use second::sheet::Sheet;

/// A LUT has another cut's table, or another cut and its own table.
pub fn table_of_another_cone(mapped: &Mapped, random: &mut Random) -> Option<Sheet> {
    let mut sheet = mapped.sheet.clone();
    let at = some_below(sheet.luts.len(), random)?;
    let own = sheet.luts[at].clone();
    let other = lut(&mapped.graph, own.root, mapped.graph.fanin_set(own.root));
    match random.one_in(2) {
        true => sheet.luts[at].leaves = other.leaves,
        false => sheet.luts[at].rows = other.rows,
    }
    (sheet != mapped.sheet).then_some(sheet)
}

/// A root that nobody asks for, and the LUTs of all that it asks for.
pub fn needless_root(mapped: &Mapped, random: &mut Random) -> Option<Sheet> {
    let (graph, mut sheet) = (&mapped.graph, mapped.sheet.clone());
    let is_root = |gate: usize| mapped.sheet.luts.iter().any(|lut| lut.root == gate);
    let needless = some_gate(graph, random, |gate| !is_root(gate))?;
    let mut with_output = graph.clone();
    with_output.table.outputs.push(needless);
    sheet.luts = cover(&with_output, &mapped.labelled.cuts);
    Some(sheet)
}

/// An output and all that it alone asks for is missing.
pub fn output_no_root(mapped: &Mapped, random: &mut Random) -> Option<Sheet> {
    let (graph, mut sheet) = (&mapped.graph, mapped.sheet.clone());
    let missing = *random.pick(&graph.table.outputs);
    let mut without_output = graph.clone();
    without_output.table.outputs.retain(|&output| output != missing);
    sheet.luts = cover(&without_output, &mapped.labelled.cuts);
    (sheet != mapped.sheet).then_some(sheet)
}

/// A cover that is too deep, and a head and perhaps an output's label that say so too.
pub fn depths_that_agree(mapped: &Mapped, random: &mut Random) -> Option<Sheet> {
    let (graph, mut sheet) = (&mapped.graph, mapped.sheet.clone());
    let unpacked: Vec<NodeSet> = (0..graph.nodes()).map(|node| graph.fanin_set(node)).collect();
    sheet.luts = cover(graph, &unpacked);
    sheet.depth = cover_depth(graph, &sheet.luts);
    if random.one_in(2) {
        for &output in graph.table.outputs.iter().filter(|&&output| !graph.is_input(output)) {
            sheet.lines[output - graph.table.inputs].label = sheet.depth;
        }
    }
    (sheet != mapped.sheet).then_some(sheet)
}
