//! Lists of leaves, cuts or none, in a gate's line or in a LUT of a sheet that is true but for
//! them.

use super::comparison::Comparison;
use super::some_drawing;
use crate::mapped::Mapped;
use second::nodes::NodeSet;
use second::random::Random;
use second::sheet::Sheet;

/// How many lists are tried on each drawing.
const LISTS: usize = 20;

/// Sheets with other leaves, of so many drawings. What comes before them is true, so the ruling is
/// 25 at their gate exactly if they are in shape and no cut.
pub fn lists(comparison: &mut Comparison, count: usize) -> Result<(), String> {
    comparison.tally.begin("lists of leaves");
    let (mut cuts, mut none, mut misshapen) = (0, 0, 0);
    for _ in 0..count {
        let mapped = some_drawing(comparison);
        if mapped.sheet.lines.is_empty() {
            continue;
        }
        for _ in 0..LISTS {
            let (gate, sheet) = with_other_leaves(&mapped, &mut comparison.random);
            match comparison.ruling(&mapped, &sheet.bytes())? {
                Err((24, _)) => misshapen += 1,
                Err((25, place)) if place == gate => none += 1,
                _ => cuts += 1,
            }
        }
    }
    println!("inspecting: {cuts} cuts, {none} lists that are none, {misshapen} out of shape");
    match [cuts, none, misshapen].contains(&0) {
        true => Err("a kind of list was never drawn".to_string()),
        false => Ok(()),
    }
}

/// Other leaves for some gate's line, or for some LUT if there is one.
fn with_other_leaves(mapped: &Mapped, random: &mut Random) -> (usize, Sheet) {
    let mut sheet = mapped.sheet.clone();
    if random.one_in(2) && !sheet.luts.is_empty() {
        let at = random.below(sheet.luts.len());
        let gate = sheet.luts[at].root;
        sheet.luts[at].leaves = some_leaves(mapped, gate, random);
        return (gate, sheet);
    }
    let at = random.below(sheet.lines.len());
    let gate = mapped.graph.table.inputs + at;
    sheet.lines[at].leaves = some_leaves(mapped, gate, random);
    (gate, sheet)
}

/// The mapper's cut, the fanins, nodes behind the gate, any nodes; now and then with one more, one
/// less, one twice, or not rising.
fn some_leaves(mapped: &Mapped, gate: usize, random: &mut Random) -> Vec<usize> {
    let graph = &mapped.graph;
    let behind = graph.behind(gate).list();
    let some: NodeSet = match random.below(4) {
        0 => mapped.labelled.cuts[gate],
        1 => graph.fanin_set(gate),
        2 => (0..random.between(1, graph.k())).map(|_| *random.pick(&behind)).collect(),
        _ => (0..random.below(graph.k() + 2)).map(|_| random.below(graph.nodes())).collect(),
    };
    let mut leaves = some.list();
    match random.below(10) {
        0 => leaves.push(random.below(graph.nodes())),
        1 => drop(leaves.pop()),
        2 if !leaves.is_empty() => leaves.insert(0, leaves[0]),
        3 => leaves.reverse(),
        _ => {}
    }
    leaves
}
