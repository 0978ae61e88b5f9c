//! A second opinion on a sheet, for the checks: every fault that it has, found in other ways than
//! the inspector's, and the first of them in the paper's order. Cuts are told by sweeps and not by
//! walks, paths are followed back and not on, tables are tried row by row, and depths are told by
//! what has arrived after so many LUTs.

use crate::graph::Graph;
use crate::mapping::Lut;
use crate::nodes::NodeSet;
use crate::sheet::{Line, Sheet};
use crate::words::bit;
use crate::Refused;
use std::collections::BTreeSet;

/// The inspector's reply to a sheet whose shape is good.
pub fn opinion(graph: &Graph, sheet: &Sheet) -> Result<usize, Refused> {
    match faults(graph, sheet).into_iter().next() {
        Some(Fault { number, place, .. }) => Err((number, place)),
        None => Ok(sheet.depth),
    }
}

/// A fault, in the order of replies. Rules 28 and 30 count as two passes.
#[derive(Clone, Copy, Debug, PartialEq, Eq, PartialOrd, Ord)]
struct Fault {
    pass: u32,
    place: usize,
    number: u32,
}

fn faults(graph: &Graph, sheet: &Sheet) -> BTreeSet<Fault> {
    let inputs = graph.table.inputs;
    let label_at = |node: usize| match node.checked_sub(inputs) {
        Some(at) => sheet.lines[at].label,
        None => 0,
    };
    let labels: Vec<usize> = (0..graph.nodes()).map(label_at).collect();
    let mut faults = BTreeSet::new();
    for (at, line) in sheet.lines.iter().enumerate() {
        let place = inputs + at;
        let numbers = line_faults(graph, &labels, place, line);
        faults.extend(numbers.into_iter().map(|number| Fault { pass: 2, place, number }));
    }
    for lut in &sheet.luts {
        let number = lut_fault(graph, lut);
        faults.extend(number.map(|number| Fault { pass: 3, place: lut.root, number }));
    }
    for place in graph.gates().filter(|&gate| is_listed_wrongly(graph, &sheet.luts, gate)) {
        faults.insert(Fault { pass: 4, place, number: 28 });
    }
    if !depths_are_equal(graph, &labels, sheet) {
        faults.insert(Fault { pass: 5, place: 0, number: 30 });
    }
    faults
}

fn line_faults(graph: &Graph, labels: &[usize], gate: usize, line: &Line) -> Vec<u32> {
    let greatest = |nodes: &[usize]| nodes.iter().map(|&node| labels[node]).max();
    let p = greatest(graph.fanins(gate)).expect("a gate has a fanin");
    let tests = [
        (25, is_cut(graph, gate, &line.leaves)),
        (26, greatest(&line.leaves) == line.label.checked_sub(1)),
        (26, line.label == p || line.label == p + 1),
        (27, paths_hold(graph, labels, gate, p, &line.paths)),
    ];
    tests.iter().filter(|(_, holds)| !holds).map(|&(number, _)| number).collect()
}

/// By a sweep against the order: what a gate of the cone reads is met, and a gate that is met and
/// no leaf is in the cone. What is met outside the cone must be the leaves.
fn is_cut(graph: &Graph, gate: usize, leaves: &[usize]) -> bool {
    let leaves = NodeSet::from(leaves);
    let mut cone = NodeSet::only(gate);
    let mut met = graph.fanin_set(gate);
    for &node in graph.order().iter().rev() {
        if met.contains(node) && !leaves.contains(node) {
            cone.insert(node);
            met = met.union(graph.fanin_set(node));
        }
    }
    met.without(cone) == leaves && leaves.len() <= graph.k()
}

/// Evidence where the label is one more than p, and p not 0; nothing where it is not. A path that
/// is followed back from a fanin of D stays behind the gate.
fn paths_hold(
    graph: &Graph,
    labels: &[usize],
    gate: usize,
    p: usize,
    paths: &[Vec<usize>],
) -> bool {
    if p == 0 || labels[gate] != p + 1 {
        return paths.is_empty();
    }
    let in_d =
        |node: usize| node == gate || (graph.behind(gate).contains(node) && labels[node] == p);
    let read_by_d = |node: usize| {
        graph.gates().any(|member| in_d(member) && graph.fanins(member).contains(&node))
    };
    let holds = |path: &Vec<usize>| match path.split_last() {
        Some((&last, before)) => {
            read_by_d(last)
                && !path.iter().any(|&node| in_d(node))
                && back_from(graph, last, before).map_or(false, |first| graph.is_input(first))
        }
        None => false,
    };
    let on_paths: NodeSet = paths.iter().flatten().copied().collect();
    paths.len() == graph.k() + 1
        && paths.iter().all(holds)
        && on_paths.len() == paths.iter().map(Vec::len).sum()
}

/// Where one comes from a node by going back through these, the last of them first, each a fanin
/// of the one after it.
fn back_from(graph: &Graph, node: usize, before: &[usize]) -> Option<usize> {
    before.iter().rev().try_fold(node, |reader, &fanin| {
        let is_fanin = graph.fanins(reader).contains(&fanin);
        is_fanin.then_some(fanin)
    })
}

fn lut_fault(graph: &Graph, lut: &Lut) -> Option<u32> {
    if !is_cut(graph, lut.root, &lut.leaves) {
        return Some(25);
    }
    let rows = 1 << lut.leaves.len();
    let row_holds = |row: usize| bit(lut.rows, row) == (row < rows && value(graph, lut, row));
    (!(0..64).all(row_holds)).then_some(29)
}

/// The root's value when the leaves have the row's bits.
fn value(graph: &Graph, lut: &Lut, row: usize) -> bool {
    let mut values = vec![None; graph.nodes()];
    for (i, &leaf) in lut.leaves.iter().enumerate() {
        values[leaf] = Some(row >> i & 1 == 1);
    }
    value_at(graph, lut.root, &mut values)
}

fn value_at(graph: &Graph, node: usize, values: &mut [Option<bool>]) -> bool {
    if let Some(value) = values[node] {
        return value;
    }
    let mut row = 0;
    for (i, &fanin) in graph.fanins(node).iter().enumerate() {
        row |= usize::from(value_at(graph, fanin, values)) << i;
    }
    let value = bit(graph.rows(node), row);
    values[node] = Some(value);
    value
}

/// Whether a gate is a root and nobody asks for it, or the other way about.
fn is_listed_wrongly(graph: &Graph, luts: &[Lut], gate: usize) -> bool {
    let is_root = luts.iter().any(|lut| lut.root == gate);
    let is_leaf = luts.iter().any(|lut| lut.leaves.contains(&gate));
    is_root != (is_leaf || graph.table.outputs.contains(&gate))
}

/// Whether the outputs arrive after as many LUTs as the head says and no fewer, and the greatest
/// of their labels is as much.
fn depths_are_equal(graph: &Graph, labels: &[usize], sheet: &Sheet) -> bool {
    let outputs = NodeSet::from(&graph.table.outputs[..]);
    let arrive_after = |depth: usize| outputs.is_within(arrived(graph, &sheet.luts, depth));
    outputs.rising().map(|output| labels[output]).max() == Some(sheet.depth)
        && arrive_after(sheet.depth)
        && (sheet.depth == 0 || !arrive_after(sheet.depth - 1))
}

/// The inputs, and the roots whose depth is at most so much.
fn arrived(graph: &Graph, luts: &[Lut], depth: usize) -> NodeSet {
    let mut arrived: NodeSet = (0..graph.table.inputs).collect();
    for _ in 0..depth {
        let next = luts.iter().filter(|lut| NodeSet::from(&lut.leaves[..]).is_within(arrived));
        arrived = arrived.union(next.map(|lut| lut.root).collect());
    }
    arrived
}
