//! False labels, with all else to match.

use super::evidence::made_up;
use super::some_gate;
use crate::inspecting::CUT_LIMIT;
use crate::mapped::Mapped;
use second::cuts::lean_cuts;
use second::evidence::is_due;
use second::flow::flow;
use second::graph::Graph;
use second::labels::{d, p};
use second::mapping::{cover, cover_depth};
use second::nodes::NodeSet;
use second::random::Random;
use second::sheet::{Line, Sheet};

/// A label and a cut by node.
type Choices = (Vec<usize>, Vec<NodeSet>);

/// A sheet that fits these labels and cuts; where its evidence is due and there is none, it is made
/// up.
fn drawn_up(graph: &Graph, (labels, cuts): &Choices, random: &mut Random) -> Sheet {
    let mut lines = Vec::new();
    for gate in graph.gates() {
        let paths = match is_due(graph, labels, gate) {
            true => made_up(graph, labels, gate, random),
            false => Vec::new(),
        };
        lines.push(Line { label: labels[gate], leaves: cuts[gate].list(), paths });
    }
    let luts = cover(graph, cuts);
    Sheet { depth: cover_depth(graph, &luts), lines, luts }
}

/// A label and a cut for each gate, fanins first, by a rule that knows what is behind the gate.
fn chosen(graph: &Graph, rule: impl Fn(&[usize], usize) -> (usize, NodeSet)) -> Choices {
    let mut labels = vec![0; graph.nodes()];
    let mut cuts = vec![NodeSet::default(); graph.nodes()];
    for &gate in graph.order() {
        let (label, cut) = rule(&labels, gate);
        labels[gate] = label;
        cuts[gate] = cut;
    }
    (labels, cuts)
}

/// The label and the cut that are due if the labels behind the gate are true.
fn honest(graph: &Graph, labels: &[usize], gate: usize) -> (usize, NodeSet) {
    let p = p(graph, labels, gate);
    if p == 0 {
        return (1, graph.fanin_set(gate));
    }
    match flow(graph, gate, d(graph, labels, gate), graph.k() + 1).nearest {
        Some(cut) => (p, cut),
        None => (p + 1, graph.fanin_set(gate)),
    }
}

/// The label that is one more than p, with the fanins as its cut.
fn unpacked(graph: &Graph, labels: &[usize], gate: usize) -> (usize, NodeSet) {
    (p(graph, labels, gate) + 1, graph.fanin_set(gate))
}

/// One gate is not packed, though it could be; all others are as they must be after it.
pub fn too_high(mapped: &Mapped, random: &mut Random) -> Option<Sheet> {
    let (graph, labels) = (&mapped.graph, &mapped.labelled.labels);
    let liar = some_gate(graph, random, |gate| p(graph, labels, gate) == labels[gate])?;
    let choices = chosen(graph, |labels, gate| match gate == liar {
        true => unpacked(graph, labels, gate),
        false => honest(graph, labels, gate),
    });
    Some(drawn_up(graph, &choices, random))
}

/// No gate is packed: every label is wrong that is not the gate's level.
pub fn never_packed(mapped: &Mapped, random: &mut Random) -> Option<Sheet> {
    let graph = &mapped.graph;
    let choices = chosen(graph, |labels, gate| unpacked(graph, labels, gate));
    (choices.0 != mapped.labelled.labels).then(|| drawn_up(graph, &choices, random))
}

/// One gate says p where its label is p + 1, with K of the nodes that its paths end in; all others
/// are as they must be after it.
pub fn too_low(mapped: &Mapped, random: &mut Random) -> Option<Sheet> {
    let (graph, labels) = (&mapped.graph, &mapped.labelled.labels);
    let liar = some_gate(graph, random, |gate| is_due(graph, labels, gate))?;
    let paths = &mapped.sheet.lines[liar - graph.table.inputs].paths;
    let ends = paths.iter().filter_map(|path| path.last().copied());
    let leaves: NodeSet = ends.take(graph.k()).collect();
    let choices = chosen(graph, |labels, gate| match gate == liar {
        true => (p(graph, labels, gate), leaves),
        false => honest(graph, labels, gate),
    });
    Some(drawn_up(graph, &choices, random))
}

/// Labels that were drawn, and then again and again set to what one of the gate's cuts shows, where
/// that is p or p + 1. Gates may be judged before those behind them, whose labels are as false.
pub fn that_fit_each_other(mapped: &Mapped, random: &mut Random) -> Option<Sheet> {
    let graph = &mapped.graph;
    let lists = lean_cuts(graph, CUT_LIMIT)?;
    let is_gate = |node: usize| !graph.is_input(node);
    let mut labels: Vec<usize> = (0..graph.nodes())
        .map(|node| if is_gate(node) { random.between(1, 3) } else { 0 })
        .collect();
    let mut cuts: Vec<NodeSet> = (0..graph.nodes()).map(|node| graph.fanin_set(node)).collect();
    for _ in 0..random.between(1, 4) {
        for gate in graph.gates() {
            let cut = *random.pick(&lists[gate]);
            let shown = 1 + cut.rising().map(|leaf| labels[leaf]).max()?;
            let p = p(graph, &labels, gate);
            if shown == p || shown == p + 1 {
                labels[gate] = shown;
                cuts[gate] = cut;
            }
        }
    }
    (labels != mapped.labelled.labels).then(|| drawn_up(graph, &(labels, cuts), random))
}
