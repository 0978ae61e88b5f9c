//! True sheets that the mapper would not make.

use super::shapes::renumbered;
use super::Random;
use crate::cuts::CutLists;
use crate::evidence::{evidence, is_due};
use crate::graph::Graph;
use crate::mapping::{lut, Lut};
use crate::nodes::NodeSet;
use crate::sheet::{Line, Sheet};

/// A sheet with the true labels, and with cuts, evidence and LUTs that are drawn from all that
/// the inspector must accept.
pub fn other_sheet(
    graph: &Graph,
    lists: &CutLists,
    labels: &[usize],
    random: &mut Random,
) -> Sheet {
    let mut paths = other_evidence(graph, labels, random);
    let mut lines = Vec::new();
    for gate in graph.gates() {
        let label = labels[gate];
        let cuts = cuts_within(&lists[gate], labels, label - 1);
        let leaves = random.pick(&cuts).list();
        lines.push(Line { label, leaves, paths: std::mem::take(&mut paths[gate]) });
    }
    let at_outputs = graph.table.outputs.iter().map(|&output| labels[output]);
    let depth = at_outputs.max().expect("there is an output");
    Sheet { depth, lines, luts: other_cover(graph, lists, labels, depth, random) }
}

/// The cuts whose leaves have at most this label. A cut of a gate has no leaves below the gate's
/// label by more than one, so those within its label less one show the label.
fn cuts_within(cuts: &[NodeSet], labels: &[usize], greatest: usize) -> Vec<NodeSet> {
    let is_within = |cut: &&NodeSet| cut.rising().all(|leaf| labels[leaf] <= greatest);
    cuts.iter().filter(is_within).copied().collect()
}

/// A cover of this depth: from the outputs back, each root takes some cut that leaves its readers
/// in time.
fn other_cover(
    graph: &Graph,
    lists: &CutLists,
    labels: &[usize],
    depth: usize,
    random: &mut Random,
) -> Vec<Lut> {
    let mut latest: Vec<Option<usize>> = vec![None; graph.nodes()];
    for &output in &graph.table.outputs {
        latest[output] = Some(depth);
    }
    let mut luts = Vec::new();
    for &root in graph.order().iter().rev() {
        if let Some(due) = latest[root] {
            let cuts = cuts_within(&lists[root], labels, due - 1);
            let leaves = *random.pick(&cuts);
            for leaf in leaves.rising() {
                latest[leaf] = Some(latest[leaf].map_or(due - 1, |before| before.min(due - 1)));
            }
            luts.push(lut(graph, root, leaves));
        }
    }
    luts.sort_by_key(|lut| lut.root);
    luts
}

/// The evidence of each node whose label wants it, as it is found under other ids.
fn other_evidence(graph: &Graph, labels: &[usize], random: &mut Random) -> Vec<Vec<Vec<usize>>> {
    let new_ids = new_ids(graph, random);
    let mut old_ids = vec![0; graph.nodes()];
    let mut new_labels = vec![0; graph.nodes()];
    for (old, &new) in new_ids.iter().enumerate() {
        old_ids[new] = old;
        new_labels[new] = labels[old];
    }
    let renamed = Graph::new(renumbered(&graph.table, &new_ids)).expect("it has no loop");
    let mut found = vec![Vec::new(); graph.nodes()];
    for gate in graph.gates().filter(|&gate| is_due(graph, labels, gate)) {
        let mut paths = evidence(&renamed, &new_labels, new_ids[gate]);
        paths.iter_mut().flatten().for_each(|node| *node = old_ids[*node]);
        random.shuffle(&mut paths);
        found[gate] = paths;
    }
    found
}

/// Other ids of the nodes, by old id. Inputs stay inputs.
pub fn new_ids(graph: &Graph, random: &mut Random) -> Vec<usize> {
    let inputs = graph.table.inputs;
    let gates = random.order(graph.nodes() - inputs).into_iter().map(|place| inputs + place);
    random.order(inputs).into_iter().chain(gates).collect()
}
