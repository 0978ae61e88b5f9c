//! Cuts and cones: the paper's definition of a cut, and all cuts of each gate by enumeration.

use crate::graph::Graph;
use crate::nodes::NodeSet;
use crate::table::row_mask;
use crate::words::{apply, ROW_WORDS};
use std::collections::BTreeSet;

/// What the walk back from a gate meets when it stops at a set of leaves.
#[derive(Clone, Copy, Debug, PartialEq, Eq)]
pub struct Walk {
    /// The gates walked, the gate itself included.
    pub cone: NodeSet,
    /// The leaves met.
    pub leaves: NodeSet,
    /// The inputs met that are no leaves.
    pub strays: NodeSet,
}

/// Walks back from a gate through fanins, stopping at the leaves. The walk starts at the gate's
/// fanins.
pub fn walk(graph: &Graph, gate: usize, leaves: NodeSet) -> Walk {
    let mut walk =
        Walk { cone: NodeSet::only(gate), leaves: NodeSet::default(), strays: NodeSet::default() };
    let mut due = graph.fanins(gate).to_vec();
    while let Some(node) = due.pop() {
        if leaves.contains(node) {
            walk.leaves.insert(node);
        } else if graph.is_input(node) {
            walk.strays.insert(node);
        } else if walk.cone.insert(node) {
            due.extend(graph.fanins(node));
        }
    }
    walk
}

/// Whether the leaves are a cut of the gate: the walk meets no input that is not a leaf, meets
/// every leaf, and there are 1 to K leaves.
pub fn is_cut(graph: &Graph, gate: usize, leaves: NodeSet) -> bool {
    let met = walk(graph, gate, leaves);
    met.strays.is_empty() && met.leaves == leaves && (1..=graph.k()).contains(&leaves.len())
}

/// The gates walked from a gate to the leaves of a cut, the gate included.
pub fn cone(graph: &Graph, gate: usize, leaves: NodeSet) -> NodeSet {
    walk(graph, gate, leaves).cone
}

/// The function table of a cut's cone, with the leaves in rising order as its rows' bits. Each
/// gate of the cone is worked out once.
pub fn function(graph: &Graph, gate: usize, leaves: NodeSet) -> u64 {
    let cone = cone(graph, gate, leaves);
    let mut words = vec![0; graph.nodes()];
    for (leaf, word) in leaves.rising().zip(ROW_WORDS) {
        words[leaf] = word;
    }
    for &walked in graph.order().iter().filter(|&&walked| cone.contains(walked)) {
        words[walked] = gate_word(graph, walked, &words);
    }
    words[gate] & row_mask(leaves.len())
}

/// A gate's word from the words of all nodes, of which those of its fanins are worked out.
pub fn gate_word(graph: &Graph, gate: usize, words: &[u64]) -> u64 {
    let fanin_words: Vec<u64> = graph.fanins(gate).iter().map(|&fanin| words[fanin]).collect();
    apply(graph.rows(gate), &fanin_words)
}

/// The cuts of each node. An input has none.
pub type CutLists = Vec<Vec<NodeSet>>;

/// All cuts of every gate, or nothing if some gate has more than the limit on the way to them.
pub fn all_cuts(graph: &Graph, limit: usize) -> Option<CutLists> {
    enumerate(graph, limit, |unions| unions.into_iter().collect())
}

/// The cuts of every gate that contain no smaller cut of it, or nothing if some gate has more
/// than the limit on the way to them.
pub fn lean_cuts(graph: &Graph, limit: usize) -> Option<CutLists> {
    enumerate(graph, limit, lean)
}

type Keep = fn(BTreeSet<NodeSet>) -> Vec<NodeSet>;

fn enumerate(graph: &Graph, limit: usize, keep: Keep) -> Option<CutLists> {
    let mut lists: CutLists = vec![Vec::new(); graph.nodes()];
    for &gate in graph.order() {
        let mut unions = vec![NodeSet::default()];
        for fanin in graph.fanin_set(gate).rising() {
            unions = keep(merge(graph.k(), &unions, fanin, &lists[fanin]));
            if unions.len() > limit {
                return None;
            }
        }
        // A leaf of one fanin's cut may be hidden behind a leaf of another's.
        unions.retain(|&leaves| is_cut(graph, gate, leaves));
        lists[gate] = unions;
    }
    Some(lists)
}

/// The sets of at most K leaves that join one of the unions with the fanin itself, or with one of
/// its cuts. Every cut of a gate joins such parts, one for each fanin: those of its leaves that
/// the walk from the fanin meets.
fn merge(k: usize, unions: &[NodeSet], fanin: usize, cuts: &[NodeSet]) -> BTreeSet<NodeSet> {
    let itself = NodeSet::only(fanin);
    unions
        .iter()
        .flat_map(|union| cuts.iter().chain([&itself]).map(|&part| union.union(part)))
        .filter(|leaves| leaves.len() <= k)
        .collect()
}

/// The sets that contain no other of them.
fn lean(unions: BTreeSet<NodeSet>) -> Vec<NodeSet> {
    let mut by_size: Vec<NodeSet> = unions.into_iter().collect();
    by_size.sort_by_key(|leaves| leaves.len());
    let mut kept: Vec<NodeSet> = Vec::new();
    for leaves in by_size {
        if !kept.iter().any(|smaller| smaller.is_within(leaves)) {
            kept.push(leaves);
        }
    }
    kept
}

#[cfg(test)]
mod tests {
    use super::*;
    use crate::drawings::{named, paper};
    use crate::random::{shapes, Random};
    use crate::table::{Gate, Table};

    const LIMIT: usize = 5_000;

    fn set(nodes: &[usize]) -> NodeSet {
        NodeSet::from(nodes)
    }

    fn graph(name: &str) -> Graph {
        Graph::new(named(name)).unwrap()
    }

    #[test]
    fn cuts_by_the_definition() {
        let p4 = graph("P4");
        assert!(is_cut(&p4, 9, set(&[8])));
        assert!(is_cut(&p4, 9, set(&[4, 5])));
        assert!(is_cut(&p4, 9, set(&[4, 7])));
        assert!(!is_cut(&p4, 9, set(&[4])), "it meets input 2");
        assert!(!is_cut(&p4, 9, set(&[4, 8])), "it does not meet 4");
        assert!(!is_cut(&p4, 9, set(&[9])), "a gate is never its own leaf");
        assert!(!is_cut(&p4, 9, set(&[0, 1, 5])), "K is 2");
        assert!(!is_cut(&p4, 9, set(&[])));
        assert!(!is_cut(&p4, 4, set(&[0])));
        assert!(!is_cut(&p4, 4, set(&[0, 2])));
    }

    #[test]
    fn cones_and_functions_of_the_paper() {
        let p2 = graph("P2");
        assert_eq!(cone(&p2, 6, set(&[0, 1, 2, 3])).list(), [4, 5, 6]);
        assert_eq!(cone(&p2, 6, set(&[4, 5])).list(), [6]);
        assert_eq!(function(&p2, 6, set(&[0, 1, 2, 3])), 0xF888);
        assert_eq!(function(&p2, 6, set(&[4, 5])), 0xE);
        assert_eq!(function(&graph("P3"), 3, set(&[0, 1])), 0xA);
        assert_eq!(function(&graph("P4"), 9, set(&[4, 5])), 0xE);
        assert_eq!(function(&graph("P6"), 1, set(&[0])), 0x2);
    }

    #[test]
    fn a_chain_of_doubled_gates_is_quick() {
        let gates = (0..191).map(|before| Gate { fanins: vec![before, before], rows: 0x8 });
        let table = Table { k: 2, inputs: 1, gates: gates.collect(), outputs: vec![191] };
        let graph = Graph::new(table).unwrap();
        assert_eq!(function(&graph, 191, set(&[0])), 0x2);
    }

    #[test]
    fn cuts_of_the_paper() {
        let lists = all_cuts(&graph("P4"), LIMIT).unwrap();
        let mut cuts: Vec<Vec<usize>> = lists[9].iter().map(|cut| cut.list()).collect();
        cuts.sort();
        assert_eq!(cuts, [vec![4, 5], vec![4, 7], vec![5, 6], vec![6, 7], vec![8]]);
        assert!(lists[0].is_empty());
        assert_eq!(all_cuts(&graph("P4"), 4), None);
    }

    /// Every set of at most K nodes, tried with the definition.
    fn cuts_by_trial(graph: &Graph, gate: usize) -> BTreeSet<NodeSet> {
        let mut sets = vec![NodeSet::default()];
        for node in 0..graph.nodes() {
            let with_node = sets.iter().map(|nodes| nodes.union(NodeSet::only(node)));
            let grown: Vec<NodeSet> = with_node.filter(|nodes| nodes.len() <= graph.k()).collect();
            sets.extend(grown);
        }
        sets.into_iter().filter(|&leaves| is_cut(graph, gate, leaves)).collect()
    }

    fn assert_enumerated(graph: &Graph) {
        let all = all_cuts(graph, LIMIT).unwrap();
        let lean = lean_cuts(graph, LIMIT).unwrap();
        for gate in graph.gates() {
            let tried = cuts_by_trial(graph, gate);
            assert_eq!(all[gate].iter().copied().collect::<BTreeSet<_>>(), tried);
            assert_eq!(all[gate].len(), tried.len());
            let holds_smaller = |cut: &NodeSet| {
                tried.iter().any(|smaller| smaller != cut && smaller.is_within(*cut))
            };
            let lean_tried = tried.iter().copied().filter(|cut| !holds_smaller(cut));
            let lean_found = lean[gate].iter().copied().collect::<BTreeSet<_>>();
            assert_eq!(lean_found, lean_tried.collect::<BTreeSet<_>>());
        }
    }

    #[test]
    fn enumeration_finds_what_trial_finds() {
        for drawing in paper() {
            if let Ok(graph) = Graph::new(drawing.table) {
                assert_enumerated(&graph);
            }
        }
        let mut random = Random::seeded(1);
        for _ in 0..400 {
            let nodes = 2 + random.below(9);
            if let Ok(graph) = Graph::new(shapes::any(nodes, &mut random)) {
                assert_enumerated(&graph);
            }
        }
    }
}
