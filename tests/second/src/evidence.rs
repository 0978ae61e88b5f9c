//! Evidence that a label is p + 1.

use crate::flow::{ends, flow};
use crate::graph::Graph;
use crate::labels::{d, p};
use crate::nodes::NodeSet;

/// Whether a gate's label wants evidence: it is p + 1, and p is at least 1.
pub fn is_due(graph: &Graph, labels: &[usize], gate: usize) -> bool {
    let p = p(graph, labels, gate);
    p >= 1 && labels[gate] == p + 1
}

/// Whether the paths are evidence: there are K + 1; each starts at an input, goes from fanin to
/// gate, stays behind the gate and outside D, and its last node is a fanin of a member of D; no
/// node is on two of them or twice on one.
pub fn is_evidence(graph: &Graph, labels: &[usize], gate: usize, paths: &[Vec<usize>]) -> bool {
    let d = d(graph, labels, gate);
    let region = graph.behind(gate).without(d);
    let ends = ends(graph, d);
    paths.len() == graph.k() + 1
        && paths.iter().all(|path| {
            starts_at_input(graph, path)
                && goes_from_fanin_to_gate(graph, path)
                && path.iter().all(|&node| region.contains(node))
                && path.last().map_or(false, |&last| ends.contains(last))
        })
        && no_node_twice(paths)
}

fn starts_at_input(graph: &Graph, path: &[usize]) -> bool {
    path.first().map_or(false, |&first| graph.is_input(first))
}

fn goes_from_fanin_to_gate(graph: &Graph, path: &[usize]) -> bool {
    path.windows(2).all(|step| graph.fanins(step[1]).contains(&step[0]))
}

fn no_node_twice(paths: &[Vec<usize>]) -> bool {
    let mut met = NodeSet::default();
    paths.iter().flatten().all(|&node| met.insert(node))
}

/// Some evidence for a gate whose label wants it.
pub fn evidence(graph: &Graph, labels: &[usize], gate: usize) -> Vec<Vec<usize>> {
    let wanted = graph.k() + 1;
    let paths = flow(graph, gate, d(graph, labels, gate), wanted).paths;
    assert_eq!(paths.len(), wanted, "the label of {gate} wants evidence and has none");
    paths
}

#[cfg(test)]
mod tests {
    use super::*;
    use crate::drawings::named;
    use crate::labels::by_flow;
    use crate::table::{Gate, Table};

    /// Two chains, from 0 and from 1, meet in 7; 2 joins in 8 and 3 in 9.
    fn chains() -> Graph {
        let gate = |fanins: &[usize]| Gate { fanins: fanins.to_vec(), rows: 1 };
        let gates = vec![
            gate(&[0]),    // 4
            gate(&[4]),    // 5
            gate(&[1]),    // 6
            gate(&[5, 6]), // 7
            gate(&[7, 2]), // 8
            gate(&[8, 3]), // 9
        ];
        Graph::new(Table { k: 2, inputs: 4, gates, outputs: vec![9] }).unwrap()
    }

    #[test]
    fn p1_wants_evidence_at_6_alone() {
        let graph = Graph::new(named("P1")).unwrap();
        let labels = by_flow(&graph).labels;
        let due: Vec<usize> = graph.gates().filter(|&gate| is_due(&graph, &labels, gate)).collect();
        assert_eq!(due, [6]);
        assert_eq!(evidence(&graph, &labels, 6), [[0], [1], [2], [3]]);
    }

    #[test]
    fn evidence_of_the_chains() {
        let graph = chains();
        let labels = by_flow(&graph).labels;
        assert_eq!(labels[4..], [1, 1, 1, 1, 2, 3]);
        assert!(!is_due(&graph, &labels, 7), "p is 1 and so is the label");
        assert_eq!(d(&graph, &labels, 8).list(), [4, 5, 6, 7, 8]);
        assert!(is_evidence(&graph, &labels, 8, &[vec![0], vec![1], vec![2]]));
        assert_eq!(d(&graph, &labels, 9).list(), [8, 9]);
        assert!(is_due(&graph, &labels, 9));
        let made = evidence(&graph, &labels, 9);
        assert!(is_evidence(&graph, &labels, 9, &made), "{made:?}");
    }

    #[test]
    fn true_and_false_paths() {
        let graph = chains();
        let labels = by_flow(&graph).labels;
        let holds = |paths: &[&[usize]]| {
            let paths: Vec<Vec<usize>> = paths.iter().map(|path| path.to_vec()).collect();
            is_evidence(&graph, &labels, 9, &paths)
        };
        assert!(holds(&[&[0, 4, 5, 7], &[2], &[3]]));
        assert!(holds(&[&[3], &[1, 6, 7], &[2]]), "in any order");
        assert!(!holds(&[&[0, 4, 5, 7], &[2]]), "two paths");
        assert!(!holds(&[&[0, 4, 5, 7], &[2], &[3], &[1]]), "four paths");
        assert!(!holds(&[&[0, 4, 5, 7], &[1, 6, 7], &[3]]), "7 is on two paths");
        assert!(!holds(&[&[2], &[2], &[3]]), "2 is on two paths");
        assert!(!holds(&[&[4, 5, 7], &[2], &[3]]), "4 is no input");
        assert!(!holds(&[&[0, 5, 7], &[2], &[3]]), "0 is no fanin of 5");
        assert!(!holds(&[&[0, 4, 5], &[2], &[3]]), "5 is no fanin of 8 or 9");
        assert!(!holds(&[&[0, 4, 5, 7, 8], &[2], &[3]]), "8 is in D");
        assert!(!holds(&[&[0, 4, 5, 7], &[2], &[]]), "a path has a node");
    }

    #[test]
    fn a_path_stays_behind_the_gate() {
        let gate = |fanins: &[usize]| Gate { fanins: fanins.to_vec(), rows: 1 };
        let gates = vec![gate(&[0, 1]), gate(&[4, 2]), gate(&[3]), gate(&[4, 6])];
        let table = Table { k: 2, inputs: 4, gates, outputs: vec![5, 7] };
        let graph = Graph::new(table).unwrap();
        let labels = by_flow(&graph).labels;
        assert_eq!(labels[4..], [1, 2, 1, 2]);
        assert!(is_evidence(&graph, &labels, 5, &[vec![0], vec![1], vec![2]]));
        assert!(!is_evidence(&graph, &labels, 5, &[vec![0], vec![1], vec![3]]));
        assert!(is_evidence(&graph, &labels, 7, &[vec![0], vec![1], vec![3]]));
        assert!(!is_evidence(&graph, &labels, 7, &[vec![0], vec![1], vec![2]]));
    }

    #[test]
    fn a_node_stands_once_on_a_path() {
        // Going from fanin to gate never returns without a loop, so only a doubled id can repeat.
        assert!(!no_node_twice(&[vec![0, 4, 4]]));
        assert!(!no_node_twice(&[vec![0, 4], vec![1, 4]]));
        assert!(no_node_twice(&[vec![0, 4], vec![1, 5]]));
    }
}
