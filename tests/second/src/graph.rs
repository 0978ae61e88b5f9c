//! The drawing as a graph: its edges run from fanin to gate.

use crate::nodes::NodeSet;
use crate::table::{read, Table};
use crate::{Refused, LOOP};
use std::ops::Range;

/// The fanins of a node in the order of the file. An input has none.
pub fn fanins(table: &Table, node: usize) -> &[usize] {
    match node.checked_sub(table.inputs) {
        Some(at) => &table.gates[at].fanins,
        None => &[],
    }
}

/// For each node, the nodes that are met by going to its fanins, to theirs, and so on. The node
/// itself is one of them only if it is on a loop. Sweeps over the gates go on until one finds
/// nothing new.
pub fn behind(table: &Table) -> Vec<NodeSet> {
    let mut behind = vec![NodeSet::default(); table.inputs + table.gates.len()];
    loop {
        let before = behind.clone();
        for gate in gates(table) {
            for &fanin in fanins(table, gate) {
                behind[gate].insert(fanin);
                behind[gate] = behind[gate].union(behind[fanin]);
            }
        }
        if behind == before {
            return behind;
        }
    }
}

/// The lowest gate that reaches itself along fanins, wherever it stands in the drawing.
pub fn lowest_loop(table: &Table) -> Option<usize> {
    lowest_behind_itself(&behind(table))
}

fn lowest_behind_itself(behind: &[NodeSet]) -> Option<usize> {
    (0..behind.len()).find(|&node| behind[node].contains(node))
}

fn gates(table: &Table) -> Range<usize> {
    table.inputs..table.inputs + table.gates.len()
}

/// A drawing without loops.
#[derive(Clone, Debug)]
pub struct Graph {
    pub table: Table,
    behind: Vec<NodeSet>,
    order: Vec<usize>,
}

impl Graph {
    /// The graph of a table, or the lowest gate on a loop.
    pub fn new(table: Table) -> Result<Graph, usize> {
        let behind = behind(&table);
        if let Some(gate) = lowest_behind_itself(&behind) {
            return Err(gate);
        }
        // What is behind a fanin is behind its gate, and the fanin itself is one more.
        let mut order: Vec<usize> = gates(&table).collect();
        order.sort_by_key(|&gate| behind[gate].len());
        Ok(Graph { table, behind, order })
    }

    /// The graph of a table as bytes, or the refusals 1 to 7.
    pub fn read(bytes: &[u8]) -> Result<Graph, Refused> {
        let reading = read(bytes).table();
        let table = reading.map_err(|refusal| (refusal.fault.number(), refusal.place))?;
        Graph::new(table).map_err(|gate| (LOOP, gate))
    }

    pub fn k(&self) -> usize {
        self.table.k
    }

    /// The number of nodes, the paper's n.
    pub fn nodes(&self) -> usize {
        self.behind.len()
    }

    /// The ids of the gates, rising.
    pub fn gates(&self) -> Range<usize> {
        gates(&self.table)
    }

    pub fn is_input(&self, node: usize) -> bool {
        node < self.table.inputs
    }

    /// The fanins of a node in the order of the file.
    pub fn fanins(&self, node: usize) -> &[usize] {
        fanins(&self.table, node)
    }

    /// The distinct fanins of a node.
    pub fn fanin_set(&self, node: usize) -> NodeSet {
        NodeSet::from(self.fanins(node))
    }

    /// The function table of a gate.
    pub fn rows(&self, gate: usize) -> u64 {
        self.table.gates[gate - self.table.inputs].rows
    }

    /// The nodes behind a node, the node itself not among them.
    pub fn behind(&self, node: usize) -> NodeSet {
        self.behind[node]
    }

    /// The gates, each after all that are behind it.
    pub fn order(&self) -> &[usize] {
        &self.order
    }
}

#[cfg(test)]
mod tests {
    use super::*;
    use crate::drawings::{named, paper};
    use crate::random::{shapes, Random};
    use crate::table::Gate;

    #[test]
    fn loops_of_the_paper() {
        for drawing in paper() {
            let expected = match drawing.name {
                "P8" => Some(1),
                "P9" => Some(2),
                _ => None,
            };
            assert_eq!(lowest_loop(&drawing.table), expected, "{}", drawing.name);
        }
    }

    #[test]
    fn a_loop_that_no_output_sees_counts() {
        let mut table = named("P9");
        table.outputs = vec![0];
        assert_eq!(lowest_loop(&table), Some(2));
    }

    #[test]
    fn behind_the_gates_of_p4() {
        let graph = Graph::new(named("P4")).unwrap();
        assert_eq!(graph.behind(0).list(), []);
        assert_eq!(graph.behind(6).list(), [0, 1, 4]);
        assert_eq!(graph.behind(9).list(), [0, 1, 2, 3, 4, 5, 6, 7, 8]);
    }

    /// The nodes met by a search from one node.
    fn met_from(table: &Table, node: usize) -> NodeSet {
        let mut met = NodeSet::default();
        let mut due = fanins(table, node).to_vec();
        while let Some(next) = due.pop() {
            if met.insert(next) {
                due.extend(fanins(table, next));
            }
        }
        met
    }

    #[test]
    fn sweeps_find_what_a_search_finds() {
        let mut random = Random::seeded(8);
        let mut loops = 0;
        for _ in 0..1_000 {
            let nodes = random.between(1, 60);
            let table = shapes::any(nodes, &mut random);
            let behind = behind(&table);
            assert!((0..behind.len()).all(|node| behind[node] == met_from(&table, node)));
            let looped = gates(&table).find(|&gate| met_from(&table, gate).contains(gate));
            assert_eq!(lowest_loop(&table), looped);
            loops += usize::from(looped.is_some());
        }
        assert!(loops > 50, "{loops}");
    }

    #[test]
    fn an_order_has_each_gate_after_what_is_behind_it() {
        let mut random = Random::seeded(9);
        for _ in 0..300 {
            let nodes = random.between(1, 60);
            if let Ok(graph) = Graph::new(shapes::any(nodes, &mut random)) {
                let mut known: NodeSet = (0..graph.table.inputs).collect();
                for &gate in graph.order() {
                    assert!(graph.fanin_set(gate).is_within(known));
                    assert!(known.insert(gate));
                }
                assert_eq!(known.len(), graph.nodes());
            }
        }
    }

    #[test]
    fn the_order_of_a_chain_that_is_numbered_backwards() {
        let reads = |node: usize| Gate { fanins: vec![node], rows: 1 };
        let gates = vec![reads(2), reads(3), reads(0)];
        let table = Table { k: 2, inputs: 1, gates, outputs: vec![1] };
        assert_eq!(Graph::new(table).unwrap().order(), [3, 2, 1]);
    }

    #[test]
    fn bytes_are_refused_with_the_papers_numbers() {
        assert_eq!(Graph::read(&[]).unwrap_err(), (1, 0));
        assert_eq!(Graph::read(&named("P8").bytes()).unwrap_err(), (7, 1));
        assert_eq!(Graph::read(&named("P9").bytes()).unwrap_err(), (7, 2));
        assert!(Graph::read(&named("P1").bytes()).is_ok());
    }
}
