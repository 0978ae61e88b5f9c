//! The cover of LUTs that the mapper makes, its depths, and the values of gates and LUTs.

use crate::cuts::{function, gate_word};
use crate::graph::Graph;
use crate::nodes::NodeSet;
use crate::words::apply;

/// A lookup table: a root gate, the leaves of a cut of it in rising order, and a function table.
#[derive(Clone, Debug, PartialEq, Eq)]
pub struct Lut {
    pub root: usize,
    pub leaves: Vec<usize>,
    pub rows: u64,
}

/// The LUTs of the output gates, then of their gate leaves, and so back to the inputs, each root
/// with its cut from the list. Roots rise.
pub fn cover(graph: &Graph, cuts: &[NodeSet]) -> Vec<Lut> {
    let mut roots = NodeSet::default();
    let mut due = graph.table.outputs.clone();
    while let Some(node) = due.pop() {
        if !graph.is_input(node) && roots.insert(node) {
            due.extend(cuts[node].rising());
        }
    }
    roots.rising().map(|root| lut(graph, root, cuts[root])).collect()
}

/// The LUT of a root and a cut of it, with its cone's function.
pub fn lut(graph: &Graph, root: usize, leaves: NodeSet) -> Lut {
    Lut { root, leaves: leaves.list(), rows: function(graph, root, leaves) }
}

/// The depth of each node: 0 at an input, 1 + the greatest leaf depth at a root. A gate that is
/// no root has none. Every gate that is a leaf must be a root.
pub fn depths(graph: &Graph, luts: &[Lut]) -> Vec<Option<usize>> {
    by_node(graph, luts, &vec![0; graph.table.inputs], |_, leaf_depths| {
        1 + leaf_depths.iter().max().expect("a cut has a leaf")
    })
}

/// The greatest depth over the outputs.
pub fn cover_depth(graph: &Graph, luts: &[Lut]) -> usize {
    let depths = depths(graph, luts);
    let at_outputs = graph.table.outputs.iter().map(|&output| depths[output]);
    at_outputs.map(|depth| depth.expect("an output is a root")).max().expect("there is an output")
}

/// The values of all nodes by the gates, for 64 settings of the inputs at once.
pub fn gate_words(graph: &Graph, input_words: &[u64]) -> Vec<u64> {
    let mut words = input_words.to_vec();
    words.resize(graph.nodes(), 0);
    for &gate in graph.order() {
        words[gate] = gate_word(graph, gate, &words);
    }
    words
}

/// The values of inputs and roots by the LUTs, for 64 settings of the inputs at once. A gate that
/// is no root has none.
pub fn lut_words(graph: &Graph, luts: &[Lut], input_words: &[u64]) -> Vec<Option<u64>> {
    by_node(graph, luts, input_words, |lut, leaf_words| apply(lut.rows, leaf_words))
}

/// What each input is given, and each root has by a rule from what its leaves have.
fn by_node<What: Copy>(
    graph: &Graph,
    luts: &[Lut],
    given: &[What],
    rule: impl Fn(&Lut, &[What]) -> What,
) -> Vec<Option<What>> {
    let mut found: Vec<Option<What>> = given.iter().copied().map(Some).collect();
    found.resize(graph.nodes(), None);
    for &gate in graph.order() {
        if let Some(lut) = luts.iter().find(|lut| lut.root == gate) {
            let leaves = lut.leaves.iter();
            let known = leaves.map(|&leaf| found[leaf].expect("a leaf is an input or a root"));
            let at_leaves: Vec<What> = known.collect();
            found[gate] = Some(rule(lut, &at_leaves));
        }
    }
    found
}

#[cfg(test)]
mod tests {
    use super::*;
    use crate::drawings::{named, paper};
    use crate::labels::by_flow;
    use crate::words::ROW_WORDS;

    fn mapped(name: &str) -> (Graph, Vec<Lut>) {
        let graph = Graph::new(named(name)).unwrap();
        let luts = cover(&graph, &by_flow(&graph).cuts);
        (graph, luts)
    }

    fn lut(root: usize, leaves: &[usize], rows: u64) -> Lut {
        Lut { root, leaves: leaves.to_vec(), rows }
    }

    #[test]
    fn luts_of_the_paper() {
        let luts = |name: &str| mapped(name).1;
        assert_eq!(luts("P1"), [lut(4, &[0, 1], 8), lut(5, &[2, 3], 8), lut(6, &[4, 5], 0xE)]);
        assert_eq!(luts("P2"), [lut(6, &[0, 1, 2, 3], 0xF888)]);
        assert_eq!(luts("P3"), [lut(3, &[0, 1], 0xA)]);
        assert_eq!(luts("P4"), [lut(4, &[0, 1], 8), lut(5, &[2, 3], 8), lut(9, &[4, 5], 0xE)]);
        assert_eq!(luts("P6"), [lut(1, &[0], 2)]);
        assert_eq!(luts("P7"), []);
    }

    #[test]
    fn depths_of_the_paper() {
        let (graph, luts) = mapped("P4");
        let expected = [0, 0, 0, 0, 1, 1].map(Some).into_iter().chain([None, None, None, Some(2)]);
        assert_eq!(depths(&graph, &luts), expected.collect::<Vec<_>>());
        for (name, depth) in [("P1", 2), ("P2", 1), ("P5 at K 2", 2), ("P5 at K 3", 1), ("P7", 0)] {
            let (graph, luts) = mapped(name);
            assert_eq!(cover_depth(&graph, &luts), depth, "{name}");
        }
    }

    #[test]
    fn gates_and_luts_agree_in_every_setting() {
        for drawing in paper() {
            let graph = match Graph::new(drawing.table) {
                Ok(graph) => graph,
                Err(_) => continue,
            };
            let luts = cover(&graph, &by_flow(&graph).cuts);
            let input_words = &ROW_WORDS[..graph.table.inputs];
            let by_gates = gate_words(&graph, input_words);
            let by_luts = lut_words(&graph, &luts, input_words);
            for &output in &graph.table.outputs {
                assert_eq!(by_luts[output], Some(by_gates[output]), "{}", drawing.name);
            }
        }
    }

    #[test]
    fn values_of_p1() {
        let (graph, luts) = mapped("P1");
        let by_gates = gate_words(&graph, &ROW_WORDS[..4]);
        assert_eq!(by_gates[6] & 0xFFFF, 0xF888);
        assert_eq!(lut_words(&graph, &luts, &ROW_WORDS[..4])[6], Some(by_gates[6]));
    }
}
