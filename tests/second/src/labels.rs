//! Labels and the mapper's cuts, in two ways that share no step: from all cuts of each gate, and
//! from the flow.

use crate::cuts::{cone, lean_cuts, CutLists};
use crate::flow::flow;
use crate::graph::Graph;
use crate::nodes::NodeSet;

/// p: the greatest label among a gate's fanins. Labels stand by node, 0 at inputs.
pub fn p(graph: &Graph, labels: &[usize], gate: usize) -> usize {
    graph.fanins(gate).iter().map(|&fanin| labels[fanin]).max().expect("a gate has a fanin")
}

/// D: the gate and the gates behind it with label p.
pub fn d(graph: &Graph, labels: &[usize], gate: usize) -> NodeSet {
    let p = p(graph, labels, gate);
    let gates_behind = graph.behind(gate).rising().filter(|&node| !graph.is_input(node));
    gates_behind.filter(|&node| labels[node] == p).chain([gate]).collect()
}

/// The label and the mapper's cut of each node. An input has label 0 and no leaves.
#[derive(Clone, Debug, PartialEq, Eq)]
pub struct Labelled {
    pub labels: Vec<usize>,
    pub cuts: Vec<NodeSet>,
}

/// A gate's label and the mapper's cut of it.
type Choice = (usize, NodeSet);

impl Labelled {
    /// Labels the gates in order, by a rule that needs the labels behind the gate.
    fn by_rule(graph: &Graph, rule: impl Fn(&[usize], usize) -> Choice) -> Labelled {
        let mut labels = vec![0; graph.nodes()];
        let mut cuts = vec![NodeSet::default(); graph.nodes()];
        for &gate in graph.order() {
            let (label, cut) = rule(&labels, gate);
            labels[gate] = label;
            cuts[gate] = cut;
        }
        Labelled { labels, cuts }
    }
}

/// The most cuts of a gate for which the mapper labels from cuts.
pub const CUT_LIMIT: usize = 60;

/// Labels from the cuts where these are few, and from the flow where they are many.
pub fn labelled(graph: &Graph) -> Labelled {
    match lean_cuts(graph, CUT_LIMIT) {
        Some(lists) => by_cuts(graph, &lists),
        None => by_flow(graph),
    }
}

/// From lists of each gate's cuts. The lean ones are enough, since a cut that contains a smaller
/// one has more leaves and no lower ones.
pub fn by_cuts(graph: &Graph, lists: &CutLists) -> Labelled {
    Labelled::by_rule(graph, |labels, gate| {
        let label = least_depth(labels, &lists[gate]);
        if label > p(graph, labels, gate) {
            return (label, graph.fanin_set(gate));
        }
        let d = d(graph, labels, gate);
        (label, widest_least_cut(graph, gate, d, &lists[gate]))
    })
}

/// 1 + the least, over the cuts, of the greatest leaf label.
fn least_depth(labels: &[usize], cuts: &[NodeSet]) -> usize {
    let greatest = |cut: &NodeSet| cut.rising().map(|leaf| labels[leaf]).max();
    let least = cuts.iter().filter_map(greatest).min();
    1 + least.expect("a gate's fanins are a cut")
}

/// Of the cuts outside D with fewest leaves, the one whose cone contains the cones of all the
/// others.
fn widest_least_cut(graph: &Graph, gate: usize, d: NodeSet, cuts: &[NodeSet]) -> NodeSet {
    let outside = || cuts.iter().copied().filter(|cut| !cut.meets(d));
    let fewest = outside().map(|cut| cut.len()).min().expect("the label is p");
    let least: Vec<NodeSet> = outside().filter(|cut| cut.len() == fewest).collect();
    let cones: Vec<NodeSet> = least.iter().map(|&cut| cone(graph, gate, cut)).collect();
    let widest = cones.iter().position(|wide| cones.iter().all(|other| other.is_within(*wide)));
    least[widest.expect("there is always one")]
}

/// From the flow: more than K paths to D leave no cut outside it; at most K leave the cut nearest
/// to the inputs, which has the widest cone.
pub fn by_flow(graph: &Graph) -> Labelled {
    Labelled::by_rule(graph, |labels, gate| {
        let p = p(graph, labels, gate);
        if p == 0 {
            return (1, graph.fanin_set(gate));
        }
        match flow(graph, gate, d(graph, labels, gate), graph.k() + 1).nearest {
            Some(cut) => (p, cut),
            None => (p + 1, graph.fanin_set(gate)),
        }
    })
}

#[cfg(test)]
mod tests {
    use super::*;
    use crate::cuts::all_cuts;
    use crate::drawings::{named, paper};
    use crate::random::{shapes, Random};

    const LIMIT: usize = 3_000;

    fn graph(name: &str) -> Graph {
        Graph::new(named(name)).unwrap()
    }

    /// The labels of the gates, from cuts and from flow.
    fn gate_labels(name: &str) -> Vec<usize> {
        let graph = graph(name);
        let from_cuts = by_cuts(&graph, &all_cuts(&graph, LIMIT).unwrap());
        assert_eq!(from_cuts, by_flow(&graph), "{name}");
        assert_eq!(from_cuts, labelled(&graph), "{name}");
        from_cuts.labels[graph.table.inputs..].to_vec()
    }

    #[test]
    fn labels_of_the_paper() {
        assert_eq!(gate_labels("P1"), [1, 1, 2]);
        assert_eq!(gate_labels("P2"), [1, 1, 1]);
        assert_eq!(gate_labels("P3"), [1, 1]);
        assert_eq!(gate_labels("P4"), [1, 1, 1, 1, 2, 2]);
        assert_eq!(gate_labels("P5 at K 2"), [1, 2]);
        assert_eq!(gate_labels("P5 at K 3"), [1, 1]);
        assert_eq!(gate_labels("P6"), [1]);
        assert_eq!(gate_labels("P7"), []);
    }

    #[test]
    fn cuts_of_the_paper() {
        let cut = |name: &str, gate: usize| by_flow(&graph(name)).cuts[gate].list();
        assert_eq!(cut("P1", 6), [4, 5]);
        assert_eq!(cut("P2", 6), [0, 1, 2, 3]);
        assert_eq!(cut("P3", 3), [0, 1]);
        assert_eq!(cut("P4", 9), [4, 5]);
        assert_eq!(cut("P6", 1), [0]);
    }

    #[test]
    fn p_and_d_of_p4() {
        let graph = graph("P4");
        let labels = by_flow(&graph).labels;
        assert_eq!(p(&graph, &labels, 4), 0);
        assert_eq!(d(&graph, &labels, 4).list(), [4], "no input is in D");
        assert_eq!(p(&graph, &labels, 8), 1);
        assert_eq!(d(&graph, &labels, 8).list(), [4, 5, 6, 7, 8]);
        assert_eq!(p(&graph, &labels, 9), 2);
        assert_eq!(d(&graph, &labels, 9).list(), [8, 9]);
    }

    /// A gate's least depth by the definition: every choice of one cut for each gate makes a
    /// cover with the gate as a root, and every cover with it comes of such a choice.
    fn least_depths_by_covers(graph: &Graph, lists: &CutLists) -> Vec<usize> {
        let mut least = vec![usize::MAX; graph.nodes()];
        let mut depths = vec![0; graph.nodes()];
        try_covers(graph, lists, 0, &mut depths, &mut least);
        least
    }

    fn try_covers(
        graph: &Graph,
        lists: &CutLists,
        chosen: usize,
        depths: &mut [usize],
        least: &mut [usize],
    ) {
        if chosen == graph.order().len() {
            for (least, depth) in least.iter_mut().zip(depths) {
                *least = usize::min(*least, *depth);
            }
            return;
        }
        let gate = graph.order()[chosen];
        for cut in &lists[gate] {
            let greatest = cut.rising().map(|leaf| depths[leaf]).max();
            depths[gate] = 1 + greatest.expect("a cut has a leaf");
            try_covers(graph, lists, chosen + 1, depths, least);
        }
    }

    #[test]
    fn labels_are_least_depths_over_covers() {
        let mut random = Random::seeded(2);
        let mut compared = 0;
        for _ in 0..1_500 {
            let nodes = 3 + random.below(7);
            let graph = match Graph::new(shapes::any(nodes, &mut random)) {
                Ok(graph) => graph,
                Err(_) => continue,
            };
            let lists = all_cuts(&graph, LIMIT).unwrap();
            let covers: usize =
                graph.gates().map(|gate| lists[gate].len()).fold(1, usize::saturating_mul);
            if covers <= 20_000 {
                assert_eq!(least_depths_by_covers(&graph, &lists), by_flow(&graph).labels);
                compared += 1;
            }
        }
        assert!(compared > 800, "{compared}");
    }

    #[test]
    fn every_way_of_labelling_agrees() {
        for drawing in paper() {
            if let Ok(graph) = Graph::new(drawing.table) {
                assert_eq!(by_flow(&graph), labelled(&graph), "{}", drawing.name);
            }
        }
        let mut random = Random::seeded(3);
        for _ in 0..1_500 {
            let nodes = 2 + random.below(28);
            let graph = match Graph::new(shapes::any(nodes, &mut random)) {
                Ok(graph) => graph,
                Err(_) => continue,
            };
            let from_flow = by_flow(&graph);
            if let Some(lists) = all_cuts(&graph, LIMIT) {
                assert_eq!(by_cuts(&graph, &lists), from_flow);
            }
            if let Some(lists) = lean_cuts(&graph, LIMIT) {
                assert_eq!(by_cuts(&graph, &lists), from_flow);
            }
        }
    }
}
