//! Flow through FlowMap's network of a gate t: the members of D are collapsed into the sink, each
//! other node behind t is split into an entry and an exit with a bridging edge of capacity 1
//! between them, the source feeds the inputs' entries, and all other edges are unbounded.
//!
//! Units of flow are paths that share no node, and a cut through bridging edges is a set of
//! leaves.

use crate::graph::Graph;
use crate::nodes::NodeSet;
use crate::table::NODE_LIMIT;
use std::collections::VecDeque;
use std::iter::successors;

/// The paths from inputs to D that were found, and what parts the inputs from D.
#[derive(Clone, Debug)]
pub struct Flow {
    /// Each goes from an input to a fanin of a member of D, behind the gate and outside D. No
    /// node is on two of them.
    pub paths: Vec<Vec<usize>>,
    /// Unless the limit stopped the search: of the sets with fewest nodes that every path from
    /// an input to D meets, the one nearest to the inputs.
    pub nearest: Option<NodeSet>,
}

/// Finds the most paths, or as many as the limit.
pub fn flow(graph: &Graph, gate: usize, d: NodeSet, limit: usize) -> Flow {
    let region = graph.behind(gate).without(d);
    let mut network = network(graph, region, d);
    let mut found = 0;
    let mut nearest = None;
    while found < limit && nearest.is_none() {
        let arrivals = network.arrivals();
        if arrivals[SINK].is_some() {
            network.augment(&arrivals);
            found += 1;
        } else {
            nearest = Some(crossed(region, &arrivals));
        }
    }
    let inputs = region.rising().filter(|&node| graph.is_input(node));
    let used = inputs.filter(|&input| network.flow_from(entry(input)).is_some());
    Flow { paths: used.map(|input| network.path(input)).collect(), nearest }
}

/// The nodes whose bridging edge leads out of what the source reaches.
fn crossed(region: NodeSet, arrivals: &[Option<usize>]) -> NodeSet {
    let is_reached = |vertex: usize| arrivals[vertex].is_some();
    region.rising().filter(|&node| is_reached(entry(node)) && !is_reached(exit(node))).collect()
}

const SOURCE: usize = 0;
const SINK: usize = 1;
/// More than ever flows: each unit needs a node of its own.
const UNBOUNDED: usize = NODE_LIMIT + 1;

fn entry(node: usize) -> usize {
    2 + 2 * node
}

fn exit(node: usize) -> usize {
    3 + 2 * node
}

fn node_at(entry: usize) -> usize {
    (entry - 2) / 2
}

fn network(graph: &Graph, region: NodeSet, d: NodeSet) -> Network {
    let mut network = Network::of_vertices(2 + 2 * graph.nodes());
    for node in region.rising() {
        network.join(entry(node), exit(node), 1);
        if graph.is_input(node) {
            network.join(SOURCE, entry(node), UNBOUNDED);
        }
        for fanin in graph.fanin_set(node).rising().filter(|&fanin| region.contains(fanin)) {
            network.join(exit(fanin), entry(node), UNBOUNDED);
        }
    }
    for end in ends(graph, d).rising().filter(|&end| region.contains(end)) {
        network.join(exit(end), SINK, UNBOUNDED);
    }
    network
}

/// The fanins of the members of D.
pub fn ends(graph: &Graph, d: NodeSet) -> NodeSet {
    d.rising().flat_map(|member| graph.fanins(member).iter().copied()).collect()
}

/// A network with what room is left on its edges. Edges stand in pairs: the even one as it was
/// joined, the odd one back, whose room is what flows along the even one.
struct Network {
    heads: Vec<usize>,
    room: Vec<usize>,
    /// The edges that leave a vertex, as a chain: the last joined, and for each edge the one
    /// joined before it.
    last_leaving: Vec<Option<usize>>,
    leaving_before: Vec<Option<usize>>,
}

impl Network {
    fn of_vertices(count: usize) -> Network {
        Network {
            heads: Vec::new(),
            room: Vec::new(),
            last_leaving: vec![None; count],
            leaving_before: Vec::new(),
        }
    }

    fn join(&mut self, from: usize, to: usize, capacity: usize) {
        self.add_edge(from, to, capacity);
        self.add_edge(to, from, 0);
    }

    fn add_edge(&mut self, from: usize, to: usize, room: usize) {
        self.leaving_before.push(self.last_leaving[from]);
        self.last_leaving[from] = Some(self.heads.len());
        self.heads.push(to);
        self.room.push(room);
    }

    fn leaving(&self, vertex: usize) -> impl Iterator<Item = usize> + '_ {
        successors(self.last_leaving[vertex], move |&edge| self.leaving_before[edge])
    }

    /// For each vertex that the source reaches along edges with room, the edge by which it is
    /// first reached, shortest ways first. Where the sink is reached the search ends.
    fn arrivals(&self) -> Vec<Option<usize>> {
        let mut arrivals = vec![None; self.last_leaving.len()];
        let mut due = VecDeque::from([SOURCE]);
        while let Some(vertex) = due.pop_front().filter(|_| arrivals[SINK].is_none()) {
            for edge in self.leaving(vertex) {
                let head = self.heads[edge];
                if self.room[edge] > 0 && head != SOURCE && arrivals[head].is_none() {
                    arrivals[head] = Some(edge);
                    due.push_back(head);
                }
            }
        }
        arrivals
    }

    /// Sends one unit along the way that leads to the sink.
    fn augment(&mut self, arrivals: &[Option<usize>]) {
        let mut vertex = SINK;
        while let Some(edge) = arrivals[vertex] {
            let back = edge ^ 1;
            self.room[edge] -= 1;
            self.room[back] += 1;
            vertex = self.heads[back];
        }
    }

    /// Where the flow goes from a vertex.
    fn flow_from(&self, vertex: usize) -> Option<usize> {
        let carries = |edge: usize| edge % 2 == 0 && self.room[edge ^ 1] > 0;
        self.leaving(vertex).find(|&edge| carries(edge)).map(|edge| self.heads[edge])
    }

    /// The nodes on the way of the unit that enters by an input.
    fn path(&self, input: usize) -> Vec<usize> {
        let mut path = vec![input];
        let mut node = input;
        while let Some(next) = self.flow_from(exit(node)).filter(|&next| next != SINK) {
            node = node_at(next);
            path.push(node);
        }
        path
    }
}

#[cfg(test)]
mod tests {
    use super::*;
    use crate::drawings::named;
    use crate::labels::{by_flow, d, p};
    use crate::random::shapes::{self, Numbering, Shape};
    use crate::random::Random;
    use crate::table::{Gate, Table};

    fn set(nodes: &[usize]) -> NodeSet {
        NodeSet::from(nodes)
    }

    #[test]
    fn p1_has_four_paths_of_one_input() {
        let graph = Graph::new(named("P1")).unwrap();
        let flow = flow(&graph, 6, set(&[4, 5, 6]), 4);
        assert_eq!(flow.paths, [[0], [1], [2], [3]]);
        assert_eq!(flow.nearest, None);
    }

    #[test]
    fn p4_has_two_paths() {
        let graph = Graph::new(named("P4")).unwrap();
        let flow = flow(&graph, 9, set(&[8, 9]), 3);
        assert_eq!(flow.paths.len(), 2);
        assert_eq!(flow.nearest, Some(set(&[4, 5])));
    }

    #[test]
    fn edges_are_not_nodes() {
        let graph = Graph::new(named("P3")).unwrap();
        let flow = flow(&graph, 3, set(&[2, 3]), 3);
        assert_eq!(flow.paths, [[0], [1]]);
        assert_eq!(flow.nearest, Some(set(&[0, 1])));
    }

    /// The shortest path from 0, by 2, takes the only way of 1, so 0 must go by 3 and 4.
    #[test]
    fn a_path_is_undone() {
        let gate = |fanins: &[usize]| Gate { fanins: fanins.to_vec(), rows: 1 };
        let gates = vec![gate(&[0, 1]), gate(&[0]), gate(&[3]), gate(&[2, 4])];
        let table = Table { k: 2, inputs: 2, gates, outputs: vec![5] };
        let graph = Graph::new(table).unwrap();
        let flow = flow(&graph, 5, set(&[5]), 3);
        assert_eq!(flow.paths, [vec![0, 3, 4], vec![1, 2]]);
        assert_eq!(flow.nearest, Some(set(&[0, 1])));
    }

    /// How many paths one finds who takes a shortest path and never gives it up: from the inputs
    /// on, or from D back.
    fn paths_without_undoing(graph: &Graph, gate: usize, d: NodeSet, from_inputs: bool) -> usize {
        let mut free = graph.behind(gate).without(d);
        let ends = ends(graph, d);
        let mut found = 0;
        loop {
            let is_input = |node: usize| graph.is_input(node);
            let is_end = |node: usize| ends.contains(node);
            let path = match from_inputs {
                true => shortest(graph, free, is_input, is_end, |from, to| {
                    graph.fanins(to).contains(&from)
                }),
                false => shortest(graph, free, is_end, is_input, |from, to| {
                    graph.fanins(from).contains(&to)
                }),
            };
            match path {
                Some(path) => free = free.without(path),
                None => return found,
            }
            found += 1;
        }
    }

    /// The nodes of a shortest path through free nodes, low ids first.
    fn shortest(
        graph: &Graph,
        free: NodeSet,
        is_start: impl Fn(usize) -> bool,
        is_end: impl Fn(usize) -> bool,
        leads: impl Fn(usize, usize) -> bool,
    ) -> Option<NodeSet> {
        let mut came_from: Vec<Option<usize>> = vec![None; graph.nodes()];
        let mut due: VecDeque<usize> = free.rising().filter(|&node| is_start(node)).collect();
        let mut met: NodeSet = due.iter().copied().collect();
        while let Some(node) = due.pop_front() {
            if is_end(node) {
                return Some(successors(Some(node), |&node| came_from[node]).collect());
            }
            for next in free.rising().filter(|&next| leads(node, next)) {
                if met.insert(next) {
                    came_from[next] = Some(node);
                    due.push_back(next);
                }
            }
        }
        None
    }

    #[test]
    fn crossing_drawings_need_undoing() {
        let mut random = Random::seeded(7);
        let (mut short_from_inputs, mut short_back, mut short_both) = (0, 0, 0);
        for _ in 0..150 {
            let k = random.between(2, 5);
            let shape = Shape::Crossing;
            let table = shapes::drawing(shape, Numbering::Shuffled, k, 40, &mut random);
            let graph = Graph::new(table).unwrap();
            let labels = by_flow(&graph).labels;
            for gate in graph.gates().filter(|&gate| p(&graph, &labels, gate) > 0) {
                let d = d(&graph, &labels, gate);
                let most = flow(&graph, gate, d, NODE_LIMIT).paths.len();
                let is_short =
                    |from_inputs| paths_without_undoing(&graph, gate, d, from_inputs) < most;
                short_from_inputs += usize::from(is_short(true));
                short_back += usize::from(is_short(false));
                short_both += usize::from(is_short(true) && is_short(false));
            }
        }
        let shorts = [short_from_inputs, short_back, short_both];
        assert!(shorts.iter().all(|&count| count > 100), "{shorts:?}");
    }
}
