//! Drawings of many shapes.

use super::Random;
use crate::table::{row_mask, Gate, Table, INPUT_LIMIT, OUTPUT_LIMIT};

/// What a drawing looks like, its gates taken from the inputs on.
#[derive(Clone, Copy, Debug, PartialEq, Eq)]
pub enum Shape {
    /// Each gate reads the node before it, once or more often.
    Chain,
    /// Each gate reads the node before it, and inputs: labels grow from gate to gate.
    Deep,
    /// Each gate reads any nodes before it.
    Loose,
    /// Each gate reads some of the few nodes before it, so that paths part and meet again.
    Reconvergent,
    /// Trees over many inputs: each gate reads nodes that no gate before it reads.
    Wide,
    /// Each gate reads one or two nodes, up to K times.
    Doubled,
    /// Lanes from the inputs that cross, so that a path taken for its shortness must be undone.
    Crossing,
    /// Long lanes from a few inputs that never cross, so that evidence is long.
    Lanes,
    /// Loose, but a few gates read each other in a ring, which is a loop.
    Looped,
    /// No gates.
    Bare,
}

pub const SHAPES: [Shape; 10] = [
    Shape::Chain,
    Shape::Deep,
    Shape::Loose,
    Shape::Reconvergent,
    Shape::Wide,
    Shape::Doubled,
    Shape::Crossing,
    Shape::Lanes,
    Shape::Looped,
    Shape::Bare,
];

/// How the gates' ids run along the shape.
#[derive(Clone, Copy, Debug, PartialEq, Eq)]
pub enum Numbering {
    Forwards,
    Backwards,
    Shuffled,
}

pub const NUMBERINGS: [Numbering; 3] =
    [Numbering::Forwards, Numbering::Backwards, Numbering::Shuffled];

/// A drawing of any shape, K and numbering with so many nodes.
pub fn any(nodes: usize, random: &mut Random) -> Table {
    let shape = *random.pick(&SHAPES);
    let numbering = *random.pick(&NUMBERINGS);
    let k = *random.pick(&[2, 2, 2, 3, 3, 4, 5, 6]);
    drawing(shape, numbering, k, nodes, random)
}

/// A drawing of so many nodes, or of 64 inputs if it is bare and has more.
pub fn drawing(
    shape: Shape,
    numbering: Numbering,
    k: usize,
    nodes: usize,
    random: &mut Random,
) -> Table {
    let inputs = input_count(shape, k, nodes, random);
    let mut growth = Growth { k, inputs, fanins: Vec::new(), random };
    if shape != Shape::Bare {
        growth.grow(shape, nodes - inputs);
    }
    let fanin_lists = growth.fanins;
    let nodes = inputs + fanin_lists.len();
    let gates = fanin_lists.into_iter().map(|fanins| gate(fanins, random)).collect();
    let outputs = outputs(nodes, random);
    let forwards = Table { k, inputs, gates, outputs };
    renumbered(&forwards, &ids(inputs, nodes, numbering, random))
}

fn input_count(shape: Shape, k: usize, nodes: usize, random: &mut Random) -> usize {
    let most = nodes.min(INPUT_LIMIT);
    let wanted = match shape {
        Shape::Chain => random.between(1, 2),
        Shape::Deep | Shape::Crossing | Shape::Lanes => random.between(k + 1, k + 4),
        Shape::Wide => nodes * 2 / 3,
        Shape::Bare => nodes,
        _ => {
            let any = random.between(1, most);
            *random.pick(&[1, k, k + 1, k + 3, 2 * k, any])
        }
    };
    wanted.clamp(1, most)
}

/// A gate with these fanins and some function, often a plain one.
fn gate(fanins: Vec<usize>, random: &mut Random) -> Gate {
    let mask = row_mask(fanins.len());
    let last_row = mask ^ mask >> 1;
    let rows = match random.below(5) {
        0 => last_row,
        1 => mask & !1,
        _ => random.word() & mask,
    };
    Gate { fanins, rows }
}

/// One output, several or as many as may be; inputs and repeated nodes among them.
fn outputs(nodes: usize, random: &mut Random) -> Vec<usize> {
    let count = match random.below(8) {
        0 => OUTPUT_LIMIT,
        1..=3 => random.between(2, 6),
        _ => return vec![nodes - 1],
    };
    let mut outputs: Vec<usize> = (0..count).map(|_| random.below(nodes)).collect();
    if random.one_in(3) {
        outputs.fill(nodes - 1);
    }
    outputs
}

/// New ids of the nodes: inputs keep theirs, gates are numbered anew.
fn ids(inputs: usize, nodes: usize, numbering: Numbering, random: &mut Random) -> Vec<usize> {
    let gates = nodes - inputs;
    let places: Vec<usize> = match numbering {
        Numbering::Forwards => (0..gates).collect(),
        Numbering::Backwards => (0..gates).rev().collect(),
        Numbering::Shuffled => random.order(gates),
    };
    (0..inputs).chain(places.into_iter().map(|place| inputs + place)).collect()
}

/// The same drawing with new ids, which are a list by old id. Inputs must stay inputs.
pub fn renumbered(table: &Table, ids: &[usize]) -> Table {
    let mut gates = table.gates.clone();
    for (gate, &id) in table.gates.iter().zip(&ids[table.inputs..]) {
        let fanins = gate.fanins.iter().map(|&fanin| ids[fanin]).collect();
        gates[id - table.inputs] = Gate { fanins, rows: gate.rows };
    }
    let outputs = table.outputs.iter().map(|&output| ids[output]).collect();
    Table { gates, outputs, ..*table }
}

/// A drawing that grows gate by gate, ids rising.
struct Growth<'a> {
    k: usize,
    inputs: usize,
    fanins: Vec<Vec<usize>>,
    random: &'a mut Random,
}

impl Growth<'_> {
    fn grow(&mut self, shape: Shape, gates: usize) {
        match shape {
            Shape::Wide => self.grow_wide(gates),
            Shape::Crossing => self.grow_lanes(gates * 3 / 4, gates, 2),
            Shape::Lanes => self.grow_lanes(gates / 2, gates, usize::MAX),
            Shape::Looped => self.grow_looped(gates),
            _ => {
                for _ in 0..gates {
                    let fanins = self.simple_fanins(shape);
                    self.fanins.push(fanins);
                }
            }
        }
    }

    /// The nodes so far.
    fn nodes(&self) -> usize {
        self.inputs + self.fanins.len()
    }

    fn simple_fanins(&mut self, shape: Shape) -> Vec<usize> {
        let (nodes, k) = (self.nodes(), self.k);
        let before = nodes - 1;
        match shape {
            Shape::Chain => vec![before; self.random.between(1, k)],
            Shape::Deep => {
                let more = self.random.between(1, k - 1);
                let inputs = self.inputs;
                let read = (0..more).map(|_| self.random.below(inputs));
                [before].into_iter().chain(read).collect()
            }
            Shape::Reconvergent => {
                let near = nodes.min(k + 2);
                let count = self.random.between(2, k);
                (0..count).map(|_| before - self.random.below(near)).collect()
            }
            Shape::Doubled => {
                let two = [self.random.below(nodes), self.random.below(nodes)];
                let count = self.random.between(1, k);
                (0..count).map(|_| *self.random.pick(&two)).collect()
            }
            _ => {
                let count = self.random.between(1, k);
                (0..count).map(|_| self.random.below(nodes)).collect()
            }
        }
    }

    fn grow_wide(&mut self, gates: usize) {
        let mut unread: Vec<usize> = (0..self.inputs).collect();
        for _ in 0..gates {
            let nodes = self.nodes();
            self.random.shuffle(&mut unread);
            let count = self.random.between(2, self.k);
            let fanins = (0..count).map(|_| match unread.pop() {
                Some(node) => node,
                None => self.random.below(nodes),
            });
            let fanins = fanins.collect();
            self.fanins.push(fanins);
            unread.push(nodes);
        }
    }

    /// Some of the gates lengthen lanes, and one in so many of them reads a node of another lane
    /// as well. The others read the lanes' ends and each other.
    fn grow_lanes(&mut self, in_lanes: usize, gates: usize, one_in: usize) {
        let mut lanes: Vec<Vec<usize>> = (0..self.inputs).map(|input| vec![input]).collect();
        for _ in 0..in_lanes {
            let node = self.nodes();
            let own = self.random.below(lanes.len());
            let mut fanins = vec![lanes[own][lanes[own].len() - 1]];
            if self.random.one_in(one_in) {
                let other = self.random.below(lanes.len());
                fanins.push(*self.random.pick(&lanes[other]));
            }
            self.fanins.push(fanins);
            lanes[own].push(node);
        }
        let mut tops: Vec<usize> = lanes.iter().map(|lane| lane[lane.len() - 1]).collect();
        while self.fanins.len() < gates {
            let node = self.nodes();
            let count = self.random.between(2, self.k);
            let fanins = (0..count).map(|_| *self.random.pick(&tops)).collect();
            self.fanins.push(fanins);
            tops.push(node);
        }
    }

    /// A ring of one to four gates, and perhaps a gate that reads any node.
    fn grow_looped(&mut self, gates: usize) {
        self.grow(Shape::Loose, gates);
        let mut ring = self.random.order(gates);
        ring.truncate(self.random.between(1, 4));
        for (at, &gate) in ring.iter().enumerate() {
            let next = ring[(at + 1) % ring.len()];
            self.rewire(gate, self.inputs + next);
        }
        if gates > 0 && self.random.one_in(2) {
            let (gate, node) = (self.random.below(gates), self.random.below(self.nodes()));
            self.rewire(gate, node);
        }
    }

    /// One of a gate's fanins becomes this node.
    fn rewire(&mut self, gate: usize, node: usize) {
        let at = self.random.below(self.fanins[gate].len());
        self.fanins[gate][at] = node;
    }
}

#[cfg(test)]
mod tests {
    use super::*;
    use crate::graph::{lowest_loop, Graph};
    use crate::labels::by_flow;
    use crate::table::{read, FANIN_LIMIT, NODE_LIMIT};

    fn each_kind(nodes: usize, mut look: impl FnMut(Shape, Numbering, Table)) {
        let mut random = Random::seeded(4);
        for shape in SHAPES {
            for numbering in NUMBERINGS {
                for k in 2..=FANIN_LIMIT {
                    let table = drawing(shape, numbering, k, nodes, &mut random);
                    look(shape, numbering, table);
                }
            }
        }
    }

    #[test]
    fn every_kind_of_drawing_is_a_table() {
        for nodes in [1, 2, 3, 10, 64, 65, NODE_LIMIT] {
            each_kind(nodes, |shape, numbering, table| {
                let has = table.inputs + table.gates.len();
                let bare_limit = if shape == Shape::Bare { INPUT_LIMIT } else { NODE_LIMIT };
                assert_eq!(has, nodes.min(bare_limit), "{shape:?} {numbering:?}");
                assert_eq!(read(&table.bytes()).table(), Ok(table));
            });
        }
    }

    #[test]
    fn only_looped_drawings_have_loops() {
        let mut loops = 0;
        each_kind(40, |shape, numbering, table| match lowest_loop(&table) {
            Some(_) if shape == Shape::Looped => loops += 1,
            found => assert_eq!(found, None, "{shape:?} {numbering:?}"),
        });
        assert!(loops > 5, "{loops}");
    }

    #[test]
    fn deep_drawings_have_high_labels() {
        let mut random = Random::seeded(5);
        let table = drawing(Shape::Deep, Numbering::Backwards, 2, NODE_LIMIT, &mut random);
        let labels = by_flow(&Graph::new(table).unwrap()).labels;
        assert!(labels.iter().max() > Some(&100));
    }

    #[test]
    fn a_drawing_renumbered_twice_is_itself() {
        let mut random = Random::seeded(6);
        let table = drawing(Shape::Loose, Numbering::Shuffled, 4, 30, &mut random);
        let new_ids = ids(table.inputs, 30, Numbering::Shuffled, &mut random);
        let mut old_ids = vec![0; 30];
        for (old, &new) in new_ids.iter().enumerate() {
            old_ids[new] = old;
        }
        assert_eq!(renumbered(&renumbered(&table, &new_ids), &old_ids), table);
    }
}
