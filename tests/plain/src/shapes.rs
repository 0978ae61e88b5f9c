//! Drawings for measurements, of any number of nodes. The same numbers give the same drawing.

use crate::drawing::Drawing;
use crate::table::{full_table, INPUT_LIMIT, OUTPUT_LIMIT};

/// What a drawing looks like.
#[derive(Clone, Copy, Debug, PartialEq, Eq)]
pub enum Shape {
    /// Eight layers; each gate reads K nodes of the layer before it.
    Shallow,
    /// Each gate reads the node before it and inputs.
    Deep,
    /// Each gate reads K of the few nodes before it, so that paths part and meet again.
    Reconvergent,
    /// Lanes that lengthen in turn, and now and then read their neighbour.
    Chains,
    /// A long path that must be undone node by node, for each of many gates.
    Undone,
    /// Two long paths between which the third must zigzag, for each of many gates. K is at least 3.
    Zigzag,
    /// One input and a chain of gates that read the gate before them twice.
    Doubled,
    /// All gates read the same two inputs.
    SameTwo,
    /// Each level's two gates read both gates of the level before: paths double at every level.
    Diamonds,
}

/// How many nodes beyond 2 K a reconvergent gate can choose from. With fewer, all paths soon pass
/// through K nodes, and at a small K every label is 1.
const NEAR: usize = 4;

/// The four shapes that members draw.
pub const USUAL: [Shape; 4] = [Shape::Shallow, Shape::Deep, Shape::Reconvergent, Shape::Chains];
/// Shapes that make the sweeps many.
pub const LADDERS: [Shape; 2] = [Shape::Undone, Shape::Zigzag];
/// Shapes that blow up a careless program.
pub const CARELESS: [Shape; 3] = [Shape::Doubled, Shape::SameTwo, Shape::Diamonds];

/// Ten drawings with so many nodes, of the four usual shapes, with shape and K as their names.
pub fn ten(nodes: usize) -> Vec<(String, Drawing)> {
    let kinds = USUAL.into_iter().flat_map(|shape| match shape {
        Shape::Shallow | Shape::Deep => vec![(shape, 2), (shape, 4), (shape, 6)],
        _ => vec![(shape, 3), (shape, 6)],
    });
    kinds.map(|(shape, k)| (format!("{shape:?} K {k}"), shape.drawing(nodes, k))).collect()
}

impl Shape {
    /// Whether the shape can be drawn at this K.
    pub fn takes(self, k: usize) -> bool {
        self != Shape::Zigzag || k >= 3
    }

    /// The drawing with so many nodes, 32 or more. Its outputs are the last of the nodes that
    /// nobody reads.
    pub fn drawing(self, nodes: usize, k: usize) -> Drawing {
        let mut growth = Growth {
            drawing: Drawing::new(k, self.inputs(nodes, k)),
            nodes,
            seed: 0x2545_F491_4F6C_DD1D ^ nodes as u64 ^ (k as u64) << 32,
        };
        match self {
            Shape::Shallow => growth.shallow(),
            Shape::Deep => growth.deep(),
            Shape::Reconvergent => growth.reconvergent(),
            Shape::Chains => growth.chains(),
            Shape::Undone => growth.undone(),
            Shape::Zigzag => growth.zigzag(),
            Shape::Doubled => growth.doubled(),
            Shape::SameTwo => growth.same_two(),
            Shape::Diamonds => growth.diamonds(),
        }
        let mut drawing = growth.drawing;
        debug_assert_eq!(drawing.nodes(), nodes);
        drawing.outputs = unread(&drawing);
        drawing
    }

    fn inputs(self, nodes: usize, k: usize) -> usize {
        match self {
            Shape::Shallow => (nodes / 3).min(INPUT_LIMIT),
            Shape::Deep => 2 * k,
            Shape::Reconvergent => NEAR + 2 * k,
            Shape::Chains => k + 2,
            Shape::Undone | Shape::Zigzag => k + 1,
            Shape::Doubled => 1,
            Shape::SameTwo | Shape::Diamonds => 2,
        }
    }
}

fn unread(drawing: &Drawing) -> Vec<u16> {
    let mut is_read = vec![false; drawing.nodes()];
    for &fanin in drawing.fanins.iter().flat_map(|fanins| fanins.iter()) {
        is_read[usize::from(fanin)] = true;
    }
    let unread = (0..drawing.nodes()).rev().filter(|&node| !is_read[node]);
    let mut outputs: Vec<u16> = unread.take(OUTPUT_LIMIT).map(|node| node as u16).collect();
    outputs.reverse();
    outputs
}

/// A drawing that grows gate by gate, fanins first.
struct Growth {
    drawing: Drawing,
    nodes: usize,
    seed: u64,
}

impl Growth {
    fn is_whole(&self) -> bool {
        self.drawing.nodes() == self.nodes
    }

    /// Any word (xorshift).
    fn word(&mut self) -> u64 {
        self.seed ^= self.seed << 13;
        self.seed ^= self.seed >> 7;
        self.seed ^= self.seed << 17;
        self.seed
    }

    fn below(&mut self, bound: usize) -> usize {
        ((self.word() >> 32) as usize) % bound
    }

    /// Adds a gate with some function, and answers its id.
    fn gate(&mut self, fanins: &[u16]) -> u16 {
        let table = self.word() & full_table(fanins.len());
        self.drawing.push_gate(fanins, table)
    }

    fn shallow(&mut self) {
        let width = (self.nodes - self.drawing.inputs + 7) / 8;
        let mut layer = 0..self.drawing.inputs;
        while !self.is_whole() {
            let start = self.drawing.nodes();
            while !self.is_whole() && self.drawing.nodes() < start + width {
                let fanins = self.some_of(layer.start, layer.end);
                self.gate(&fanins);
            }
            layer = start..self.drawing.nodes();
        }
    }

    /// K nodes from the first to before the last.
    fn some_of(&mut self, first: usize, last: usize) -> Vec<u16> {
        (0..self.drawing.k).map(|_| (first + self.below(last - first)) as u16).collect()
    }

    fn deep(&mut self) {
        while !self.is_whole() {
            let before = self.drawing.nodes() as u16 - 1;
            let mut fanins = self.some_of(0, self.drawing.inputs);
            fanins[0] = before;
            self.gate(&fanins);
        }
    }

    fn reconvergent(&mut self) {
        let near = self.drawing.inputs;
        while !self.is_whole() {
            let nodes = self.drawing.nodes();
            let fanins = self.some_of(nodes - near, nodes);
            self.gate(&fanins);
        }
    }

    fn chains(&mut self) {
        let mut ends: Vec<u16> = (0..self.drawing.inputs as u16).collect();
        while !self.is_whole() {
            let lane = self.drawing.nodes() % ends.len();
            let neighbour = (lane + 1) % ends.len();
            let reads_both = self.below(8) == 0;
            let fanins = [ends[lane], ends[neighbour]];
            ends[lane] = self.gate(&fanins[..1 + usize::from(reads_both)]);
        }
    }

    /// Input 0 feeds a chain, whose first gate feeds a late end and whose last gate is an end that
    /// input 1 feeds as well. The first path takes the chain; to let input 1 in, it must go back
    /// all along it.
    fn undone(&mut self) {
        let gates = self.nodes - self.drawing.inputs;
        let first = self.gate(&[0]);
        let mut last = first;
        for _ in 0..gates * 2 / 3 {
            last = self.gate(&[last]);
        }
        let last = self.gate(&[last, 1]);
        let late = self.gate(&[first]);
        self.readers(&[last], 2, late);
    }

    /// Inputs 0 and 1 feed two lanes, and input 2 the first one's second gate. Each lane's gates
    /// feed gates a little further on in the other, the last but one a late end: to let input 2 in,
    /// both lanes are left and met again at every rung.
    fn zigzag(&mut self) {
        let gates = self.nodes - self.drawing.inputs;
        let mut left = vec![self.gate(&[0])];
        let mut right = vec![self.gate(&[1])];
        for rung in 1..gates / 3 {
            let fanins = match rung {
                1 => [left[0], 2],
                _ => [left[rung - 1], right[rung - 2]],
            };
            let next = self.gate(&fanins);
            left.push(next);
            let next = self.gate(&[right[rung - 1], left[rung - 1]]);
            right.push(next);
        }
        let top = left.len() - 1;
        let late = self.gate(&[right[top - 1]]);
        self.readers(&[left[top], right[top]], 3, late);
    }

    /// A gate over these ends and the inputs from `input` on, and gates that read it and the late
    /// end, up to the number of nodes.
    fn readers(&mut self, ends: &[u16], input: u16, late: u16) {
        let inputs = input..self.drawing.inputs as u16;
        let fanins: Vec<u16> = ends.iter().copied().chain(inputs).collect();
        let above = self.gate(&fanins);
        while !self.is_whole() {
            self.gate(&[above, late]);
        }
    }

    fn doubled(&mut self) {
        while !self.is_whole() {
            let before = self.drawing.nodes() as u16 - 1;
            self.drawing.push_gate(&[before, before], 0x8);
        }
    }

    fn same_two(&mut self) {
        while !self.is_whole() {
            self.drawing.push_gate(&[0, 1], 0x8);
        }
    }

    fn diamonds(&mut self) {
        while !self.is_whole() {
            let level = self.drawing.nodes() as u16 / 2 * 2;
            let table = if self.drawing.nodes() % 2 == 0 { 0x8 } else { 0x6 };
            self.drawing.push_gate(&[level - 2, level - 1], table);
        }
    }
}

#[cfg(test)]
mod tests {
    use super::*;
    use crate::count::Silent;
    use crate::order::order;

    #[test]
    fn every_shape_has_its_nodes_and_no_loop() {
        for shape in USUAL.into_iter().chain(LADDERS).chain(CARELESS) {
            for k in (2..=6).filter(|&k| shape.takes(k)) {
                for nodes in [32, 33, 192, 1_000] {
                    let drawing = shape.drawing(nodes, k);
                    assert_eq!(drawing.nodes(), nodes, "{shape:?} {k}");
                    assert!(!drawing.outputs.is_empty());
                    assert!(drawing.gates().all(|gate| drawing.fanins[gate].len() <= k));
                    let order = order(&drawing, &mut Silent).unwrap();
                    assert!(order.into_iter().map(usize::from).eq(drawing.gates()));
                }
            }
        }
    }

    #[test]
    fn there_are_ten() {
        assert_eq!(ten(192).len(), 10);
    }
}
