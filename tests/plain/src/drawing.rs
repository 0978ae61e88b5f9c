//! A drawing of any size.

use crate::ids::Ids;
use std::ops::Range;

/// Inputs, gates and outputs. Nodes 0 to `inputs` - 1 are inputs, the others gates.
#[derive(Clone, Debug, PartialEq, Eq)]
pub struct Drawing {
    pub inputs: usize,
    /// K: the most leaves of a cut, 2 to 6.
    pub k: usize,
    /// The fanins of each node. An input has none, so that passes over all nodes need no test.
    pub fanins: Vec<Ids>,
    /// The function table of each node, 0 at inputs.
    pub tables: Vec<u64>,
    pub outputs: Vec<u16>,
}

impl Drawing {
    /// A drawing without gates and outputs, as yet.
    pub fn new(k: usize, inputs: usize) -> Drawing {
        let (fanins, tables) = (vec![Ids::default(); inputs], vec![0; inputs]);
        Drawing { inputs, k, fanins, tables, outputs: Vec::new() }
    }

    /// Adds a gate and answers its id. Its fanins may come later.
    pub fn push_gate(&mut self, fanins: &[u16], table: u64) -> u16 {
        let gate = u16::try_from(self.nodes()).expect("an id has two bytes");
        self.fanins.push(fanins.iter().copied().collect());
        self.tables.push(table);
        gate
    }

    /// The number of nodes.
    pub fn nodes(&self) -> usize {
        self.fanins.len()
    }

    /// The gates, ids rising.
    pub fn gates(&self) -> Range<usize> {
        self.inputs..self.nodes()
    }

    /// The same drawing with its gates numbered backwards.
    pub fn backwards(&self) -> Drawing {
        let last = self.inputs + self.nodes() - 1;
        let renamed = |id: u16| match usize::from(id) {
            input if input < self.inputs => id,
            gate => (last - gate) as u16,
        };
        let mut drawing = Drawing::new(self.k, self.inputs);
        for gate in self.gates().rev() {
            drawing.fanins.push(self.fanins[gate].iter().map(|&id| renamed(id)).collect());
            drawing.tables.push(self.tables[gate]);
        }
        drawing.outputs = self.outputs.iter().map(|&id| renamed(id)).collect();
        drawing
    }
}
