//! The function of a cone, as a table.

use crate::count::{Count, Step};
use crate::drawing::Drawing;

/// The value of each node in the row at hand, 0 or 1, and which nodes are leaves.
#[derive(Clone, Debug)]
pub struct Cone {
    values: Vec<u8>,
    is_leaf: Vec<bool>,
}

impl Cone {
    pub fn new(nodes: usize) -> Cone {
        Cone { values: vec![0; nodes], is_leaf: vec![false; nodes] }
    }

    /// The table of the root's cone over the leaves, row by row: in each the gates up to the root
    /// are evaluated along the order, so that none is evaluated twice.
    pub fn table(
        &mut self,
        drawing: &Drawing,
        order: &[u16],
        root: u16,
        leaves: &[u16],
        count: &mut impl Count,
    ) -> u64 {
        let last = order.iter().position(|&gate| gate == root).expect("a root is a gate");
        self.values.fill(0);
        self.is_leaf.fill(false);
        leaves.iter().for_each(|&leaf| self.is_leaf[usize::from(leaf)] = true);
        let mut table = 0;
        for row in 0..1 << leaves.len() {
            for (i, &leaf) in leaves.iter().enumerate() {
                self.values[usize::from(leaf)] = (row >> i & 1) as u8;
            }
            for &gate in &order[..=last] {
                self.settle(drawing, usize::from(gate), count);
            }
            table |= u64::from(self.values[usize::from(root)]) << row;
        }
        table
    }

    /// Evaluates a gate that is no leaf.
    fn settle(&mut self, drawing: &Drawing, gate: usize, count: &mut impl Count) {
        count.step(Step::ConeTurn);
        if self.is_leaf[gate] {
            return;
        }
        let row = drawing.fanins[gate].iter().rev().fold(0, |row, &fanin| {
            count.step(Step::ConeTest);
            2 * row + self.values[usize::from(fanin)]
        });
        self.values[gate] = (drawing.tables[gate] >> row & 1) as u8;
    }
}
