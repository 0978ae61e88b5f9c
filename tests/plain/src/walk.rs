//! The walk back from a gate, and the test of a cut.

use crate::count::{Count, Step};
use crate::drawing::Drawing;

/// The marks of a walk: the nodes walked, and the nodes met.
#[derive(Clone, Debug)]
pub struct Walk {
    pub walked: Vec<bool>,
    pub met: Vec<bool>,
}

impl Walk {
    pub fn new(nodes: usize) -> Walk {
        Walk { walked: vec![false; nodes], met: vec![false; nodes] }
    }

    /// Walks back from the root and stops at the leaves, in one pass back along the order. With no
    /// leaves, the nodes met are those behind the root.
    pub fn walk(
        &mut self,
        drawing: &Drawing,
        order: &[u16],
        root: u16,
        leaves: &[u16],
        count: &mut impl Count,
    ) {
        count.step(Step::Walk);
        self.walked.fill(false);
        self.met.fill(false);
        self.walked[usize::from(root)] = true;
        for &gate in order.iter().rev() {
            count.step(Step::WalkTurn);
            let gate = usize::from(gate);
            if !self.walked[gate] {
                continue;
            }
            for &fanin in drawing.fanins[gate].iter() {
                count.step(Step::WalkTest);
                self.met[usize::from(fanin)] = true;
                if !leaves.contains(&fanin) {
                    self.walked[usize::from(fanin)] = true;
                }
            }
        }
    }

    /// Whether the leaves, rising, are a cut of the gate.
    pub fn is_cut(
        &mut self,
        drawing: &Drawing,
        order: &[u16],
        gate: u16,
        leaves: &[u16],
        count: &mut impl Count,
    ) -> bool {
        self.walk(drawing, order, gate, leaves, count);
        let mut inputs_met = (0..drawing.inputs).filter(|&input| self.met[input]);
        (1..=drawing.k).contains(&leaves.len())
            && leaves.windows(2).all(|pair| pair[0] < pair[1])
            && leaves.iter().all(|&leaf| self.met[usize::from(leaf)])
            && inputs_met.all(|input| leaves.contains(&(input as u16)))
    }
}
