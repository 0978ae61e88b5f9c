//! p and D of a gate, and the part of the drawing in which paths to D run.

use crate::count::{Count, Step};
use crate::drawing::Drawing;

/// p: the greatest label among the gate's fanins.
pub fn peak(drawing: &Drawing, labels: &[u16], gate: u16) -> u16 {
    let fanins = drawing.fanins[usize::from(gate)].iter();
    fanins.map(|&fanin| labels[usize::from(fanin)]).max().unwrap_or(0)
}

/// The marks of D, of the nodes behind the gate outside D, and of those of them that feed D.
#[derive(Clone, Debug)]
pub struct Area {
    pub deep: Vec<bool>,
    pub within: Vec<bool>,
    pub ends: Vec<bool>,
}

impl Area {
    pub fn new(nodes: usize) -> Area {
        Area { deep: vec![false; nodes], within: vec![false; nodes], ends: vec![false; nodes] }
    }

    /// Marks the area of a gate whose p this is. `met` marks what lies behind the gate.
    pub fn mark(
        &mut self,
        drawing: &Drawing,
        labels: &[u16],
        gate: u16,
        p: u16,
        met: &[bool],
        count: &mut impl Count,
    ) {
        count.step(Step::Area);
        let gate = usize::from(gate);
        for (node, (&label, &met)) in labels.iter().zip(met).enumerate() {
            count.step(Step::AreaTurn);
            // Inputs are never in D.
            let deep = node == gate || (node >= drawing.inputs && label == p && met);
            self.deep[node] = deep;
            self.within[node] = met && !deep;
            self.ends[node] = false;
        }
        for (fanins, &deep) in drawing.fanins.iter().zip(&self.deep) {
            count.step(Step::AreaTurn);
            if !deep {
                continue;
            }
            for &fanin in fanins.iter() {
                count.step(Step::AreaTest);
                let fanin = usize::from(fanin);
                self.ends[fanin] |= self.within[fanin];
            }
        }
    }
}
