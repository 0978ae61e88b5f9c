//! Labels and the mapper's cuts.

use crate::area::{peak, Area};
use crate::count::Count;
use crate::drawing::Drawing;
use crate::flow::{Answer, Flow};
use crate::ids::Ids;
use crate::walk::Walk;
use crate::worklist::{Manner, Readers, Search};

/// The label and the mapper's cut of each node. An input has label 0 and no leaves.
#[derive(Clone, Debug, PartialEq, Eq)]
pub struct Labelling {
    pub labels: Vec<u16>,
    pub cuts: Vec<Ids>,
}

impl Labelling {
    /// The state before the first gate's turn.
    pub fn new(nodes: usize) -> Labelling {
        Labelling { labels: vec![0; nodes], cuts: vec![Ids::default(); nodes] }
    }

    /// Gives a gate its label and cut, by those of all gates before it in the order.
    pub fn settle(
        &mut self,
        drawing: &Drawing,
        order: &[u16],
        gate: u16,
        probe: &mut Probe,
        count: &mut impl Count,
    ) {
        let p = peak(drawing, &self.labels, gate);
        let answer = match p {
            0 => Answer::Paths,
            _ => probe.flow_of(drawing, order, &self.labels, gate, p, count),
        };
        let gate = usize::from(gate);
        match answer {
            Answer::Cut(leaves) => {
                self.labels[gate] = p;
                self.cuts[gate] = leaves;
            }
            Answer::Paths => {
                self.labels[gate] = p + 1;
                self.cuts[gate] = drawing.fanins[gate].distinct();
            }
        }
    }

    /// Whether the gate's label asks for evidence.
    pub fn owes_evidence(&self, drawing: &Drawing, gate: u16) -> bool {
        let p = peak(drawing, &self.labels, gate);
        p > 0 && self.labels[usize::from(gate)] == p + 1
    }
}

/// Labels the gates along the order.
pub fn label(drawing: &Drawing, order: &[u16], count: &mut impl Count) -> Labelling {
    label_with(drawing, order, &mut Probe::new(drawing.nodes()), count)
}

/// The same with arrays that are there already.
pub fn label_with(
    drawing: &Drawing,
    order: &[u16],
    probe: &mut Probe,
    count: &mut impl Count,
) -> Labelling {
    let mut labelling = Labelling::new(drawing.nodes());
    for &gate in order {
        labelling.settle(drawing, order, gate, probe, count);
    }
    labelling
}

/// The arrays with which a gate is probed for a cut outside D.
#[derive(Clone, Debug)]
pub struct Probe {
    walk: Walk,
    area: Area,
    pub flow: Flow,
    /// Another search than the flow's own.
    other: Option<(Search, Readers)>,
}

impl Probe {
    pub fn new(nodes: usize) -> Probe {
        Probe {
            walk: Walk::new(nodes),
            area: Area::new(nodes),
            flow: Flow::new(nodes),
            other: None,
        }
    }

    /// A probe that searches in another manner.
    pub fn searching(manner: Manner, drawing: &Drawing) -> Probe {
        let other = Some((Search::new(manner), Readers::new(drawing)));
        Probe { other, ..Probe::new(drawing.nodes()) }
    }

    /// Marks the gate's area and runs the flow in it. The paths that it shows stand in `flow`.
    pub fn flow_of(
        &mut self,
        drawing: &Drawing,
        order: &[u16],
        labels: &[u16],
        gate: u16,
        p: u16,
        count: &mut impl Count,
    ) -> Answer {
        self.mark_area(drawing, order, labels, gate, p, count);
        let Probe { area, flow, other, .. } = self;
        match other {
            Some((search, readers)) => flow.find_with(search, drawing, order, readers, area, count),
            None => flow.find(drawing, order, area, count),
        }
    }

    /// Marks the gate's area.
    pub fn mark_area(
        &mut self,
        drawing: &Drawing,
        order: &[u16],
        labels: &[u16],
        gate: u16,
        p: u16,
        count: &mut impl Count,
    ) -> &Area {
        self.walk.walk(drawing, order, gate, &[], count);
        self.area.mark(drawing, labels, gate, p, &self.walk.met, count);
        &self.area
    }
}
