//! Other searches for one more path, to count what they would save. They reach what the sweeps
//! reach, so that labels and cuts are the same; the paths may be others.

use crate::area::Area;
use crate::count::{Count, Step};
use crate::drawing::Drawing;
use crate::flow::{Flow, Link};
use std::collections::VecDeque;

/// For each node, the gates that read it.
#[derive(Clone, Debug)]
pub struct Readers {
    starts: Vec<usize>,
    gates: Vec<u16>,
}

impl Readers {
    pub fn new(drawing: &Drawing) -> Readers {
        let mut starts = vec![0; drawing.nodes() + 1];
        for &fanin in drawing.fanins.iter().flat_map(|fanins| fanins.iter()) {
            starts[usize::from(fanin) + 1] += 1;
        }
        for node in 0..drawing.nodes() {
            starts[node + 1] += starts[node];
        }
        let mut free = starts.clone();
        let mut gates = vec![0; starts[drawing.nodes()]];
        for gate in drawing.gates() {
            for &fanin in drawing.fanins[gate].iter() {
                let place = &mut free[usize::from(fanin)];
                gates[*place] = gate as u16;
                *place += 1;
            }
        }
        Readers { starts, gates }
    }

    fn of(&self, node: usize) -> &[u16] {
        &self.gates[self.starts[node]..self.starts[node + 1]]
    }
}

/// How a search goes.
#[derive(Clone, Copy, Debug, PartialEq, Eq)]
pub enum Manner {
    /// Sweeps as in the flow, every other one back along the order.
    BothWays,
    /// A worklist of states, first in first out.
    Queue,
    /// A worklist of states, last in first out.
    Stack,
}

pub const MANNERS: [Manner; 3] = [Manner::BothWays, Manner::Queue, Manner::Stack];

#[derive(Clone, Copy, Debug)]
enum State {
    In(usize),
    Out(usize),
}

/// A search with its worklist.
#[derive(Clone, Debug)]
pub struct Search {
    manner: Manner,
    states: VecDeque<State>,
}

impl Search {
    pub fn new(manner: Manner) -> Search {
        Search { manner, states: VecDeque::new() }
    }

    /// The end that the search reaches, if it reaches one.
    pub(crate) fn search(
        &mut self,
        flow: &mut Flow,
        drawing: &Drawing,
        order: &[u16],
        readers: &Readers,
        area: &Area,
        count: &mut impl Count,
    ) -> Option<usize> {
        match self.manner {
            Manner::BothWays => sweep_both_ways(flow, drawing, order, area, count),
            Manner::Queue | Manner::Stack => {
                self.follow_states(flow, drawing, readers, area, count)
            }
        }
    }

    /// Takes states off the list and puts what they reach on it.
    fn follow_states(
        &mut self,
        flow: &mut Flow,
        drawing: &Drawing,
        readers: &Readers,
        area: &Area,
        count: &mut impl Count,
    ) -> Option<usize> {
        self.states.clear();
        // All inputs come first, since one that is an end is a path by itself.
        let mut inputs = (0..drawing.inputs).filter(|&input| area.within[input]);
        let reached = inputs.find_map(|input| {
            count.step(Step::Visit);
            flow.found_in[input] = true;
            flow.parent[input] = Link::Outside;
            self.leave_in(flow, area, input)
        });
        if reached.is_some() {
            return reached;
        }
        while let Some(state) = self.take() {
            count.step(Step::Visit);
            match state {
                State::In(node) => {
                    let reached = self.leave_in(flow, area, node);
                    if reached.is_some() {
                        return reached;
                    }
                }
                State::Out(node) => self.leave_out(flow, readers, area, node, count),
            }
        }
        None
    }

    fn take(&mut self) -> Option<State> {
        match self.manner {
            Manner::Stack => self.states.pop_back(),
            _ => self.states.pop_front(),
        }
    }

    fn find_in(&mut self, flow: &mut Flow, node: usize, parent: Link) {
        if !flow.found_in[node] {
            flow.found_in[node] = true;
            flow.parent[node] = parent;
            self.states.push_back(State::In(node));
        }
    }

    /// Marks an out-state, and answers its node if it is an end.
    fn find_out(&mut self, flow: &mut Flow, area: &Area, node: usize) -> Option<usize> {
        if flow.found_out[node] {
            return None;
        }
        flow.found_out[node] = true;
        self.states.push_back(State::Out(node));
        area.ends[node].then_some(node)
    }

    /// From an in-state: through an unused node, or back to the node that feeds a used one.
    fn leave_in(&mut self, flow: &mut Flow, area: &Area, node: usize) -> Option<usize> {
        match (flow.next[node], flow.prev[node]) {
            (Link::None, _) => self.find_out(flow, area, node),
            (_, Link::Node(from)) => self.find_out(flow, area, usize::from(from)),
            _ => None,
        }
    }

    /// From an out-state: to the readers, and back through a used node.
    fn leave_out(
        &mut self,
        flow: &mut Flow,
        readers: &Readers,
        area: &Area,
        node: usize,
        count: &mut impl Count,
    ) {
        let parent = Link::Node(node as u16);
        for &reader in readers.of(node) {
            count.step(Step::FlowTest);
            if area.within[usize::from(reader)] {
                self.find_in(flow, usize::from(reader), parent);
            }
        }
        if flow.next[node] != Link::None {
            self.find_in(flow, node, parent);
        }
    }
}

fn sweep_both_ways(
    flow: &mut Flow,
    drawing: &Drawing,
    order: &[u16],
    area: &Area,
    count: &mut impl Count,
) -> Option<usize> {
    let nodes = || (0..drawing.inputs).chain(order.iter().map(|&gate| usize::from(gate)));
    let mut is_back = false;
    loop {
        count.step(Step::Sweep);
        let mut more = false;
        let mut turn = |&node: &usize| {
            count.step(Step::Turn);
            area.within[node] && {
                more |= flow.visit(drawing, node, count);
                // On the way back, a node that is undone is undone in one visit.
                if is_back && flow.found_out[node] && !flow.found_in[node] {
                    more |= flow.visit(drawing, node, count);
                }
                area.ends[node] && flow.found_out[node]
            }
        };
        let reached = match is_back {
            false => nodes().find(|node| turn(node)),
            true => nodes().rev().find(|node| turn(node)),
        };
        if reached.is_some() || !more {
            return reached;
        }
        is_back = !is_back;
    }
}
