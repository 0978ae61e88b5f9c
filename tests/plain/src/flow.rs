//! K + 1 disjoint paths from inputs to the fanins of D, or the least cut with the largest cone.

use crate::area::Area;
use crate::count::{Count, Step};
use crate::drawing::Drawing;
use crate::ids::Ids;
use crate::worklist::{Readers, Search};
use std::iter::successors;
use std::mem::replace;

/// What a node is joined to on its path: nothing, the source or the sink, or a node.
#[derive(Clone, Copy, Debug, PartialEq, Eq)]
pub enum Link {
    None,
    Outside,
    Node(u16),
}

/// What the flow shows: that no cut lies outside D, or the mapper's cut.
#[derive(Clone, Copy, Debug, PartialEq, Eq)]
pub enum Answer {
    Paths,
    Cut(Ids),
}

/// The paths so far, and what the last search found. A node has two states, on its way in and on
/// its way out; `parent` says from where the in-state was found: the source, or the out-state of a
/// node, which may be the node itself.
#[derive(Clone, Debug)]
pub struct Flow {
    pub(crate) next: Vec<Link>,
    pub(crate) prev: Vec<Link>,
    pub(crate) found_in: Vec<bool>,
    pub(crate) found_out: Vec<bool>,
    pub(crate) parent: Vec<Link>,
}

impl Flow {
    pub fn new(nodes: usize) -> Flow {
        Flow {
            next: vec![Link::None; nodes],
            prev: vec![Link::None; nodes],
            found_in: vec![false; nodes],
            found_out: vec![false; nodes],
            parent: vec![Link::None; nodes],
        }
    }

    /// Adds path after path, until there are K + 1 or no search finds one more.
    pub fn find(
        &mut self,
        drawing: &Drawing,
        order: &[u16],
        area: &Area,
        count: &mut impl Count,
    ) -> Answer {
        self.find_by(drawing.k, count, |flow, count| flow.search(drawing, order, area, count))
    }

    /// The same with another search, which finds other paths and the same cut.
    pub fn find_with(
        &mut self,
        search: &mut Search,
        drawing: &Drawing,
        order: &[u16],
        readers: &Readers,
        area: &Area,
        count: &mut impl Count,
    ) -> Answer {
        self.find_by(drawing.k, count, |flow, count| {
            search.search(flow, drawing, order, readers, area, count)
        })
    }

    fn find_by<C: Count>(
        &mut self,
        k: usize,
        count: &mut C,
        mut search: impl FnMut(&mut Flow, &mut C) -> Option<usize>,
    ) -> Answer {
        self.next.fill(Link::None);
        self.prev.fill(Link::None);
        for _ in 0..=k {
            count.step(Step::Round);
            self.found_in.fill(false);
            self.found_out.fill(false);
            match search(self, count) {
                Some(end) => self.augment(end, count),
                None => {
                    count.step(Step::FailedRound);
                    return Answer::Cut(self.leaves());
                }
            }
        }
        Answer::Paths
    }

    /// Pull and sweep: goes along the order and marks each state that its fanins, its link or the
    /// source reach, until an end's out-state is marked, or a sweep marks nothing.
    fn search(
        &mut self,
        drawing: &Drawing,
        order: &[u16],
        area: &Area,
        count: &mut impl Count,
    ) -> Option<usize> {
        let inputs = 0..drawing.inputs;
        loop {
            count.step(Step::Sweep);
            let mut more = false;
            let mut nodes = inputs.clone().chain(order.iter().map(|&gate| usize::from(gate)));
            let reached = nodes.find(|&node| {
                count.step(Step::Turn);
                area.within[node] && {
                    more |= self.visit(drawing, node, count);
                    area.ends[node] && self.found_out[node]
                }
            });
            if reached.is_some() || !more {
                return reached;
            }
        }
    }

    /// Marks those of the node's states that are reached now, and says whether one is new.
    pub(crate) fn visit(&mut self, drawing: &Drawing, node: usize, count: &mut impl Count) -> bool {
        count.step(Step::Visit);
        let mut more = false;
        if !self.found_in[node] {
            if let Some(parent) = self.way_in(drawing, node, count) {
                self.found_in[node] = true;
                self.parent[node] = parent;
                more = true;
            }
        }
        if !self.found_out[node] && self.is_way_out(node) {
            self.found_out[node] = true;
            more = true;
        }
        more
    }

    /// From where the node's in-state is reached: the source, a fanin, or its own out-state.
    fn way_in(&self, drawing: &Drawing, node: usize, count: &mut impl Count) -> Option<Link> {
        if node < drawing.inputs {
            return Some(Link::Outside);
        }
        let found = drawing.fanins[node].iter().find(|&&fanin| {
            count.step(Step::FlowTest);
            self.found_out[usize::from(fanin)]
        });
        match found {
            Some(&fanin) => Some(Link::Node(fanin)),
            None => {
                let undone = self.next[node] != Link::None && self.found_out[node];
                undone.then_some(Link::Node(node as u16))
            }
        }
    }

    /// Whether the node's out-state is reached: through an unused node, or back from the node that
    /// it feeds.
    fn is_way_out(&self, node: usize) -> bool {
        match self.next[node] {
            Link::None => self.found_in[node],
            Link::Outside => false,
            Link::Node(fed) => self.found_in[usize::from(fed)],
        }
    }

    /// Adds the path that a search found, back from the end that it reached.
    fn augment(&mut self, end: usize, count: &mut impl Count) {
        let mut open = self.free(end);
        while let Link::Node(from) = self.parent[open] {
            count.step(Step::Augment);
            let from = usize::from(from);
            let freed = self.free(from);
            if from == open {
                self.next[open] = Link::None;
                self.prev[open] = Link::None;
            } else {
                self.next[from] = Link::Node(open as u16);
                self.prev[open] = Link::Node(from as u16);
            }
            open = freed;
        }
    }

    /// Sends a node to the sink. The answer then comes from the source: the node itself, where it
    /// was unused, or the node that it fed.
    fn free(&mut self, node: usize) -> usize {
        let open = match replace(&mut self.next[node], Link::Outside) {
            Link::Node(fed) => usize::from(fed),
            _ => node,
        };
        self.prev[open] = Link::Outside;
        open
    }

    /// After a failed search: the nodes whose in-state was found and whose out-state was not.
    fn leaves(&self) -> Ids {
        let found = self.found_in.iter().zip(&self.found_out);
        let leaves =
            (0..).zip(found).filter(|&(_, (&found_in, &found_out))| found_in && !found_out);
        leaves.map(|(node, _)| node).collect()
    }

    /// The paths, by their inputs rising, each from its input on.
    pub fn paths<'a>(
        &'a self,
        drawing: &Drawing,
    ) -> impl Iterator<Item = impl Iterator<Item = u16> + 'a> + 'a {
        let starts = (0..drawing.inputs).filter(move |&input| self.prev[input] == Link::Outside);
        starts.map(move |input| {
            successors(Some(input as u16), move |&node| match self.next[usize::from(node)] {
                Link::Node(fed) => Some(fed),
                _ => None,
            })
        })
    }
}
