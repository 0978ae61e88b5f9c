//! Elementary steps and their counters.

use std::ops::{Index, Sub};

/// What is counted.
#[derive(Clone, Copy, Debug, PartialEq, Eq)]
pub enum Step {
    /// A sweep of the ordering, a gate's turn in it, and a fanin that is tested at a turn.
    OrderSweep,
    OrderTurn,
    OrderTest,
    /// A fanin that is looked at in the search for a loop.
    LoopTest,
    /// A walk, a gate's turn in it, and a fanin that is met at a turn.
    Walk,
    WalkTurn,
    WalkTest,
    /// An area that is marked, a node's turn in its two passes, and a fanin of D that is looked at.
    Area,
    AreaTurn,
    AreaTest,
    /// A search for a path, and one that finds none.
    Round,
    FailedRound,
    /// A sweep of a search, and a node's turn in it, in the area or not.
    Sweep,
    Turn,
    /// A visit of a node of the area; in a worklist, of one of its two states.
    Visit,
    /// A fanin that is tested at a visit; in a worklist, a reader.
    FlowTest,
    /// A step back along the way on which an end was reached.
    Augment,
    /// A gate's turn in a row of a cone's table, and a fanin that is read at it.
    ConeTurn,
    ConeTest,
}

const STEPS: usize = Step::ConeTest as usize + 1;

/// A counter of steps.
pub trait Count {
    fn step(&mut self, step: Step);
}

/// Counts nothing, at no cost.
#[derive(Clone, Copy, Debug, Default)]
pub struct Silent;

impl Count for Silent {
    #[inline(always)]
    fn step(&mut self, _: Step) {}
}

/// How often each step was taken.
#[derive(Clone, Copy, Debug, Default, PartialEq, Eq)]
pub struct Steps {
    counts: [u64; STEPS],
}

impl Count for Steps {
    #[inline]
    fn step(&mut self, step: Step) {
        self.counts[step as usize] += 1;
    }
}

impl Steps {
    /// All steps together.
    pub fn total(&self) -> u64 {
        self.counts.iter().sum()
    }
}

impl Index<Step> for Steps {
    type Output = u64;

    fn index(&self, step: Step) -> &u64 {
        &self.counts[step as usize]
    }
}

/// The steps since an earlier count.
impl Sub for Steps {
    type Output = Steps;

    fn sub(mut self, earlier: Steps) -> Steps {
        for (count, before) in self.counts.iter_mut().zip(earlier.counts) {
            *count -= before;
        }
        self
    }
}
