//! Sheets of random drawings that lie cleverly: all of a sheet fits but for one thing, or fits what
//! it says itself and not the drawing.

mod covers;
mod evidence;
mod labels;

use crate::mapped::Mapped;
use second::graph::Graph;
use second::random::Random;
use second::sheet::Sheet;

/// A kind of lie: the sheet, or nothing where the drawing gives no room for it.
pub type Lie = fn(&Mapped, &mut Random) -> Option<Sheet>;

pub const LIES: [(&str, Lie); 13] = [
    ("a label too high", labels::too_high),
    ("a label too low", labels::too_low),
    ("never packed", labels::never_packed),
    ("labels that fit each other", labels::that_fit_each_other),
    ("paths that share a node", evidence::sharing),
    ("a path through D", evidence::through_d),
    ("a path that is not behind the gate", evidence::not_behind),
    ("a path that starts late", evidence::starting_late),
    ("a node twice on a path", evidence::twice_on_one),
    ("a table of another cone", covers::table_of_another_cone),
    ("a needless root with all behind it", covers::needless_root),
    ("an output that is no root", covers::output_no_root),
    ("depths that agree", covers::depths_that_agree),
];

fn some_below(bound: usize, random: &mut Random) -> Option<usize> {
    (bound > 0).then(|| random.below(bound))
}

/// One of the gates for which this holds, if there is one.
fn some_gate(graph: &Graph, random: &mut Random, holds: impl Fn(usize) -> bool) -> Option<usize> {
    let gates: Vec<usize> = graph.gates().filter(|&gate| holds(gate)).collect();
    some_below(gates.len(), random).map(|at| gates[at])
}
