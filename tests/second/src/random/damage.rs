//! Damaged sheets. Where the damage settles the inspector's reply to a sheet that was true, the
//! reply is told.

mod lines;
mod luts;
mod shape;

use super::Random;
use crate::graph::Graph;
use crate::nodes::NodeSet;
use crate::sheet::Sheet;
use crate::Refused;

/// What is done to a sheet.
#[derive(Clone, Copy, Debug, PartialEq, Eq)]
pub enum Damage {
    /// One byte is another.
    Byte,
    /// The end is missing.
    Shorter,
    /// Bytes follow the end.
    Longer,
    /// A field has another tag.
    Tag,
    /// A field's value has a byte more or fewer than its counts say.
    Length,
    /// A number is out of its range.
    Range,
    /// The head's depth is another.
    Depth,
    /// The head counts one LUT more or fewer.
    LutCount,
    /// The lines of two gates change places.
    SwappedLines,
    /// A gate has another label.
    Label,
    /// Every gate's label is one more.
    Labels,
    /// A gate has other leaves.
    Leaves,
    /// A path has nodes more, fewer or others.
    Path,
    /// Evidence is missing.
    NoPaths,
    /// Evidence is given and not due.
    NeedlessPaths,
    /// Two LUTs change places.
    SwappedLuts,
    /// A LUT has other leaves; its table fits them if they are a cut.
    LutLeaves,
    /// A LUT's table has another bit.
    LutTable,
    /// A LUT is missing.
    MissingLut,
    /// A LUT is there that nobody asks for.
    NeedlessLut,
    /// Every LUT reads its gate's fanins; the head's depth fits them or not.
    Deeper,
}

pub const DAMAGES: [Damage; 21] = [
    Damage::Byte,
    Damage::Shorter,
    Damage::Longer,
    Damage::Tag,
    Damage::Length,
    Damage::Range,
    Damage::Depth,
    Damage::LutCount,
    Damage::SwappedLines,
    Damage::Label,
    Damage::Labels,
    Damage::Leaves,
    Damage::Path,
    Damage::NoPaths,
    Damage::NeedlessPaths,
    Damage::SwappedLuts,
    Damage::LutLeaves,
    Damage::LutTable,
    Damage::MissingLut,
    Damage::NeedlessLut,
    Damage::Deeper,
];

/// What the inspector must say to a damaged sheet.
#[derive(Clone, Copy, Debug, PartialEq, Eq)]
pub enum Due {
    /// This refusal.
    Refusal(Refused),
    /// Some refusal.
    SomeRefusal,
    /// What the damage left decides: it may be true.
    Open,
}

/// A damaged sheet as bytes, and what is due to it.
#[derive(Clone, Debug)]
pub struct Damaged {
    pub bytes: Vec<u8>,
    pub due: Due,
}

impl Damaged {
    fn left_open(sheet: &Sheet) -> Damaged {
        Damaged { bytes: sheet.bytes(), due: Due::Open }
    }

    fn refused(bytes: Vec<u8>, number: u32, place: usize) -> Damaged {
        Damaged { bytes, due: Due::Refusal((number, place)) }
    }
}

/// Damages a true sheet, or gives nothing where it has nothing of the kind to damage.
pub fn damaged(
    graph: &Graph,
    sheet: &Sheet,
    damage: Damage,
    random: &mut Random,
) -> Option<Damaged> {
    match damage {
        Damage::Byte => Some(shape::other_byte(sheet, random)),
        Damage::Shorter => shape::shorter(sheet, random),
        Damage::Longer => Some(shape::longer(sheet, random)),
        Damage::Tag => Some(shape::other_tag(sheet, random)),
        Damage::Length => Some(shape::other_length(sheet, random)),
        Damage::Range => shape::out_of_range(graph, sheet, random),
        Damage::Depth => Some(shape::other_depth(sheet, random)),
        Damage::LutCount => Some(shape::other_lut_count(sheet, random)),
        Damage::SwappedLines => lines::swapped(sheet, random),
        Damage::Label => lines::other_label(sheet, random),
        Damage::Labels => lines::other_labels(sheet),
        Damage::Leaves => lines::other_leaves(graph, sheet, random),
        Damage::Path => lines::other_path(graph, sheet, random),
        Damage::NoPaths => lines::no_paths(graph, sheet, random),
        Damage::NeedlessPaths => lines::needless_paths(graph, sheet, random),
        Damage::SwappedLuts => luts::swapped(sheet, random),
        Damage::LutLeaves => luts::other_leaves(graph, sheet, random),
        Damage::LutTable => luts::other_table(sheet, random),
        Damage::MissingLut => luts::missing(graph, sheet, random),
        Damage::NeedlessLut => luts::needless(graph, sheet, random),
        Damage::Deeper => Some(luts::deeper(graph, sheet, random)),
    }
}

/// Where each field begins, and where the last one ends.
fn starts(fields: &[Vec<u8>]) -> Vec<usize> {
    let mut starts = vec![0];
    for field in fields {
        starts.push(starts[starts.len() - 1] + field.len());
    }
    starts
}

/// A number below the bound, if there is one.
fn some_below(bound: usize, random: &mut Random) -> Option<usize> {
    (bound > 0).then(|| random.below(bound))
}

/// Two different numbers below the bound, the lower first, if there are two.
fn two_below(bound: usize, random: &mut Random) -> Option<(usize, usize)> {
    let higher = 1 + some_below(bound.checked_sub(1)?, random)?;
    Some((random.below(higher), higher))
}

/// One of the gates for which this holds, if there is one.
fn some_gate(graph: &Graph, random: &mut Random, holds: impl Fn(usize) -> bool) -> Option<usize> {
    let gates: Vec<usize> = graph.gates().filter(|&gate| holds(gate)).collect();
    some_below(gates.len(), random).map(|at| gates[at])
}

/// Leaves like these with a node more, fewer or another, rising.
fn other_list(leaves: &[usize], nodes: usize, random: &mut Random) -> Vec<usize> {
    let mut set = NodeSet::from(leaves);
    if random.below(3) < 2 {
        set = set.without(NodeSet::only(*random.pick(leaves)));
    }
    if random.below(3) < 2 {
        set.insert(random.below(nodes));
    }
    set.list()
}
