//! Drawings that ABC keeps as they are: two-input ANDs with inverters at their pins, of which no
//! two read the same pair. ABC makes any network into such a graph first; of these it makes a graph
//! with a node a gate.

use second::random::Random;
use second::table::{Gate, Table, OUTPUT_LIMIT};
use std::collections::HashSet;

/// The functions: one row is 1, or one is 0.
const ROWS: [u64; 8] = [0x1, 0x2, 0x4, 0x8, 0x7, 0xB, 0xD, 0xE];

/// How many inputs there are, and from how many nodes back a gate may read.
#[derive(Clone, Copy)]
pub struct Form {
    pub k: usize,
    pub nodes: usize,
    pub inputs: usize,
    pub reach: usize,
}

pub fn drawing(form: Form, random: &mut Random) -> Table {
    let Form { k, nodes, inputs, reach } = form;
    let mut pairs = HashSet::new();
    let mut gates = Vec::new();
    for node in inputs..nodes {
        let pair = fresh_pair(node, reach, &pairs, random);
        pairs.insert(pair);
        gates.push(Gate { fanins: vec![pair.0, pair.1], rows: *random.pick(&ROWS) });
    }
    let outputs = unread(inputs, &gates);
    Table { k, inputs, gates, outputs }
}

/// Two nodes before this one that no gate reads together as yet. The last ones first, so that
/// drawings grow deep; after some tries from anywhere.
fn fresh_pair(
    node: usize,
    reach: usize,
    pairs: &HashSet<(usize, usize)>,
    random: &mut Random,
) -> (usize, usize) {
    for back in (0..).map(|tries| reach + tries / 4) {
        let least = node.saturating_sub(back);
        let (one, other) = (random.between(least, node - 1), random.between(least, node - 1));
        let pair = (one.min(other), one.max(other));
        if one != other && !pairs.contains(&pair) {
            return pair;
        }
    }
    unreachable!("a node has more pairs before it than there are gates")
}

/// The last of the gates that nobody reads.
fn unread(inputs: usize, gates: &[Gate]) -> Vec<usize> {
    let read: HashSet<usize> = gates.iter().flat_map(|gate| gate.fanins.clone()).collect();
    let unread = (inputs..inputs + gates.len()).rev().filter(|node| !read.contains(node));
    unread.take(OUTPUT_LIMIT).collect()
}

#[cfg(test)]
mod tests {
    use super::*;

    #[test]
    fn no_two_gates_read_the_same_pair() {
        let form = Form { k: 4, nodes: 192, inputs: 8, reach: 6 };
        let table = drawing(form, &mut Random::seeded(1));
        let pairs: HashSet<Vec<usize>> =
            table.gates.iter().map(|gate| gate.fanins.clone()).collect();
        assert_eq!(pairs.len(), 184);
        assert!(table.gates.iter().all(|gate| gate.fanins[0] < gate.fanins[1]));
        assert!(!table.outputs.is_empty());
    }
}
