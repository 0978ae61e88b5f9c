//! Drawings with the gate that they are refused for, by hand, or none where they are taken.

use second::table::{Gate, Table, NODE_LIMIT};

/// One input, and gates that are each told their fanins.
fn small(fanins: &[&[usize]]) -> Table {
    let gates = fanins.iter().map(|list| Gate { fanins: list.to_vec(), rows: 1 }).collect();
    Table { k: 2, inputs: 1, gates, outputs: vec![0] }
}

/// A chain of 191 gates, whose first reads this node. The gate at place 1 to 191 has this id.
fn chain(id: fn(usize) -> usize, first: usize) -> Table {
    let mut gates = vec![Gate { fanins: Vec::new(), rows: 1 }; NODE_LIMIT - 1];
    for place in 1..NODE_LIMIT {
        let before = if place == 1 { first } else { id(place - 1) };
        gates[id(place) - 1].fanins = vec![before];
    }
    Table { k: 2, inputs: 1, gates, outputs: vec![0] }
}

pub fn known() -> Vec<(Table, Option<usize>)> {
    let (forwards, backwards) = (|place| place, |place| NODE_LIMIT - place);
    vec![
        (small(&[&[0, 1]]), Some(1)),                // P8
        (small(&[&[3], &[3], &[2]]), Some(2)),       // P9: gate 1 is only downstream
        (small(&[&[1, 1]]), Some(1)),                // feeds itself twice
        (small(&[&[2], &[1]]), Some(1)),             // length 2
        (small(&[&[0], &[2], &[0], &[4]]), Some(2)), // two loops, behind no output
        (small(&[&[2], &[3], &[0]]), None),          // numbered against the order
        (chain(forwards, 0), None),
        (chain(backwards, 0), None),
        (chain(forwards, 191), Some(1)),
        (chain(backwards, 1), Some(1)),
    ]
}
