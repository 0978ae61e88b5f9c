//! Random whole gate tables. Nothing keeps their gates from loops, which reading does not mind.

use second::random::Random;
use second::table::{row_mask, Gate, Table, INPUT_LIMIT, NODE_LIMIT, OUTPUT_LIMIT};

/// A number from `least` to `limit`, at either end more often than an even draw has it.
fn often_at_an_end(random: &mut Random, least: usize, limit: usize) -> usize {
    match random.below(8) {
        0 => least,
        1 => limit,
        2..=4 => random.between(least, limit.min(least + 8)),
        _ => random.between(least, limit),
    }
}

fn gate(random: &mut Random, k: usize, nodes: usize) -> Gate {
    let fanins: Vec<usize> = (0..random.between(1, k)).map(|_| random.below(nodes)).collect();
    let rows = random.word() & row_mask(fanins.len());
    Gate { fanins, rows }
}

/// A table of any K, with any number of inputs, gates and outputs that may stand together.
pub fn table(random: &mut Random) -> Table {
    let k = random.between(2, 6);
    let inputs = often_at_an_end(random, 1, INPUT_LIMIT);
    let gates = often_at_an_end(random, 0, NODE_LIMIT - inputs);
    let outputs = often_at_an_end(random, 1, OUTPUT_LIMIT);
    let nodes = inputs + gates;
    Table {
        k,
        inputs,
        gates: (0..gates).map(|_| gate(random, k, nodes)).collect(),
        outputs: (0..outputs).map(|_| random.below(nodes)).collect(),
    }
}
