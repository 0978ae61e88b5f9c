//! What must hold of the sheet that a mapper wrote.

use crate::mapped::Mapped;
use second::evidence::{is_due, is_evidence};
use second::graph::Graph;
use second::mapping::{gate_words, lut_words, Lut};
use second::random::Random;
use second::sheet::{read, Sheet, SHEET_LIMIT};
use second::words::ROW_WORDS;

/// With so many inputs every setting is tried.
const FEW_INPUTS: usize = 10;
/// With more, so many times 64 settings.
const BLOCKS: usize = 8;

pub fn check(mapped: &Mapped, bytes: &[u8], random: &mut Random) -> Result<(), String> {
    let sheet = whole(mapped, bytes)?;
    fixed_part(mapped, &sheet)?;
    evidence(mapped, &sheet)?;
    values(&mapped.graph, &sheet.luts, random)
}

/// The bytes are a sheet from the first to the last, and no more of them than the paper says.
fn whole(mapped: &Mapped, bytes: &[u8]) -> Result<Sheet, String> {
    let sheet = read(&mapped.graph.table, bytes)
        .map_err(|(number, place)| format!("shape: {number} at {place}"))?;
    match sheet.bytes() == bytes && bytes.len() <= SHEET_LIMIT {
        true => Ok(sheet),
        false => Err(format!("shape: {} bytes", bytes.len())),
    }
}

/// Labels, cuts, LUTs, tables, depth and counts are those of the second mapper.
pub fn fixed_part(mapped: &Mapped, sheet: &Sheet) -> Result<(), String> {
    let (found, due) = (sheet.fixed_part(), mapped.sheet.fixed_part());
    match found == due {
        true => Ok(()),
        false => Err(format!("fixed part: {found:?}\ndue {due:?}")),
    }
}

/// Where evidence is due there is true evidence, and elsewhere none.
pub fn evidence(mapped: &Mapped, sheet: &Sheet) -> Result<(), String> {
    let (graph, labels) = (&mapped.graph, &mapped.labelled.labels);
    for (gate, line) in graph.gates().zip(&sheet.lines) {
        let holds = match is_due(graph, labels, gate) {
            true => is_evidence(graph, labels, gate, &line.paths),
            false => line.paths.is_empty(),
        };
        if !holds {
            return Err(format!("evidence: of {gate}, {:?}", line.paths));
        }
    }
    Ok(())
}

/// Every LUT gives its root the value that the gates give it, and every output has one.
pub fn values(graph: &Graph, luts: &[Lut], random: &mut Random) -> Result<(), String> {
    for words in settings(graph.table.inputs, FEW_INPUTS, BLOCKS, random) {
        let (by_gates, by_luts) = (gate_words(graph, &words), lut_words(graph, luts, &words));
        let roots = luts.iter().map(|lut| lut.root);
        for node in roots.chain(graph.table.outputs.iter().copied()) {
            if by_luts[node] != Some(by_gates[node]) {
                return Err(format!("values: of {node} with inputs {words:x?}"));
            }
        }
    }
    Ok(())
}

/// Words of the inputs, each with 64 settings: with few inputs all settings, else so many words.
pub fn settings(inputs: usize, few: usize, blocks: usize, random: &mut Random) -> Vec<Vec<u64>> {
    let every = |block| (0..inputs).map(|input| word_of_all(input, block)).collect();
    match inputs <= few {
        true => (0..blocks_of_all(inputs)).map(every).collect(),
        false => (0..blocks).map(|_| (0..inputs).map(|_| random.word()).collect()).collect(),
    }
}

/// How many blocks of 64 all settings are.
fn blocks_of_all(inputs: usize) -> usize {
    1 << inputs.saturating_sub(ROW_WORDS.len())
}

/// An input's values in a block, when setting s of all has bit i of s at input i.
fn word_of_all(input: usize, block: usize) -> u64 {
    match input.checked_sub(ROW_WORDS.len()) {
        None => ROW_WORDS[input],
        Some(bit) if block >> bit & 1 == 1 => u64::MAX,
        Some(_) => 0,
    }
}

#[cfg(test)]
mod tests {
    use super::*;
    use std::collections::BTreeSet;

    #[test]
    fn all_settings_are_all_and_differ() {
        for inputs in 1..=FEW_INPUTS {
            let mut settings = BTreeSet::new();
            for block in 0..blocks_of_all(inputs) {
                for at in 0..64 {
                    let bit = |input| word_of_all(input, block) >> at & 1;
                    settings.insert((0..inputs).map(bit).collect::<Vec<_>>());
                }
            }
            assert_eq!(settings.len(), 1 << inputs);
        }
    }
}
