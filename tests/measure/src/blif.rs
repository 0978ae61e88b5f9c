//! Gates and LUTs as BLIF, for Yosys and ABC. Node v is `nV`, and the i-th output is a buffer `oI`,
//! so that an output may be an input or stand twice.

use second::mapping::Lut;
use second::table::Table;
use std::collections::BTreeSet;
use std::fmt::Write;

/// The gates behind the outputs. Others take no part in a cover, and would in Yosys' depth.
pub fn needed(table: &Table) -> BTreeSet<usize> {
    let mut needed = BTreeSet::new();
    let mut due = table.outputs.clone();
    while let Some(node) = due.pop() {
        if node >= table.inputs && needed.insert(node) {
            due.extend(&table.gates[node - table.inputs].fanins);
        }
    }
    needed
}

/// The drawing's gates.
pub fn gates(table: &Table) -> String {
    let gates = needed(table).into_iter().map(|node| {
        let gate = &table.gates[node - table.inputs];
        names(node, &gate.fanins, gate.rows)
    });
    model("gates", table, gates)
}

/// A sheet's LUTs.
pub fn luts(table: &Table, luts: &[Lut]) -> String {
    model("luts", table, luts.iter().map(|lut| names(lut.root, &lut.leaves, lut.rows)))
}

fn model(name: &str, table: &Table, parts: impl Iterator<Item = String>) -> String {
    let list = |letter: char, count: usize| -> String {
        (0..count).map(|at| format!(" {letter}{at}")).collect()
    };
    let (inputs, outputs) = (list('n', table.inputs), list('o', table.outputs.len()));
    let parts: String = parts.collect();
    let buffers = table.outputs.iter().enumerate();
    let buffers: String =
        buffers.map(|(at, node)| format!(".names n{node} o{at}\n1 1\n")).collect();
    format!(".model {name}\n.inputs{inputs}\n.outputs{outputs}\n{parts}{buffers}.end\n")
}

/// A node with its function, by the rows of its rarer value: ABC then makes one AND of an AND with
/// inverters at its pins. Yosys drops a gate that only repeats its fanin, so such a gate names it
/// twice; and it takes a gate without rows for unknown, so a constant is said at each.
fn names(node: usize, fanins: &[usize], rows: u64) -> String {
    if let (&[only], 0b10) = (fanins, rows) {
        return names(node, &[only, only], 0b1000);
    }
    let mut text = String::from(".names");
    // Writing into a string does not fail.
    fanins.iter().for_each(|fanin| write!(text, " n{fanin}").unwrap());
    writeln!(text, " n{node}").unwrap();
    let said = said_value(fanins.len(), rows);
    for row in (0..1_u64 << fanins.len()).filter(|row| rows >> row & 1 == said) {
        let bits = (0..fanins.len()).map(|bit| if row >> bit & 1 == 1 { '1' } else { '0' });
        writeln!(text, "{} {said}", bits.collect::<String>()).unwrap();
    }
    text
}

/// The value that fewer rows have, if any has it.
fn said_value(fanins: usize, rows: u64) -> u64 {
    let (all, ones) = (1_u32 << fanins, rows.count_ones());
    u64::from(ones == all || (ones > 0 && ones <= all / 2))
}

#[cfg(test)]
mod tests {
    use super::*;
    use second::drawings::named;

    #[test]
    fn p3_as_gates() {
        let text = ".model gates\n.inputs n0 n1\n.outputs o0\n.names n0 n1 n2\n11 1\n\
                    .names n0 n2 n3\n00 0\n.names n3 o0\n1 1\n.end\n";
        assert_eq!(gates(&named("P3")), text);
    }

    #[test]
    fn buffers_and_constants_stay_gates() {
        assert_eq!(names(2, &[1], 0b10), ".names n1 n1 n2\n11 1\n");
        assert_eq!(names(2, &[1], 0), ".names n1 n2\n0 0\n1 0\n");
        assert_eq!(names(2, &[1], 0b11), ".names n1 n2\n0 1\n1 1\n");
    }

    #[test]
    fn gates_that_no_output_needs_are_left_out() {
        let mut table = named("P1");
        table.outputs = vec![5, 0];
        assert_eq!(needed(&table).into_iter().collect::<Vec<usize>>(), [5]);
    }
}
