//! The gate table as bytes: reading, with refusals 1 to 6, and writing.

use crate::drawing::Drawing;
use crate::fields::{word, Fault, Fields};
use crate::ids::Ids;
use crate::Refusal;

pub const NODE_LIMIT: usize = 192;
pub const INPUT_LIMIT: usize = 64;
pub const OUTPUT_LIMIT: usize = 64;

/// Reads a gate table in one pass, up to its end or its first fault.
pub fn read(table: &[u8]) -> Result<Drawing, Refusal> {
    let mut fields = Fields { bytes: table, place: 0, above: 0 };
    let (mut drawing, nodes) = read_head(&mut fields)?;
    while drawing.nodes() < nodes {
        let (fanins, rows) = read_gate(&mut fields, drawing.k, nodes)?;
        drawing.fanins.push(fanins);
        drawing.tables.push(rows);
    }
    fields.demand(!fields.is_over(), Fault::Outputs)?;
    while !fields.is_over() {
        let surplus = drawing.outputs.len() == OUTPUT_LIMIT;
        let output = read_output(&mut fields, surplus, nodes)?;
        drawing.outputs.push(output);
    }
    Ok(drawing)
}

/// The drawing without its gates and outputs, and how many nodes it will have.
fn read_head(fields: &mut Fields) -> Result<(Drawing, usize), Refusal> {
    let value = fields.value(1, false)?;
    let (version, k, inputs, gates) = match *value {
        [version, k, inputs, gates] => (version, k, usize::from(inputs), usize::from(gates)),
        _ => return Err(fields.refusal(Fault::Length)),
    };
    let nodes = inputs + gates;
    let in_range = version == 1
        && (2..=6).contains(&k)
        && (1..=INPUT_LIMIT).contains(&inputs)
        && nodes <= NODE_LIMIT;
    fields.demand(in_range, Fault::Range)?;
    fields.pass(value);
    let mut drawing = Drawing::new(usize::from(k), inputs);
    drawing.fanins.reserve_exact(gates);
    drawing.tables.reserve_exact(gates);
    Ok((drawing, nodes))
}

fn read_gate(fields: &mut Fields, k: usize, nodes: usize) -> Result<(Ids, u64), Refusal> {
    let value = fields.value(2, false)?;
    fields.demand((10..=15).contains(&value.len()), Fault::Length)?;
    let (m, rest) = (usize::from(value[0]), &value[1..]);
    fields.demand(rest.len() == m + 8, Fault::Length)?;
    let (ids, rows) = rest.split_at(m);
    let in_range = m <= k && ids.iter().all(|&id| usize::from(id) < nodes);
    fields.demand(in_range, Fault::Range)?;
    let rows = word(rows);
    fields.demand(rows & !full_table(m) == 0, Fault::Rows)?;
    fields.pass(value);
    Ok((ids.iter().map(|&id| u16::from(id)).collect(), rows))
}

fn read_output(fields: &mut Fields, surplus: bool, nodes: usize) -> Result<u16, Refusal> {
    let value = fields.value(3, surplus)?;
    let output = match *value {
        [output] => output,
        _ => return Err(fields.refusal(Fault::Length)),
    };
    fields.demand(usize::from(output) < nodes, Fault::Range)?;
    fields.pass(value);
    Ok(u16::from(output))
}

/// Every row of a gate with this many fanins, 6 at most.
pub fn full_table(fanins: usize) -> u64 {
    u64::MAX >> (64 - (1 << fanins))
}

/// The bytes of a drawing that is small enough for them.
pub fn write(drawing: &Drawing) -> Vec<u8> {
    let byte = |number: usize| u8::try_from(number).expect("a table's numbers are bytes");
    let ids = |ids: &[u16]| ids.iter().map(|&id| byte(usize::from(id))).collect::<Vec<u8>>();
    let (k, inputs, gates) = (byte(drawing.k), byte(drawing.inputs), byte(drawing.gates().len()));
    let mut bytes = vec![1, 0, 4, 1, k, inputs, gates];
    for gate in drawing.gates() {
        let fanins = ids(&drawing.fanins[gate]);
        bytes.extend([2, 0, byte(9 + fanins.len()), byte(fanins.len())]);
        bytes.extend(fanins);
        bytes.extend(drawing.tables[gate].to_be_bytes());
    }
    for output in ids(&drawing.outputs) {
        bytes.extend([3, 0, 1, output]);
    }
    bytes
}

#[cfg(test)]
mod tests {
    use super::*;

    #[test]
    fn full_tables() {
        assert_eq!([1, 2, 3, 6].map(full_table), [3, 15, 255, u64::MAX]);
    }
}
