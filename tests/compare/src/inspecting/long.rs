//! Sheets far longer than any that can be accepted, of good shape up to a fault far behind: places
//! that need more than two bytes.

use super::comparison::Comparison;
use super::PATH_LIMIT;
use crate::mapped::Mapped;
use second::random::shapes::{drawing, Numbering, Shape};
use second::sheet::Sheet;
use second::table::{FANIN_LIMIT, NODE_LIMIT};
use second::Refused;

/// Each gate of a full drawing has K + 1 paths of 255 ids.
fn longest(mapped: &Mapped) -> Sheet {
    let mut sheet = mapped.sheet.clone();
    for line in &mut sheet.lines {
        line.paths = vec![vec![0; PATH_LIMIT]; FANIN_LIMIT + 1];
    }
    sheet
}

pub fn compare(comparison: &mut Comparison) -> Result<(), String> {
    comparison.tally.begin("far too long");
    let random = &mut comparison.random;
    let table = drawing(Shape::Deep, Numbering::Forwards, FANIN_LIMIT, NODE_LIMIT, random);
    let first_gate = table.inputs;
    let mapped = Mapped::of_table(table).ok_or("a loop")?;
    let fields = longest(&mapped).fields();
    let whole = fields.concat();
    // The first gate reads inputs alone, so that it owes no evidence.
    refuse(comparison, &mapped, &whole, (27, first_gate))?;
    refuse(comparison, &mapped, &[&whole[..], &[0]].concat(), (31, whole.len()))?;
    let mut start = 0;
    for (at, field) in fields.iter().enumerate() {
        if at % 16 == 0 || at + 20 > fields.len() {
            faults_at(comparison, &mapped, &fields, at, start)?;
        }
        start += field.len();
    }
    Ok(())
}

/// A field that is cut, has another tag, a byte more, or a number out of its range.
fn faults_at(
    comparison: &mut Comparison,
    mapped: &Mapped,
    fields: &[Vec<u8>],
    at: usize,
    start: usize,
) -> Result<(), String> {
    let with = |field: &[u8]| {
        let mut fields = fields.to_vec();
        fields[at] = field.to_vec();
        fields.concat()
    };
    let field = &fields[at];
    refuse(comparison, mapped, &with(&[])[..start], (21, start))?;
    refuse(comparison, mapped, &with(field)[..start + field.len() - 1], (21, start))?;
    let mut changed = field.clone();
    changed[0] += 3;
    refuse(comparison, mapped, &with(&changed), (22, start))?;
    changed[0] -= 3;
    // The version, the label or the root.
    changed[3] = 0;
    refuse(comparison, mapped, &with(&changed), (24, start))?;
    changed.push(0);
    let length = (changed.len() - 3) as u16;
    changed[1..3].copy_from_slice(&length.to_be_bytes());
    refuse(comparison, mapped, &with(&changed), (23, start))
}

fn refuse(
    comparison: &mut Comparison,
    mapped: &Mapped,
    sheet: &[u8],
    due: Refused,
) -> Result<(), String> {
    match comparison.ruling(mapped, sheet)? {
        Err(refused) if refused == due => Ok(()),
        reply => Err(format!("{reply:?} by both inspectors, by hand {due:?}")),
    }
}
