//! The mapper: from a gate table to a mapping sheet.

use crate::cone::Cone;
use crate::count::Count;
use crate::cover::{greatest_at_outputs, roots};
use crate::drawing::Drawing;
use crate::flow::Flow;
use crate::label::{label_with, Labelling, Probe};
use crate::order::order;
use crate::{area, table, Refusal};

/// The least length of a sheet buffer.
pub const SHEET_ROOM: usize = 49_152;

const LOOP: u8 = 7;
const ROOM: u8 = 8;

/// Reads and orders a gate table: refusals 1 to 7.
pub fn take(bytes: &[u8], count: &mut impl Count) -> Result<(Drawing, Vec<u16>), Refusal> {
    let drawing = table::read(bytes)?;
    match order(&drawing, count) {
        Ok(order) => Ok((drawing, order)),
        Err(gate) => Err(Refusal { number: LOOP, place: usize::from(gate) }),
    }
}

/// Maps a gate table into the sheet buffer, and answers the sheet's length.
pub fn map(bytes: &[u8], sheet: &mut [u8], count: &mut impl Count) -> Result<usize, Refusal> {
    let (drawing, order) = take(bytes, count)?;
    if sheet.len() < SHEET_ROOM {
        return Err(Refusal { number: ROOM, place: SHEET_ROOM });
    }
    Ok(write_sheet(&drawing, &order, sheet, count))
}

fn write_sheet(
    drawing: &Drawing,
    order: &[u16],
    sheet: &mut [u8],
    count: &mut impl Count,
) -> usize {
    let mut probe = Probe::new(drawing.nodes());
    let labelling = label_with(drawing, order, &mut probe, count);
    let is_root = roots(drawing, order, &labelling.cuts);
    let depth = greatest_at_outputs(drawing, &labelling.labels);
    let luts = is_root.iter().filter(|&&is_root| is_root).count();
    let mut writer = Writer { sheet, place: 0 };
    writer.field(16, |writer| writer.bytes(&[1, depth as u8, luts as u8]));
    for gate in drawing.gates() {
        write_line(drawing, order, &labelling, gate as u16, &mut probe, &mut writer, count);
    }
    let mut cone = Cone::new(drawing.nodes());
    for root in drawing.gates().filter(|&gate| is_root[gate]) {
        let leaves = &labelling.cuts[root];
        let table = cone.table(drawing, order, root as u16, leaves, count);
        writer.field(18, |writer| {
            writer.byte(root as u8);
            writer.list(leaves.iter().copied());
            writer.bytes(&table.to_be_bytes());
        });
    }
    writer.place
}

/// Writes a gate's line. Evidence is found again rather than kept from the labelling.
fn write_line(
    drawing: &Drawing,
    order: &[u16],
    labelling: &Labelling,
    gate: u16,
    probe: &mut Probe,
    writer: &mut Writer,
    count: &mut impl Count,
) {
    let labels = &labelling.labels;
    let evidence: Option<&Flow> = if labelling.owes_evidence(drawing, gate) {
        let p = area::peak(drawing, labels, gate);
        probe.flow_of(drawing, order, labels, gate, p, count);
        Some(&probe.flow)
    } else {
        None
    };
    writer.field(17, |writer| {
        writer.byte(labels[usize::from(gate)] as u8);
        writer.list(labelling.cuts[usize::from(gate)].iter().copied());
        match evidence {
            Some(flow) => {
                writer.byte(drawing.k as u8 + 1);
                flow.paths(drawing).for_each(|path| writer.list(path));
            }
            None => writer.byte(0),
        }
    });
}

/// A sheet buffer and the place reached in it.
struct Writer<'a> {
    sheet: &'a mut [u8],
    place: usize,
}

impl Writer<'_> {
    fn byte(&mut self, byte: u8) {
        self.sheet[self.place] = byte;
        self.place += 1;
    }

    fn bytes(&mut self, bytes: &[u8]) {
        self.sheet[self.place..][..bytes.len()].copy_from_slice(bytes);
        self.place += bytes.len();
    }

    /// A count and as many ids.
    fn list(&mut self, ids: impl Iterator<Item = u16>) {
        let start = self.place;
        self.byte(0);
        ids.for_each(|id| self.byte(id as u8));
        self.sheet[start] = (self.place - start - 1) as u8;
    }

    /// A field whose value the closure writes.
    fn field(&mut self, tag: u8, write_value: impl FnOnce(&mut Self)) {
        let start = self.place;
        self.bytes(&[tag, 0, 0]);
        write_value(self);
        let length = (self.place - start - 3) as u16;
        self.sheet[start + 1..start + 3].copy_from_slice(&length.to_be_bytes());
    }
}
