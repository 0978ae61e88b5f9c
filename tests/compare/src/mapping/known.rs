//! Drawings with all that is to be mapped of them, written down by hand from document 01.

use super::comparison::Outcome;
use second::drawings::named;
use second::mapping::Lut;
use second::sheet::{read, Sheet, BUFFER_LIMIT};
use second::table::{self, gate_field, head_field, output_field, Gate, Table};
use second::{Refused, ROOM};

/// A label, a cut and how many paths for each gate, the LUTs and the depth.
struct Settled {
    lines: Vec<(usize, Vec<usize>, usize)>,
    luts: Vec<Lut>,
    depth: usize,
    /// Where the paper names it, or where there is no evidence to lengthen the sheet.
    length: Option<usize>,
}

impl Settled {
    fn is_of(&self, sheet: &Sheet) -> bool {
        let lines = sheet.lines.iter();
        let lines = lines.map(|line| (line.label, line.leaves.clone(), line.paths.len()));
        lines.eq(self.lines.iter().cloned())
            && sheet.luts == self.luts
            && sheet.depth == self.depth
            && self.length.map_or(true, |length| length == sheet.bytes().len())
    }
}

/// A table, and the parts of its sheet that the paper fixes or the refusal.
pub struct Known {
    pub name: String,
    pub table: Vec<u8>,
    due: Result<Settled, Refused>,
}

impl Known {
    /// Whether this is the outcome with a buffer of so many bytes.
    pub fn is_due(&self, outcome: &Outcome, length: usize) -> bool {
        match (&self.due, outcome) {
            (Ok(settled), Ok(bytes)) => {
                let table = table::read(&self.table).table().ok();
                let sheet = table.and_then(|table| read(&table, bytes).ok());
                length >= BUFFER_LIMIT && sheet.map_or(false, |sheet| settled.is_of(&sheet))
            }
            (Ok(_), Err(refused)) => length < BUFFER_LIMIT && *refused == (ROOM, BUFFER_LIMIT),
            (Err(due), outcome) => outcome.as_ref().err() == Some(due),
        }
    }
}

pub fn all() -> Vec<Known> {
    let mut known = paper();
    known.extend(limits());
    known.extend(outputs());
    known.push(refused("no bytes", Vec::new(), (1, 0)));
    known
}

fn refused(name: &str, table: Vec<u8>, due: Refused) -> Known {
    Known { name: name.to_string(), table, due: Err(due) }
}

fn lut(root: usize, leaves: &[usize], rows: u64) -> Lut {
    Lut { root, leaves: leaves.to_vec(), rows }
}

/// A label, a cut and a number of paths.
type Line<'a> = (usize, &'a [usize], usize);

fn sheet(name: &str, table: &Table, lines: &[Line], luts: Vec<Lut>, depth: usize) -> Known {
    let lines: Vec<(usize, Vec<usize>, usize)> =
        lines.iter().map(|&(label, cut, paths)| (label, cut.to_vec(), paths)).collect();
    let leaves: usize = lines.iter().map(|(_, cut, _)| cut.len()).sum();
    let lut_leaves: usize = luts.iter().map(|lut| lut.leaves.len()).sum();
    let has_paths = lines.iter().any(|&(_, _, paths)| paths > 0);
    // A head has 6 bytes, a line without evidence 6 and its leaves, a LUT 13 and its leaves.
    let bytes = 6 + 6 * lines.len() + leaves + 13 * luts.len() + lut_leaves;
    let length = if name == "P1" { Some(83) } else { Some(bytes).filter(|_| !has_paths) };
    let due = Ok(Settled { lines, luts, depth, length });
    Known { name: name.to_string(), table: table.bytes(), due }
}

/// P1 to P9.
fn paper() -> Vec<Known> {
    let drawn = |name: &str, lines: &[Line], luts: &[Lut], depth: usize| {
        sheet(name, &named(name), lines, luts.to_vec(), depth)
    };
    let (low, high) = ((1, &[0, 1][..], 0), (1, &[2, 3][..], 0));
    let (and_low, and_high) = (lut(4, &[0, 1], 0x8), lut(5, &[2, 3], 0x8));
    let p1 = [and_low.clone(), and_high.clone(), lut(6, &[4, 5], 0xE)];
    let p4_lines = [low, high, low, high, (2, &[6, 7][..], 3), (2, &[4, 5], 0)];
    let p4 = [and_low, and_high, lut(9, &[4, 5], 0xE)];
    let p5 = [lut(3, &[0, 1], 0x8), lut(4, &[2, 3], 0x8)];
    vec![
        drawn("P1", &[low, high, (2, &[4, 5], 4)], &p1, 2),
        drawn("P2", &[low, high, (1, &[0, 1, 2, 3], 0)], &[lut(6, &[0, 1, 2, 3], 0xF888)], 1),
        drawn("P3", &[low, low], &[lut(3, &[0, 1], 0xA)], 1),
        drawn("P4", &p4_lines, &p4, 2),
        drawn("P5 at K 2", &[low, (2, &[2, 3], 3)], &p5, 2),
        drawn("P5 at K 3", &[low, (1, &[0, 1, 2], 0)], &[lut(4, &[0, 1, 2], 0x80)], 1),
        drawn("P6", &[(1, &[0], 0)], &[lut(1, &[0], 0x2)], 1),
        drawn("P7", &[], &[], 0),
        refused("P8", named("P8").bytes(), (7, 1)),
        refused("P9", named("P9").bytes(), (7, 2)),
    ]
}

/// The paper's last line on small drawings but for the buffer, which has a test of its own.
fn limits() -> Vec<Known> {
    let bare = |k: usize, inputs: usize, outputs: usize| Table {
        k,
        inputs,
        gates: Vec::new(),
        outputs: vec![0; outputs],
    };
    let nothing = |name: &str, table: &Table| sheet(name, table, &[], Vec::new(), 0);
    let inverters = |gates: u8| {
        let gate = gate_field(&[0], 1).repeat(usize::from(gates));
        [head_field(2, 64, gates), gate, output_field(0)].concat()
    };
    let all_inverters =
        Table { k: 2, inputs: 64, gates: vec![inverter(0); 128], outputs: vec![191] };
    let line: Line = (1, &[0], 0);
    vec![
        nothing("K 6", &bare(6, 1, 1)),
        refused("K 7", [head_field(7, 1, 0), output_field(0)].concat(), (4, 0)),
        sheet("n 192", &all_inverters, &[line; 128], vec![lut(191, &[0], 1)], 1),
        refused("n 193", inverters(129), (4, 0)),
        nothing("64 outputs", &bare(2, 1, 64)),
        refused("65 outputs", bare(2, 1, 65).bytes(), (6, 263)),
    ]
}

fn inverter(fanin: usize) -> Gate {
    Gate { fanins: vec![fanin], rows: 1 }
}

/// Outputs that are inputs, or stand twice.
fn outputs() -> Vec<Known> {
    let and = |outputs: &[usize]| {
        let gates = vec![Gate { fanins: vec![1, 0], rows: 0x8 }];
        Table { k: 2, inputs: 2, gates, outputs: outputs.to_vec() }
    };
    let line: Line = (1, &[0, 1], 0);
    let luts = || vec![lut(2, &[0, 1], 0x8)];
    vec![
        sheet("outputs are inputs", &and(&[1, 0, 1]), &[line], Vec::new(), 0),
        sheet("an output is an input", &and(&[0, 2]), &[line], luts(), 1),
        sheet("an output stands twice", &and(&[2, 2]), &[line], luts(), 1),
        sheet("an output stands 64 times", &and(&[2; 64]), &[line], luts(), 1),
    ]
}
