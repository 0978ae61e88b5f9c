//! Drawings that blow up a careless program: paths double at every gate, or every gate is walked
//! through again for every other. All labels are 1, and the one or two inputs are every cut.

use second::mapping::Lut;
use second::sheet::{Line, Sheet};
use second::table::{Gate, Table, NODE_LIMIT};

pub struct Careless {
    pub name: &'static str,
    pub table: Table,
    /// The LUTs of the cover, by hand.
    pub luts: Vec<Lut>,
}

impl Careless {
    /// Whether a sheet is the mapper's.
    pub fn is_due(&self, sheet: &Sheet) -> bool {
        let inputs: Vec<usize> = (0..self.table.inputs).collect();
        let is_line_due =
            |line: &Line| line.label == 1 && line.leaves == inputs && line.paths.is_empty();
        sheet.depth == 1 && sheet.luts == self.luts && sheet.lines.iter().all(is_line_due)
    }
}

pub fn all() -> Vec<Careless> {
    vec![
        chain("191 of AND(x, x)", |place| place),
        chain("191 of AND(x, x), numbered backwards", |place| 192 - place),
        same_two(),
        diamonds(),
    ]
}

/// Each gate reads the one before it twice; the gate at place 1 to 191 has this id.
fn chain(name: &'static str, id: fn(usize) -> usize) -> Careless {
    let mut gates = vec![Gate { fanins: Vec::new(), rows: 0x8 }; NODE_LIMIT - 1];
    for place in 1..NODE_LIMIT {
        let before = if place == 1 { 0 } else { id(place - 1) };
        gates[id(place) - 1].fanins = vec![before, before];
    }
    let last = id(NODE_LIMIT - 1);
    let luts = vec![Lut { root: last, leaves: vec![0], rows: 0x2 }];
    Careless { name, table: Table { k: 2, inputs: 1, gates, outputs: vec![last] }, luts }
}

/// An inverter, and 190 gates that read it and the input.
fn same_two() -> Careless {
    let mut gates = vec![Gate { fanins: vec![0, 0], rows: 0x1 }];
    gates.resize(NODE_LIMIT - 1, Gate { fanins: vec![1, 0], rows: 0x4 });
    let outputs: Vec<usize> = (NODE_LIMIT - 64..NODE_LIMIT).collect();
    // 0x4 is "1 is false and 0 is true", and 1 is false exactly when 0 is true.
    let lut = |&root: &usize| Lut { root, leaves: vec![0], rows: 0x2 };
    let luts = outputs.iter().map(lut).collect();
    let table = Table { k: 3, inputs: 1, gates, outputs };
    Careless { name: "190 gates that read the same two", table, luts }
}

/// AND and OR of both gates of the level before, which are the AND and the OR of the inputs.
fn diamonds() -> Careless {
    let levels = (NODE_LIMIT - 2) / 2;
    let level = |level: usize| {
        let fanins = vec![2 * level, 2 * level + 1];
        [Gate { fanins: fanins.clone(), rows: 0x8 }, Gate { fanins, rows: 0xE }]
    };
    let gates = (0..levels).flat_map(level).collect();
    let lut = |root: usize, rows: u64| Lut { root, leaves: vec![0, 1], rows };
    let luts = vec![lut(NODE_LIMIT - 2, 0x8), lut(NODE_LIMIT - 1, 0xE)];
    let outputs = vec![NODE_LIMIT - 1, NODE_LIMIT - 2];
    let table = Table { k: 2, inputs: 2, gates, outputs };
    Careless { name: "95 levels of AND and OR", table, luts }
}
