//! Sheets that lie cleverly, each with the one rule that it breaks.

use super::Edges;
use second::drawings::named;
use second::graph::Graph;
use second::mapping::lut;
use second::nodes::NodeSet;
use second::sheet::{mapped, Sheet};
use second::table::{Gate, Table};
use second::Refused;

pub fn add(edges: &mut Edges) {
    paths_to_9(edges);
    paths_to_8(edges);
    too_high(edges);
    wrong_cones(edges);
    depths_that_agree(edges);
    never_packed(edges);
}

fn gate(fanins: &[usize], rows: u64) -> Gate {
    Gate { fanins: fanins.to_vec(), rows }
}

/// Two chains, from 0 and from 1, meet in 7; 2 joins in 8 and 3 in 9. Gate 10 reads 3 and is
/// behind no gate. Labels 1, 1, 1, 1, 2, 3, 1.
fn chains() -> Table {
    let gates = vec![
        gate(&[0], 1),      // 4
        gate(&[4], 1),      // 5
        gate(&[1], 1),      // 6
        gate(&[5, 6], 0x8), // 7
        gate(&[7, 2], 0x6), // 8
        gate(&[8, 3], 0xE), // 9
        gate(&[3], 1),      // 10
    ];
    Table { k: 2, inputs: 4, gates, outputs: vec![9, 10] }
}

fn sheet_of(table: &Table) -> Sheet {
    mapped(&Graph::new(table.clone()).expect("it has no loop"))
}

/// The chains' sheet with other evidence at a gate.
fn with_paths(edges: &mut Edges, gate: usize, paths: &[&[usize]], refused: Option<Refused>) {
    let table = chains();
    let mut sheet = sheet_of(&table);
    sheet.lines[gate - table.inputs].paths = paths.iter().map(|path| path.to_vec()).collect();
    let name = format!("chains, {gate} with {paths:?}");
    match refused {
        Some(refused) => edges.refused(&name, &table, &sheet, refused),
        None => edges.accepted(&name, &table, &sheet),
    }
}

/// D is 8 and 9, so that 7, 2 and 3 are the last nodes that a path may have.
fn paths_to_9(edges: &mut Edges) {
    let mut holds = |paths: &[&[usize]]| with_paths(edges, 9, paths, None);
    holds(&[&[0, 4, 5, 7], &[2], &[3]]);
    holds(&[&[1, 6, 7], &[2], &[3]]);
    holds(&[&[3], &[2], &[1, 6, 7]]);
    let mut lies = |paths: &[&[usize]]| with_paths(edges, 9, paths, Some((27, 9)));
    lies(&[]);
    lies(&[&[0, 4, 5, 7], &[1, 6, 7], &[3]]); // 7 is on two paths
    lies(&[&[2], &[2], &[3]]); // 2 is on two paths
    lies(&[&[0, 4, 5, 7], &[2], &[2]]);
    lies(&[&[4, 5, 7], &[2], &[3]]); // starts at a gate
    lies(&[&[7], &[2], &[3]]);
    lies(&[&[0, 5, 7], &[2], &[3]]); // 0 is no fanin of 5
    lies(&[&[0, 7], &[2], &[3]]);
    lies(&[&[1, 4, 5, 7], &[2], &[3]]);
    lies(&[&[7, 5, 4, 0], &[2], &[3]]); // from gate to fanin
    lies(&[&[0, 4, 5], &[2], &[3]]); // 5 is no fanin of 8 or 9
    lies(&[&[0], &[2], &[3]]);
    lies(&[&[0, 4, 5, 7, 8], &[2], &[3]]); // 8 is in D
    lies(&[&[0, 4, 5, 7], &[2, 8], &[3]]);
    lies(&[&[0, 4, 5, 7], &[2], &[3, 9]]); // 9 is in D
    lies(&[&[0, 4, 5, 7], &[2], &[3, 10]]); // 10 is not behind 9
    lies(&[&[0, 4, 5, 7], &[3, 10], &[2]]);
    lies(&[&[0, 4, 4, 5, 7], &[2], &[3]]); // 4 is twice on one
    lies(&[&[0, 4, 5, 7, 0, 4, 5, 7], &[2], &[3]]);
}

/// D is 4 to 8: a path that passes through it is longer than its one node.
fn paths_to_8(edges: &mut Edges) {
    with_paths(edges, 8, &[&[2], &[0], &[1]], None);
    let mut lies = |paths: &[&[usize]]| with_paths(edges, 8, paths, Some((27, 8)));
    lies(&[&[0, 4], &[1], &[2]]);
    lies(&[&[0, 4, 5, 7], &[1], &[2]]);
    lies(&[&[0], &[1, 6, 7], &[2]]);
    lies(&[&[0], &[1], &[3]]); // 3 is not behind 8
    lies(&[&[0], &[1], &[7]]);
    // Given where nothing is due: the label of 7 is p, and the p of 4 is 0.
    with_paths(edges, 7, &[&[0], &[1], &[2]], Some((27, 7)));
    with_paths(edges, 4, &[&[0], &[1], &[2]], Some((27, 4)));
}

/// A label that is one too high, with the fanins as a cut that fits it.
fn too_high(edges: &mut Edges) {
    let mut one_up = |name: &str, at: usize, leaves: &[usize], paths: &[&[usize]]| {
        let table = named(name);
        let mut sheet = sheet_of(&table);
        let line = &mut sheet.lines[at];
        line.label += 1;
        line.leaves = leaves.to_vec();
        line.paths = paths.iter().map(|path| path.to_vec()).collect();
        let refused = (27, table.inputs + at);
        edges.refused(&format!("{name} one too high, {paths:?}"), &table, &sheet, refused);
    };
    // Edges counted for nodes: three of them leave 0 and 1.
    one_up("P3", 1, &[0, 2], &[&[0], &[1], &[0]]);
    one_up("P3", 1, &[0, 2], &[&[0], &[1], &[0, 2]]);
    one_up("P3", 1, &[0, 2], &[]);
    one_up("P2", 2, &[4, 5], &[&[0], &[1], &[2], &[3], &[4]]);
    one_up("P2", 2, &[4, 5], &[&[0], &[1], &[2], &[3], &[0, 4]]);
    one_up("P5 at K 3", 1, &[2, 3], &[&[0], &[1], &[2], &[2]]);
    one_up("P4", 5, &[8], &[&[0], &[1, 4, 6], &[2, 5, 7]]);
    one_up("P4", 5, &[8], &[&[0, 4, 6], &[2, 5, 7], &[3, 5, 7]]);
}

/// LUTs whose table is that of another cone.
fn wrong_cones(edges: &mut Edges) {
    let table = named("P4");
    let mut lies = |leaves: &[usize], rows: u64| {
        let mut sheet = sheet_of(&table);
        sheet.luts[2].leaves = leaves.to_vec();
        sheet.luts[2].rows = rows;
        edges.refused(&format!("P4's 9 by {leaves:?}"), &table, &sheet, (29, 9));
    };
    lies(&[6, 7], 0xE); // of 4 and 5
    lies(&[4, 5], 0x7); // of 6 and 7
    lies(&[4, 7], 0xE);
    lies(&[8], 0x2); // of a wire
    lies(&[4, 5], 0x1); // of 8
}

/// P2 with the LUTs of P1: the cover is a cover and 2 deep, the labels say 1.
fn depths_that_agree(edges: &mut Edges) {
    let table = named("P2");
    let graph = Graph::new(table.clone()).expect("it has no loop");
    let mut sheet = sheet_of(&table);
    sheet.luts = graph.gates().map(|gate| lut(&graph, gate, graph.fanin_set(gate))).collect();
    edges.refused("P2, deeper", &table, &sheet, (30, 0));
    sheet.depth = 2;
    edges.refused("P2, deeper, and the head says so", &table, &sheet, (30, 0));
    // The head alone says what nobody else does.
    sheet.depth = 3;
    edges.refused("P2, three depths", &table, &sheet, (30, 0));
}

/// A chain of three inverters as if nothing could be packed: labels 1, 2, 3, each gate a LUT over
/// its fanin, and the depth to match.
fn never_packed(edges: &mut Edges) {
    let table = Table {
        k: 2,
        inputs: 1,
        gates: (0..3).map(|fanin| gate(&[fanin], 1)).collect(),
        outputs: vec![3],
    };
    let graph = Graph::new(table.clone()).expect("it has no loop");
    let mut sheet = sheet_of(&table);
    for (at, line) in sheet.lines.iter_mut().enumerate() {
        line.label = at + 1;
        line.leaves = vec![at];
    }
    sheet.luts = graph.gates().map(|gate| lut(&graph, gate, graph.fanin_set(gate))).collect();
    sheet.depth = 3;
    edges.refused("never packed, without evidence", &table, &sheet, (27, 2));
    for line in &mut sheet.lines[1..] {
        line.paths = vec![vec![0], vec![0], vec![0]];
    }
    edges.refused("never packed, with one input thrice", &table, &sheet, (27, 2));
    sheet.lines[1].paths.clear();
    sheet.lines[1].label = 1;
    sheet.lines[1].leaves = vec![0];
    sheet.lines[2].label = 2;
    sheet.depth = 2;
    sheet.luts.remove(0);
    sheet.luts[0] = lut(&graph, 2, NodeSet::only(0));
    edges.refused("packed once and not again", &table, &sheet, (27, 3));
}
