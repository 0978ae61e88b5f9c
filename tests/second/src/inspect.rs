//! The inspector: rules 21 to 31 in four passes. The first pass, over the sheet's shape, is the
//! sheet's reading.

use crate::cuts::{function, is_cut};
use crate::evidence::{is_due, is_evidence};
use crate::graph::Graph;
use crate::labels::p;
use crate::mapping::{cover_depth, Lut};
use crate::nodes::NodeSet;
use crate::sheet::{read, Line, Sheet};
use crate::Refused;

/// The paper's names of the inspector's rules, each with the paper's number.
#[derive(Clone, Copy, Debug, PartialEq, Eq)]
pub enum Rule {
    Torn = 21,
    Tag = 22,
    Length = 23,
    Range = 24,
    Cut = 25,
    Label = 26,
    Paths = 27,
    Cover = 28,
    Function = 29,
    Depth = 30,
    Extra = 31,
}

impl Rule {
    /// The refusal by this rule at a place.
    pub fn at(self, place: usize) -> Refused {
        (self as u32, place)
    }
}

/// The inspector: from a table and a sheet as bytes, the depth or the refusals 1 to 7 and 21 to
/// 31.
pub fn inspect(table: &[u8], sheet: &[u8]) -> Result<usize, Refused> {
    let graph = Graph::read(table)?;
    let sheet = read(&graph.table, sheet)?;
    judge(&graph, &sheet)?;
    Ok(sheet.depth)
}

/// The passes after the first, over a sheet whose shape is good.
pub fn judge(graph: &Graph, sheet: &Sheet) -> Result<(), Refused> {
    let labels = labels_of(graph, sheet);
    for (gate, line) in graph.gates().zip(&sheet.lines) {
        judge_gate(graph, &labels, gate, line).map_err(|rule| rule.at(gate))?;
    }
    for lut in &sheet.luts {
        judge_lut(graph, lut).map_err(|rule| rule.at(lut.root))?;
    }
    if let Some(gate) = uncovered(graph, &sheet.luts) {
        return Err(Rule::Cover.at(gate));
    }
    let greatest_label = graph.table.outputs.iter().map(|&output| labels[output]).max();
    if [Some(cover_depth(graph, &sheet.luts)), greatest_label] != [Some(sheet.depth); 2] {
        return Err(Rule::Depth.at(0));
    }
    Ok(())
}

/// The sheet's labels by node, 0 at inputs.
fn labels_of(graph: &Graph, sheet: &Sheet) -> Vec<usize> {
    let at_inputs = vec![0; graph.table.inputs];
    at_inputs.into_iter().chain(sheet.lines.iter().map(|line| line.label)).collect()
}

/// Rules 25, 26, 27 on one gate, with p and D from the sheet's labels.
fn judge_gate(graph: &Graph, labels: &[usize], gate: usize, line: &Line) -> Result<(), Rule> {
    let leaves = NodeSet::from(&line.leaves[..]);
    if !is_cut(graph, gate, leaves) {
        return Err(Rule::Cut);
    }
    let p = p(graph, labels, gate);
    let greatest_leaf_label = leaves.rising().map(|leaf| labels[leaf]).max();
    if Some(line.label) != greatest_leaf_label.map(|greatest| greatest + 1)
        || ![p, p + 1].contains(&line.label)
    {
        return Err(Rule::Label);
    }
    let paths_hold = match is_due(graph, labels, gate) {
        true => is_evidence(graph, labels, gate, &line.paths),
        false => line.paths.is_empty(),
    };
    if !paths_hold {
        return Err(Rule::Paths);
    }
    Ok(())
}

/// Rules 25, 29 on one LUT. The cone's function has no bit above its rows.
fn judge_lut(graph: &Graph, lut: &Lut) -> Result<(), Rule> {
    let leaves = NodeSet::from(&lut.leaves[..]);
    if !is_cut(graph, lut.root, leaves) {
        return Err(Rule::Cut);
    }
    if lut.rows != function(graph, lut.root, leaves) {
        return Err(Rule::Function);
    }
    Ok(())
}

/// Rule 28: the lowest gate that is an output or a leaf of a listed LUT and no root, or a root
/// and neither.
fn uncovered(graph: &Graph, luts: &[Lut]) -> Option<usize> {
    let outputs = graph.table.outputs.iter();
    let named = outputs.chain(luts.iter().flat_map(|lut| &lut.leaves)).copied();
    let wanted: NodeSet = named.filter(|&node| !graph.is_input(node)).collect();
    let roots: NodeSet = luts.iter().map(|lut| lut.root).collect();
    wanted.without(roots).union(roots.without(wanted)).rising().next()
}

#[cfg(test)]
mod tests {
    use super::*;
    use crate::drawings::{named, paper};
    use crate::mapping::lut;
    use crate::sheet::mapped;
    use crate::table::{Gate, Table};

    /// A drawing of the paper and its sheet, changed.
    fn changed(name: &str, change: impl FnOnce(&mut Sheet)) -> Result<usize, Refused> {
        let table = named(name);
        let mut sheet = mapped(&Graph::new(table.clone()).unwrap());
        change(&mut sheet);
        inspect(&table.bytes(), &sheet.bytes())
    }

    #[test]
    fn the_papers_sheets_are_accepted() {
        let depths = [2, 1, 1, 2, 2, 1, 1, 0];
        for (drawing, depth) in paper().iter().zip(depths) {
            assert_eq!(changed(drawing.name, |_| ()), Ok(depth), "{}", drawing.name);
        }
    }

    #[test]
    fn a_bad_table_comes_before_a_bad_sheet() {
        assert_eq!(inspect(&[], &[]), Err((1, 0)));
        assert_eq!(inspect(&named("P9").bytes(), &[]), Err((7, 2)));
        assert_eq!(inspect(&named("P1").bytes(), &[]), Err((21, 0)));
    }

    #[test]
    fn rule_25_on_gates() {
        assert_eq!(changed("P1", |sheet| sheet.lines[0].leaves = vec![0, 2]), Err((25, 4)));
        assert_eq!(changed("P1", |sheet| sheet.lines[0].leaves = vec![0, 1, 2]), Err((25, 4)));
        assert_eq!(changed("P1", |sheet| sheet.lines[2].leaves = vec![6]), Err((25, 6)));
        assert_eq!(changed("P1", |sheet| sheet.lines[2].leaves = vec![4, 5, 6]), Err((25, 6)));
    }

    #[test]
    fn rule_26() {
        // Gate 4 has label 2 from leaves of label 0.
        assert_eq!(changed("P1", |sheet| sheet.lines[0].label = 2), Err((26, 4)));
        assert_eq!(changed("P1", |sheet| sheet.lines[2].label = 1), Err((26, 6)));
        assert_eq!(changed("P1", |sheet| sheet.lines[2].label = 3), Err((26, 6)));
        // 1 + the greatest leaf label, and p + 1, but p is not the true one: gate 4 is first.
        let one_up = |sheet: &mut Sheet| {
            for line in &mut sheet.lines {
                line.label += 1;
            }
        };
        assert_eq!(changed("P1", one_up), Err((26, 4)));
    }

    /// A chain that is numbered backwards: 1 reads 2, 2 reads 3, 3 reads the input. The label of 1
    /// is one more than that of its leaf 3 throughout, and must be p or p + 1 by the label of 2.
    #[test]
    fn rule_26_on_a_label_that_fits_its_leaves_alone() {
        let reads = |node: usize| Gate { fanins: vec![node], rows: 1 };
        let gates = vec![reads(2), reads(3), reads(0)];
        let table = Table { k: 2, inputs: 1, gates, outputs: vec![1] };
        let line =
            |label: usize, leaf: usize| Line { label, leaves: vec![leaf], paths: Vec::new() };
        let with_labels = |labels: [usize; 3]| {
            let lines = vec![line(labels[0], 3), line(labels[1], 3), line(labels[2], 0)];
            inspect(&table.bytes(), &Sheet { depth: 1, lines, luts: Vec::new() }.bytes())
        };
        assert_eq!(with_labels([4, 2, 3]), Err((26, 1)), "p is 2");
        assert_eq!(with_labels([4, 5, 3]), Err((26, 1)), "p is 5");
        assert_eq!(with_labels([4, 4, 3]), Err((27, 2)), "1 passes, and 2 wants evidence");
        assert_eq!(with_labels([4, 3, 3]), Err((27, 1)), "1 wants evidence");
    }

    #[test]
    fn rule_27() {
        assert_eq!(changed("P1", |sheet| sheet.lines[2].paths.clear()), Err((27, 6)));
        assert_eq!(changed("P1", |sheet| sheet.lines[2].paths[0] = vec![1]), Err((27, 6)));
        assert_eq!(changed("P1", |sheet| sheet.lines[2].paths.reverse()), Ok(2));
        let needless = || vec![vec![0], vec![1], vec![2], vec![3]];
        assert_eq!(changed("P1", |sheet| sheet.lines[0].paths = needless()), Err((27, 4)));
        // A label that is p wants none, and this one is 2 too many: P2's 6 as if K were 3.
        let label_2 = |sheet: &mut Sheet| {
            sheet.lines[2].label = 2;
            sheet.lines[2].leaves = vec![4, 5];
            sheet.lines[2].paths = vec![vec![0], vec![1], vec![2], vec![3], vec![0]];
        };
        assert_eq!(changed("P2", label_2), Err((27, 6)));
    }

    #[test]
    fn rules_25_and_29_on_luts() {
        assert_eq!(changed("P1", |sheet| sheet.luts[1].leaves = vec![1, 2]), Err((25, 5)));
        assert_eq!(changed("P1", |sheet| sheet.luts[1].rows = 0xE), Err((29, 5)));
        assert_eq!(changed("P1", |sheet| sheet.luts[1].rows |= 0x10), Err((29, 5)));
        assert_eq!(changed("P1", |sheet| sheet.luts[1].rows |= 1 << 63), Err((29, 5)));
    }

    #[test]
    fn the_lowest_of_two_bad_gates_or_luts_is_named() {
        let lines = |sheet: &mut Sheet| {
            sheet.lines[0].paths = vec![vec![0]; 4];
            sheet.lines[1].leaves = vec![0, 1];
        };
        assert_eq!(changed("P1", lines), Err((27, 4)));
        let luts = |sheet: &mut Sheet| {
            sheet.luts[1].rows = 0;
            sheet.luts[2].leaves = vec![4];
        };
        assert_eq!(changed("P1", luts), Err((29, 5)));
    }

    #[test]
    fn rule_28_names_the_lowest_gate() {
        let without = |at: usize| {
            move |sheet: &mut Sheet| {
                sheet.luts.remove(at);
            }
        };
        assert_eq!(changed("P1", without(0)), Err((28, 4)));
        assert_eq!(changed("P1", without(1)), Err((28, 5)));
        // Without 6, the LUTs 4 and 5 are needless, and 4 is lower than the missing 6.
        assert_eq!(changed("P1", without(2)), Err((28, 4)));
        assert_eq!(changed("P2", without(0)), Err((28, 6)));
        let needless = |sheet: &mut Sheet| {
            let graph = Graph::new(named("P2")).unwrap();
            sheet.luts.insert(0, lut(&graph, 5, graph.fanin_set(5)));
        };
        assert_eq!(changed("P2", needless), Err((28, 5)));
    }

    #[test]
    fn rule_30_comes_last() {
        assert_eq!(changed("P1", |sheet| sheet.depth = 1), Err((30, 0)));
        assert_eq!(changed("P7", |sheet| sheet.depth = 1), Err((30, 0)));
        // A cover that is deeper than the labels: P2 with the LUTs of P1.
        let deeper = |sheet: &mut Sheet| {
            let graph = Graph::new(named("P2")).unwrap();
            sheet.luts =
                graph.gates().map(|gate| lut(&graph, gate, graph.fanin_set(gate))).collect();
        };
        assert_eq!(changed("P2", deeper), Err((30, 0)));
        let deeper_and_said = |sheet: &mut Sheet| {
            deeper(sheet);
            sheet.depth = 2;
        };
        assert_eq!(changed("P2", deeper_and_said), Err((30, 0)));
    }

    #[test]
    fn another_cover_of_the_same_depth_is_accepted() {
        // P4's 9 by 6 and 7 in place of 4 and 5.
        let other = |sheet: &mut Sheet| {
            let graph = Graph::new(named("P4")).unwrap();
            let leaves = |nodes: &[usize]| NodeSet::from(nodes);
            sheet.lines[5].leaves = vec![6, 7];
            sheet.luts = vec![
                lut(&graph, 6, leaves(&[0, 1])),
                lut(&graph, 7, leaves(&[2, 3])),
                lut(&graph, 9, leaves(&[6, 7])),
            ];
        };
        assert_eq!(changed("P4", other), Ok(2));
    }

    #[test]
    fn gates_come_before_luts_and_luts_before_the_whole() {
        let all = |sheet: &mut Sheet| {
            sheet.depth = 1;
            sheet.luts.remove(0);
            sheet.luts[0].rows = 0;
            sheet.lines[2].paths.clear();
        };
        assert_eq!(changed("P1", all), Err((27, 6)));
        let from_luts = |sheet: &mut Sheet| {
            sheet.depth = 1;
            sheet.luts.remove(0);
            sheet.luts[0].rows = 0;
        };
        assert_eq!(changed("P1", from_luts), Err((29, 5)));
        let whole = |sheet: &mut Sheet| {
            sheet.depth = 1;
            sheet.luts.remove(0);
        };
        assert_eq!(changed("P1", whole), Err((28, 4)));
    }
}
