//! Rules 25 to 30 at each of their conditions, and the order in which the passes try them.

use super::Edges;
use second::drawings::named;
use second::graph::Graph;
use second::mapping::lut;
use second::nodes::NodeSet;
use second::sheet::{mapped, Line, Sheet};
use second::table::{Gate, Table};
use second::Refused;

pub fn add(edges: &mut Edges) {
    let mut rules = Rules { edges };
    rules.cuts_of_gates();
    rules.labels();
    rules.labels_that_fit_their_leaves();
    rules.paths();
    rules.luts();
    rules.covers();
    rules.depths();
    rules.passes();
    rules.other_covers();
    rules.outputs();
}

/// A change of a sheet.
type Change = fn(&mut Sheet);

struct Rules<'a> {
    edges: &'a mut Edges,
}

fn graph(name: &str) -> Graph {
    Graph::new(named(name)).expect("it has no loop")
}

fn with_lut(sheet: &mut Sheet, name: &str, root: usize, leaves: &[usize]) {
    sheet.luts.retain(|lut| lut.root != root);
    sheet.luts.push(lut(&graph(name), root, NodeSet::from(leaves)));
    sheet.luts.sort_by_key(|lut| lut.root);
}

impl Rules<'_> {
    /// A drawing of the paper with its sheet changed.
    fn changed(&mut self, name: &str, change: Change, reply: Result<usize, Refused>) {
        let mut sheet = mapped(&graph(name));
        change(&mut sheet);
        let title = format!("{name}, due {reply:?}: {sheet:?}");
        self.edges.add(&title, &named(name), sheet.bytes(), reply);
    }

    /// An input that is no leaf, a leaf that is not met, the gate itself, leaves behind leaves.
    fn cuts_of_gates(&mut self) {
        self.changed("P1", |sheet| sheet.lines[0].leaves = vec![0], Err((25, 4)));
        self.changed("P1", |sheet| sheet.lines[0].leaves = vec![0, 2], Err((25, 4)));
        self.changed("P1", |sheet| sheet.lines[0].leaves = vec![0, 1, 2], Err((25, 4)));
        self.changed("P1", |sheet| sheet.lines[0].leaves = vec![0, 1, 4], Err((25, 4)));
        self.changed("P1", |sheet| sheet.lines[1].leaves = vec![3], Err((25, 5)));
        self.changed("P1", |sheet| sheet.lines[2].leaves = vec![6], Err((25, 6)));
        self.changed("P1", |sheet| sheet.lines[2].leaves = vec![0, 4, 5], Err((25, 6)));
        self.changed("P1", |sheet| sheet.lines[2].leaves = vec![0, 1, 2], Err((25, 6)));
        self.changed("P4", |sheet| sheet.lines[5].leaves = vec![4], Err((25, 9)));
        self.changed("P4", |sheet| sheet.lines[5].leaves = vec![4, 8], Err((25, 9)));
        self.changed("P4", |sheet| sheet.lines[4].leaves = vec![4, 9], Err((25, 8)));
        self.changed("P6", |sheet| sheet.lines[0].leaves = vec![0, 1], Err((25, 1)));
        self.changed("P6", |sheet| sheet.lines[0].leaves = vec![1], Err((25, 1)));
    }

    fn labels(&mut self) {
        self.changed("P1", |sheet| sheet.lines[0].label = 2, Err((26, 4)));
        self.changed("P1", |sheet| sheet.lines[2].label = 1, Err((26, 6)));
        self.changed("P1", |sheet| sheet.lines[2].label = 3, Err((26, 6)));
        self.changed("P1", |sheet| sheet.lines[2].label = 191, Err((26, 6)));
        // A cut of inputs alone would give label 1, which is p: but the sheet says 2.
        self.changed("P2", |sheet| sheet.lines[2].label = 2, Err((26, 6)));
        // Higher labels of leaves, and the reader's with them: the leaves' own fail first.
        let one_up: Change = |sheet| sheet.lines.iter_mut().for_each(|line| line.label += 1);
        self.changed("P1", one_up, Err((26, 4)));
        self.changed("P4", one_up, Err((26, 4)));
    }

    /// A chain that is numbered backwards: 1 reads 2, 2 reads 3, 3 reads the input. The label of 1
    /// is one more than that of its leaf 3 throughout, and must be p or p + 1 by the label of 2.
    fn labels_that_fit_their_leaves(&mut self) {
        let reads = |node: usize| Gate { fanins: vec![node], rows: 1 };
        let gates = vec![reads(2), reads(3), reads(0)];
        let table = Table { k: 2, inputs: 1, gates, outputs: vec![1] };
        let rulings = [
            ([4, 2, 3], (26, 1)),
            ([4, 5, 3], (26, 1)),
            ([4, 1, 3], (26, 1)),
            ([4, 4, 3], (27, 2)),
            ([4, 3, 3], (27, 1)),
        ];
        for (labels, refused) in rulings {
            let leaves = [3, 3, 0];
            let line =
                |at: usize| Line { label: labels[at], leaves: vec![leaves[at]], paths: Vec::new() };
            let sheet = Sheet { depth: 1, lines: (0..3).map(line).collect(), luts: Vec::new() };
            let name = format!("a backwards chain with labels {labels:?}");
            self.edges.refused(&name, &table, &sheet, refused);
        }
    }

    fn paths(&mut self) {
        self.changed("P1", |sheet| sheet.lines[2].paths.clear(), Err((27, 6)));
        self.changed("P1", |sheet| sheet.lines[2].paths[0] = vec![1], Err((27, 6)));
        self.changed("P1", |sheet| sheet.lines[2].paths[3] = vec![6], Err((27, 6)));
        self.changed("P1", |sheet| sheet.lines[2].paths[3] = vec![3, 5], Err((27, 6)));
        self.changed("P1", |sheet| sheet.lines[2].paths.reverse(), Ok(2));
        let needless: Change = |sheet| sheet.lines[0].paths = sheet.lines[2].paths.clone();
        self.changed("P1", needless, Err((27, 4)));
        // Not due where the label is p, though p is not 0.
        let needless: Change = |sheet| sheet.lines[5].paths = sheet.lines[4].paths.clone();
        self.changed("P4", needless, Err((27, 9)));
        let needless: Change = |sheet| sheet.lines[0].paths = vec![vec![0]; 3];
        self.changed("P6", needless, Err((27, 1)));
    }

    fn luts(&mut self) {
        self.changed("P1", |sheet| sheet.luts[0].leaves = vec![0], Err((25, 4)));
        self.changed("P1", |sheet| sheet.luts[1].leaves = vec![1, 2], Err((25, 5)));
        self.changed("P1", |sheet| sheet.luts[1].leaves = vec![2, 3, 4], Err((25, 5)));
        self.changed("P1", |sheet| sheet.luts[2].leaves = vec![6], Err((25, 6)));
        self.changed("P1", |sheet| sheet.luts[1].rows = 0xE, Err((29, 5)));
        self.changed("P1", |sheet| sheet.luts[1].rows |= 0x10, Err((29, 5)));
        self.changed("P1", |sheet| sheet.luts[1].rows |= 1 << 63, Err((29, 5)));
        self.changed("P2", |sheet| sheet.luts[0].rows ^= 1 << 15, Err((29, 6)));
        self.changed("P2", |sheet| sheet.luts[0].rows ^= 1 << 16, Err((29, 6)));
        self.changed("P2", |sheet| sheet.luts[0].rows ^= 1, Err((29, 6)));
        self.changed("P6", |sheet| sheet.luts[0].rows = 0xA, Err((29, 1)));
    }

    /// A missing root, and one that nobody asks for: the lowest gate is named.
    fn covers(&mut self) {
        self.changed("P1", |sheet| drop(sheet.luts.remove(0)), Err((28, 4)));
        self.changed("P1", |sheet| drop(sheet.luts.remove(1)), Err((28, 5)));
        // Without 6, the LUTs 4 and 5 are needless, and 4 is lower than the missing 6.
        self.changed("P1", |sheet| drop(sheet.luts.remove(2)), Err((28, 4)));
        self.changed("P1", |sheet| sheet.luts.clear(), Err((28, 6)));
        self.changed("P2", |sheet| sheet.luts.clear(), Err((28, 6)));
        self.changed("P2", |sheet| with_lut(sheet, "P2", 4, &[0, 1]), Err((28, 4)));
        self.changed("P2", |sheet| with_lut(sheet, "P2", 5, &[2, 3]), Err((28, 5)));
        // 8 is needless and reads 6 and 7, which are missing.
        self.changed("P4", |sheet| with_lut(sheet, "P4", 8, &[6, 7]), Err((28, 6)));
        // 7 is needless and reads 5, which is there.
        self.changed("P4", |sheet| with_lut(sheet, "P4", 7, &[5]), Err((28, 7)));
    }

    fn depths(&mut self) {
        self.changed("P1", |sheet| sheet.depth = 1, Err((30, 0)));
        self.changed("P1", |sheet| sheet.depth = 3, Err((30, 0)));
        self.changed("P1", |sheet| sheet.depth = 0, Err((30, 0)));
        self.changed("P6", |sheet| sheet.depth = 191, Err((30, 0)));
    }

    /// Gates before LUTs, LUTs before the whole, and in each the lowest.
    fn passes(&mut self) {
        let whole: Change = |sheet| {
            sheet.depth = 1;
            sheet.luts.remove(0);
        };
        self.changed("P1", whole, Err((28, 4)));
        let luts: Change = |sheet| {
            sheet.depth = 1;
            sheet.luts.remove(0);
            sheet.luts[0].rows = 0;
            sheet.luts[1].leaves = vec![4];
        };
        self.changed("P1", luts, Err((29, 5)));
        let gates: Change = |sheet| {
            sheet.luts[0].leaves = vec![0];
            sheet.lines[1].paths = sheet.lines[2].paths.clone();
            sheet.lines[2].leaves = vec![4];
        };
        self.changed("P1", gates, Err((27, 5)));
        // On one gate 25 goes before 26 and 26 before 27.
        let cut_and_label: Change = |sheet| {
            sheet.lines[2].leaves = vec![4];
            sheet.lines[2].label = 7;
            sheet.lines[2].paths.clear();
        };
        self.changed("P1", cut_and_label, Err((25, 6)));
        let label_and_paths: Change = |sheet| {
            sheet.lines[2].label = 7;
            sheet.lines[2].paths.clear();
        };
        self.changed("P1", label_and_paths, Err((26, 6)));
        let cut_and_table: Change = |sheet| {
            sheet.luts[2].leaves = vec![4];
            sheet.luts[2].rows = 0;
        };
        self.changed("P1", cut_and_table, Err((25, 6)));
    }

    /// P4's 9 by 6 and 7, by 4 and 7, or with the mapper's LUTs and another cut.
    fn other_covers(&mut self) {
        let by_inverters: Change = |sheet| {
            sheet.luts.clear();
            with_lut(sheet, "P4", 6, &[0, 1]);
            with_lut(sheet, "P4", 7, &[2, 3]);
            with_lut(sheet, "P4", 9, &[6, 7]);
        };
        self.changed("P4", by_inverters, Ok(2));
        let by_one_of_each: Change = |sheet| {
            sheet.luts.clear();
            with_lut(sheet, "P4", 4, &[0, 1]);
            with_lut(sheet, "P4", 7, &[2, 3]);
            with_lut(sheet, "P4", 9, &[4, 7]);
        };
        self.changed("P4", by_one_of_each, Ok(2));
        self.changed("P4", |sheet| sheet.lines[5].leaves = vec![4, 7], Ok(2));
        // The leaf 8 has label 2, so that 9 would have 3.
        self.changed("P4", |sheet| sheet.lines[5].leaves = vec![8], Err((26, 9)));
        // With 9 over 8 alone, 8 is missing and 4 and 5 are needless.
        self.changed("P4", |sheet| with_lut(sheet, "P4", 9, &[8]), Err((28, 4)));
    }

    /// Outputs that are inputs ask for no root, and an output that stands twice for one.
    fn outputs(&mut self) {
        let and = Gate { fanins: vec![0, 1], rows: 0x8 };
        let line = || vec![Line { label: 1, leaves: vec![0, 1], paths: Vec::new() }];
        let table = |outputs: &[usize]| Table {
            k: 2,
            inputs: 2,
            gates: vec![and.clone()],
            outputs: outputs.to_vec(),
        };
        let root =
            || lut(&Graph::new(table(&[2])).expect("no loop"), 2, NodeSet::from(&[0, 1][..]));
        let bare = |depth: usize| Sheet { depth, lines: line(), luts: Vec::new() };
        let rooted = |depth: usize| Sheet { depth, lines: line(), luts: vec![root()] };
        let edges = &mut self.edges;
        edges.accepted("outputs are inputs", &table(&[0, 1, 0]), &bare(0));
        edges.refused("inputs, and depth 1", &table(&[0, 1]), &bare(1), (30, 0));
        edges.refused("inputs, and a root", &table(&[0, 1]), &rooted(0), (28, 2));
        edges.accepted("an output is a gate", &table(&[0, 2]), &rooted(1));
        edges.accepted("an output stands twice", &table(&[2, 2]), &rooted(1));
        edges.refused("an output is no root", &table(&[0, 2]), &bare(1), (28, 2));
        edges.refused("an output's depth is 0", &table(&[0, 2]), &rooted(0), (30, 0));
    }
}
