//! Wrong inspectors.

use super::{a_place_further, assert_noticed, changed, inspect, STAND_IN};
use crate::inspecting::comparison::Comparison;
use crate::inspecting::{
    by_hand, damaged_sheets, damaged_tables, leaves, long, other_sheets, told_lies,
};
use crate::library::Library;
use crate::reply::Reply;
use second::cuts::{is_cut, walk, Walk};
use second::evidence::is_due;
use second::graph::Graph;
use second::labels::d;
use second::nodes::NodeSet;
use second::sheet::{mapped, read, Sheet};
use second::Refused;

/// What the drawn sheets are compared by, without those that are written down.
fn drawn(library: Library) -> Result<(), String> {
    let mut comparison = Comparison::new(library, 1);
    other_sheets(&mut comparison, 100)?;
    damaged_sheets(&mut comparison, 100)?;
    told_lies(&mut comparison, 200)?;
    damaged_tables(&mut comparison, 400)
}

fn written(library: Library) -> Result<(), String> {
    by_hand(&mut Comparison::new(library, 1))
}

/// Both of the drawn sheets and of those that are written down notice it.
fn notices(wrong: &dyn Fn(&[u8], &[u8]) -> Reply) {
    let library = Library { inspect: wrong, ..STAND_IN };
    assert_noticed(drawn(library), "ruling:");
    assert_noticed(written(library), "ruling:");
}

#[test]
fn the_stand_in_passes() {
    assert_eq!(drawn(STAND_IN), Ok(()));
    assert_eq!(written(STAND_IN), Ok(()));
}

#[test]
fn accepts_all_and_refuses_all() {
    notices(&|_, _| Ok(1));
    notices(&|_, _| Err((21, 0)));
    notices(&|table, sheet| inspect(table, sheet).and(Err((27, 0))));
}

/// Sheets that are true and not the mapper's: with other evidence, or other cuts and LUTs.
#[test]
fn accepts_the_mappers_sheets_alone() {
    let refusing = |is_own: fn(&Sheet, &Sheet) -> bool| {
        notices(&|table, bytes| {
            let depth = inspect(table, bytes)?;
            let graph = Graph::read(table)?;
            match is_own(&read(&graph.table, bytes)?, &mapped(&graph)) {
                true => Ok(depth),
                false => Err((27, 0)),
            }
        });
    };
    refusing(|sheet, own| sheet == own);
    refusing(|sheet, own| sheet.fixed_part() == own.fixed_part());
    refusing(|sheet, own| sheet.luts == own.luts);
    refusing(|sheet, own| sheet.lines == own.lines);
}

#[test]
fn a_wrong_depth() {
    notices(&|table, sheet| inspect(table, sheet).map(|depth| depth + 1));
}

/// Each number that is given at another place, as another number, or not at all.
#[test]
fn wrong_numbers_and_places() {
    for number in 21..=31 {
        let instead = |other: fn(Refused) -> Reply| {
            notices(&|table, sheet| changed(inspect(table, sheet), number, other));
        };
        instead(a_place_further);
        instead(|(_, place)| Err((32, place)));
        instead(|_| Ok(1));
    }
}

#[test]
fn wrong_numbers_and_places_of_tables() {
    for number in 1..=7 {
        let wrong =
            |table: &[u8], sheet: &[u8]| changed(inspect(table, sheet), number, a_place_further);
        let mut comparison = Comparison::new(Library { inspect: &wrong, ..STAND_IN }, 1);
        assert_noticed(damaged_tables(&mut comparison, 400), "ruling:");
    }
}

#[test]
fn places_of_two_bytes() {
    let wrong = |table: &[u8], sheet: &[u8]| {
        inspect(table, sheet).map_err(|(number, place)| (number, place & 0xFFFF))
    };
    let mut comparison = Comparison::new(Library { inspect: &wrong, ..STAND_IN }, 1);
    assert_noticed(long::compare(&mut comparison), "ruling:");
}

/// An inspector that rules on a sheet which it has changed first, and so overlooks something.
fn notices_after(change: fn(&Graph, &mut Sheet)) {
    notices(&|table, sheet| {
        let graph = match Graph::read(table) {
            Ok(graph) => graph,
            Err(_) => return inspect(table, sheet),
        };
        match read(&graph.table, sheet) {
            Ok(mut seen) if inspect(table, sheet).is_err() => {
                change(&graph, &mut seen);
                inspect(table, &seen.bytes())
            }
            _ => inspect(table, sheet),
        }
    });
}

/// A node that stands twice on one path, and evidence that is given and not due.
#[test]
fn overlooks_what_paths_do() {
    notices_after(|_, sheet| {
        let paths = sheet.lines.iter_mut().flat_map(|line| &mut line.paths);
        paths.for_each(|path| path.dedup());
    });
    notices_after(|graph, sheet| {
        let lines = graph.gates().zip(&mut sheet.lines);
        let over_inputs =
            lines.filter(|(gate, _)| graph.fanins(*gate).iter().all(|&node| graph.is_input(node)));
        over_inputs.for_each(|(_, line)| line.paths.clear());
    });
}

/// What evidence must keep, as far as one can be broken alone.
#[derive(Clone, Copy, Debug, PartialEq, Eq)]
enum Condition {
    Number,
    Start,
    Steps,
    OutsideD,
    End,
    Sharing,
}

/// The conditions that the paths of a gate break.
fn broken(graph: &Graph, labels: &[usize], gate: usize, paths: &[Vec<usize>]) -> Vec<Condition> {
    let d = d(graph, labels, gate);
    let reads = |member: usize, node: usize| graph.fanins(member).contains(&node);
    let ends = |path: &[usize]| d.rising().any(|member| reads(member, path[path.len() - 1]));
    let all = |holds: &dyn Fn(&[usize]) -> bool| paths.iter().all(|path| holds(path));
    let met: NodeSet = paths.iter().flatten().copied().collect();
    let kept = [
        (Condition::Number, paths.len() == graph.k() + 1),
        (Condition::Start, all(&|path| graph.is_input(path[0]))),
        (Condition::Steps, all(&|path| path.windows(2).all(|step| reads(step[1], step[0])))),
        (Condition::OutsideD, all(&|path| !path.iter().any(|&node| d.contains(node)))),
        (Condition::End, all(&ends)),
        (Condition::Sharing, met.len() == paths.iter().map(Vec::len).sum()),
    ];
    kept.iter().filter(|(_, is_kept)| !is_kept).map(|&(condition, _)| condition).collect()
}

/// The rulings but for one condition of evidence, which is not asked for.
fn overlooking(condition: Condition, table: &[u8], sheet: &[u8]) -> Reply {
    let reply = inspect(table, sheet);
    let gate = match reply {
        Err((27, gate)) => gate,
        _ => return reply,
    };
    let graph = Graph::read(table).expect("the table was read");
    let sheet = read(&graph.table, sheet).expect("the shape was good");
    let in_sheet = sheet.lines.iter().map(|line| line.label);
    let labels: Vec<usize> = vec![0; graph.table.inputs].into_iter().chain(in_sheet).collect();
    let paths = &sheet.lines[gate - graph.table.inputs].paths;
    let is_overlooked =
        is_due(&graph, &labels, gate) && broken(&graph, &labels, gate, paths) == [condition];
    match is_overlooked {
        true => Ok(1),
        false => reply,
    }
}

#[test]
fn overlooks_a_condition_of_evidence() {
    use Condition::{End, Number, OutsideD, Sharing, Start, Steps};
    for condition in [Number, Start, Steps, OutsideD, End, Sharing] {
        notices(&|table, sheet| overlooking(condition, table, sheet));
    }
}

/// What a cut must keep, on lists of leaves alone: an input that is met is a leaf, and a leaf is
/// met. The list that 25 is due to is the line's, or else the LUT's.
#[test]
fn overlooks_a_condition_of_cuts() {
    let noticed = |is_overlooked: fn(&Walk, NodeSet) -> bool| {
        let wrong = |table: &[u8], sheet: &[u8]| {
            changed(inspect(table, sheet), 25, |(_, gate)| {
                let graph = Graph::read(table)?;
                let sheet = read(&graph.table, sheet)?;
                let line = NodeSet::from(&sheet.lines[gate - graph.table.inputs].leaves[..]);
                let lut = sheet.luts.iter().find(|lut| lut.root == gate);
                let leaves = match lut {
                    Some(lut) if is_cut(&graph, gate, line) => NodeSet::from(&lut.leaves[..]),
                    _ => line,
                };
                match is_overlooked(&walk(&graph, gate, leaves), leaves) {
                    true => Ok(1),
                    false => Err((25, gate)),
                }
            })
        };
        let mut comparison = Comparison::new(Library { inspect: &wrong, ..STAND_IN }, 1);
        assert_noticed(leaves::lists(&mut comparison, 100), "ruling:");
    };
    noticed(|met, leaves| !met.strays.is_empty() && met.leaves == leaves);
    noticed(|met, leaves| met.strays.is_empty() && met.leaves != leaves);
}

/// The depth that the head says, and rows above a LUT's own.
#[test]
fn overlooks_numbers() {
    notices_after(|graph, sheet| {
        let labels = graph.table.outputs.iter().map(|&output| match graph.is_input(output) {
            true => 0,
            false => sheet.lines[output - graph.table.inputs].label,
        });
        sheet.depth = labels.max().unwrap_or(0);
    });
    notices_after(|_, sheet| {
        let luts = sheet.luts.iter_mut().filter(|lut| lut.leaves.len() < 6);
        luts.for_each(|lut| lut.rows &= (1 << (1 << lut.leaves.len())) - 1);
    });
}

/// Needless roots, and labels that are too high throughout.
#[test]
fn overlooks_roots_and_labels() {
    notices_after(|graph, sheet| {
        let asked: Vec<usize> = sheet.luts.iter().flat_map(|lut| lut.leaves.clone()).collect();
        let outputs = &graph.table.outputs;
        sheet.luts.retain(|lut| asked.contains(&lut.root) || outputs.contains(&lut.root));
    });
    notices_after(|_, sheet| {
        let lowest = sheet.lines.iter().map(|line| line.label).min().unwrap_or(1);
        sheet.lines.iter_mut().for_each(|line| line.label -= lowest - 1);
    });
}
