//! What must hold of every drawing between the parts of this package. A check panics where it
//! fails, and counts what it saw, so that a run can say what it has tried.

use crate::cuts::{lean_cuts, CutLists};
use crate::graph::Graph;
use crate::inspect::inspect;
use crate::labels::{by_cuts, by_flow, p, Labelled};
use crate::mapping::{depths, gate_words, lut_words};
use crate::nodes::NodeSet;
use crate::opinion::opinion;
use crate::random::damage::{damaged, Due, DAMAGES};
use crate::random::others::{new_ids, other_sheet};
use crate::random::shapes::renumbered;
use crate::random::Random;
use crate::sheet::{map, mapped, mapped_with, read, Sheet, BUFFER_LIMIT, SHEET_LIMIT};
use crate::table::Table;
use crate::{Refused, LOOP};

/// The most cuts of a gate for which labels from cuts are compared with labels from the flow.
const CUT_LIMIT: usize = 200;

/// What the checks have seen.
#[derive(Clone, Debug, Default, PartialEq, Eq)]
pub struct Seen {
    pub drawings: usize,
    pub looped: usize,
    /// Drawings whose labels from cuts were compared with those from the flow.
    pub labelled_twice: usize,
    /// Gates whose p is at least 1, of label p + 1 and of label p.
    pub gates_up: usize,
    pub gates_level: usize,
    pub longest_sheet: usize,
    /// True sheets, the mapper's and others.
    pub true_sheets: usize,
    /// Damaged sheets that were refused, by the refusal's number from 20 on.
    pub refused: [usize; 12],
    /// Damaged sheets that are true all the same.
    pub still_true: usize,
}

/// All checks of one drawing.
pub fn check(table: &Table, random: &mut Random, seen: &mut Seen) {
    seen.drawings += 1;
    match Graph::new(table.clone()) {
        Ok(graph) => check_graph(&graph, random, seen),
        Err(gate) => {
            seen.looped += 1;
            assert_eq!(map(&table.bytes(), BUFFER_LIMIT), Err((LOOP, gate)));
            assert_eq!(inspect(&table.bytes(), &[]), Err((LOOP, gate)));
        }
    }
}

fn check_graph(graph: &Graph, random: &mut Random, seen: &mut Seen) {
    let labelled = by_flow(graph);
    check_labels(graph, &labelled, seen);
    check_renumbered(graph, &labelled, random);
    let sheet = mapped_with(graph, &labelled);
    check_mapper(graph, &labelled, &sheet);
    check_true(graph, &sheet, random, seen);
    check_damage(graph, &labelled.labels, &sheet, random, seen);
    check_more_damage(graph, &labelled.labels, &sheet, random, seen);
    if let Some(lists) = lean_cuts(graph, CUT_LIMIT) {
        seen.labelled_twice += 1;
        assert_eq!(by_cuts(graph, &lists), labelled);
        check_other(graph, &lists, &labelled.labels, random, seen);
    }
}

/// The facts that the mapper stands on.
fn check_labels(graph: &Graph, labelled: &Labelled, seen: &mut Seen) {
    for gate in graph.gates() {
        let p = p(graph, &labelled.labels, gate);
        let label = labelled.labels[gate];
        assert!(label == p + 1 || (label == p && p > 0));
        seen.gates_up += usize::from(label > p && p > 0);
        seen.gates_level += usize::from(label == p);
    }
}

/// A gate's label and cut do not depend on the ids.
fn check_renumbered(graph: &Graph, labelled: &Labelled, random: &mut Random) {
    let ids = new_ids(graph, random);
    let renamed = Graph::new(renumbered(&graph.table, &ids)).expect("it has no loop");
    let again = by_flow(&renamed);
    for node in 0..graph.nodes() {
        let cut: NodeSet = labelled.cuts[node].rising().map(|leaf| ids[leaf]).collect();
        assert_eq!(again.labels[ids[node]], labelled.labels[node]);
        assert_eq!(again.cuts[ids[node]], cut);
    }
}

/// The mapper's sheet is this one, and each of its roots has its label as depth.
fn check_mapper(graph: &Graph, labelled: &Labelled, sheet: &Sheet) {
    assert_eq!(&mapped(graph), sheet);
    assert_eq!(map(&graph.table.bytes(), BUFFER_LIMIT), Ok(sheet.bytes()));
    let depths = depths(graph, &sheet.luts);
    for lut in &sheet.luts {
        assert_eq!(depths[lut.root], Some(labelled.labels[lut.root]));
    }
}

/// The inspector accepts a true sheet, which is short enough, and its LUTs give every output the
/// value that the gates give it.
fn check_true(graph: &Graph, sheet: &Sheet, random: &mut Random, seen: &mut Seen) {
    let bytes = sheet.bytes();
    assert!(bytes.len() <= SHEET_LIMIT);
    assert_eq!(read(&graph.table, &bytes).as_ref(), Ok(sheet));
    assert_eq!(opinion(graph, sheet), Ok(sheet.depth));
    assert_eq!(inspect(&graph.table.bytes(), &bytes), Ok(sheet.depth));
    check_values(graph, sheet, random);
    seen.true_sheets += 1;
    seen.longest_sheet = seen.longest_sheet.max(bytes.len());
}

fn check_values(graph: &Graph, sheet: &Sheet, random: &mut Random) {
    let input_words: Vec<u64> = (0..graph.table.inputs).map(|_| random.word()).collect();
    let by_gates = gate_words(graph, &input_words);
    let by_luts = lut_words(graph, &sheet.luts, &input_words);
    for &output in &graph.table.outputs {
        assert_eq!(by_luts[output], Some(by_gates[output]));
    }
}

fn check_other(
    graph: &Graph,
    lists: &CutLists,
    labels: &[usize],
    random: &mut Random,
    seen: &mut Seen,
) {
    let sheet = other_sheet(graph, lists, labels, random);
    check_true(graph, &sheet, random, seen);
    check_damage(graph, labels, &sheet, random, seen);
}

/// Each kind of damage once: the reply is the one that is due.
fn check_damage(
    graph: &Graph,
    labels: &[usize],
    sheet: &Sheet,
    random: &mut Random,
    seen: &mut Seen,
) {
    for damage in DAMAGES {
        let damaged = match damaged(graph, sheet, damage, random) {
            Some(damaged) => damaged,
            None => continue,
        };
        let reply = check_reply(graph, labels, &damaged.bytes, random, seen);
        match damaged.due {
            Due::Refusal(refused) => assert_eq!(reply, Err(refused), "{damage:?}"),
            Due::SomeRefusal => assert!(reply.is_err(), "{damage:?}"),
            Due::Open => {}
        }
    }
}

/// Damage upon damage, as long as the shape stays good: the first of several faults is the reply.
fn check_more_damage(
    graph: &Graph,
    labels: &[usize],
    sheet: &Sheet,
    random: &mut Random,
    seen: &mut Seen,
) {
    let mut sheet = sheet.clone();
    for _ in 0..10 {
        let damage = *random.pick(&DAMAGES);
        if let Some(damaged) = damaged(graph, &sheet, damage, random) {
            let _ = check_reply(graph, labels, &damaged.bytes, random, seen);
            sheet = read(&graph.table, &damaged.bytes).unwrap_or(sheet);
        }
    }
}

/// The reply to a sheet, which the second opinion must give as well if the shape is good. What is
/// before a bad field must be good, and so must be what is before extra bytes.
fn check_reply(
    graph: &Graph,
    labels: &[usize],
    bytes: &[u8],
    random: &mut Random,
    seen: &mut Seen,
) -> Result<usize, Refused> {
    let reply = inspect(&graph.table.bytes(), bytes);
    let read_before = |place: usize| read(&graph.table, &bytes[..place]);
    match reply {
        Err((21..=24, place)) => assert_eq!(read_before(place), Err((21, place))),
        Err((31, place)) => assert!(read_before(place).is_ok()),
        _ => {
            let sheet = read(&graph.table, bytes).expect("the first pass is over");
            assert_eq!(sheet.bytes(), bytes);
            assert_eq!(opinion(graph, &sheet), reply);
        }
    }
    match reply {
        Ok(_) => {
            check_still_true(graph, labels, bytes, random);
            seen.still_true += 1;
        }
        Err((number, _)) => seen.refused[number as usize - 20] += 1,
    }
    reply
}

/// A damaged sheet that was accepted has the true labels, and its LUTs give the gates' values: only
/// what the paper leaves free is another.
fn check_still_true(graph: &Graph, labels: &[usize], bytes: &[u8], random: &mut Random) {
    let sheet = read(&graph.table, bytes).expect("it was accepted");
    let in_sheet: Vec<usize> = sheet.lines.iter().map(|line| line.label).collect();
    assert_eq!(in_sheet, labels[graph.gates()]);
    check_values(graph, &sheet, random);
}

#[cfg(test)]
mod tests {
    use super::*;
    use crate::drawings::paper;
    use crate::random::shapes;
    use crate::table::NODE_LIMIT;

    #[test]
    fn the_papers_drawings() {
        let mut random = Random::seeded(10);
        let mut seen = Seen::default();
        for _ in 0..20 {
            for drawing in paper() {
                check(&drawing.table, &mut random, &mut seen);
            }
        }
    }

    /// So many drawings of any shape, with a number of nodes between the two.
    fn check_many(count: usize, least: usize, most: usize, seed: u64) -> Seen {
        let mut random = Random::seeded(seed);
        let mut seen = Seen::default();
        for _ in 0..count {
            let nodes = random.between(least, most);
            check(&shapes::any(nodes, &mut random), &mut random, &mut seen);
        }
        seen
    }

    #[test]
    fn small_drawings() {
        let seen = check_many(1_000, 1, 30, 11);
        assert!(seen.labelled_twice > 800 && seen.looped > 50, "{seen:?}");
        assert!(seen.refused[1..].iter().all(|&count| count > 50), "{seen:?}");
        assert!(seen.still_true > 500, "{seen:?}");
    }

    #[test]
    fn large_drawings() {
        let seen = check_many(15, 100, NODE_LIMIT, 12);
        assert!(seen.gates_up > 200 && seen.gates_level > 200, "{seen:?}");
    }

    #[test]
    fn the_largest_drawings() {
        check_many(10, NODE_LIMIT, NODE_LIMIT, 13);
    }
}
