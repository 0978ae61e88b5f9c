//! Agreement with the independent implementation: replies to tables whole and damaged, labels,
//! cuts, LUTs, all but the paths of the mapper's sheets, and rulings on sheets true and damaged.

use plain::label::{label, label_with, Labelling, Probe};
use plain::mapping::SHEET_ROOM;
use plain::order::order;
use plain::shapes::{CARELESS, LADDERS, USUAL};
use plain::worklist::MANNERS;
use plain::{table, Drawing, Refusal, Silent};
use second::cuts::lean_cuts;
use second::graph::Graph;
use second::labels::by_flow;
use second::random::damage::{damaged, Damage, DAMAGES};
use second::random::others::other_sheet;
use second::random::{shapes, Random};
use second::sheet::{mapped_with, read, Sheet};
use second::table::{Table, NODE_LIMIT};

/// A build without optimisation runs this part of the drawings, since it is so much slower.
const SHARE: usize = if cfg!(debug_assertions) { 10 } else { 1 };

/// What a run has seen, so that a test can demand that it saw enough.
#[derive(Debug, Default)]
struct Seen {
    drawings: usize,
    loops: usize,
    tables_refused: usize,
    accepted: usize,
    /// Sheets refused, by number from 20 on.
    refused: [usize; 12],
}

type Reply = Result<usize, (u32, usize)>;

fn reply(reply: Result<usize, Refusal>) -> Reply {
    reply.map_err(|refusal| (u32::from(refusal.number), refusal.place))
}

/// The mapper's sheet, or its refusal. The buffer is as before but for the sheet.
fn map(table: &[u8]) -> Result<Vec<u8>, (u32, usize)> {
    let mut buffer = vec![0x5A; SHEET_ROOM];
    let length = reply(plain::map(table, &mut buffer));
    assert!(buffer[length.unwrap_or(0)..].iter().all(|&byte| byte == 0x5A));
    length.map(|length| buffer[..length].to_vec())
}

fn check(table: &Table, random: &mut Random, seen: &mut Seen) {
    seen.drawings += 1;
    check_damaged_table(table, random, seen);
    match Graph::new(table.clone()) {
        Ok(graph) => check_graph(&graph, random, seen),
        Err(gate) => {
            seen.loops += 1;
            assert_eq!(map(&table.bytes()), Err((7, gate)));
            assert_eq!(reply(plain::inspect(&table.bytes(), &[])), Err((7, gate)));
        }
    }
}

fn check_damaged_table(table: &Table, random: &mut Random, seen: &mut Seen) {
    let mut bytes = table.bytes();
    match random.below(3) {
        0 => bytes.truncate(random.below(bytes.len())),
        1 => bytes.extend([3, 0, 1, 0, 3].iter().take(1 + random.below(5))),
        _ => {
            let place = random.below(bytes.len());
            bytes[place] = random.word() as u8;
        }
    }
    let due = second::table::read(&bytes).table();
    let due = due.map_err(|refusal| (refusal.fault.number(), refusal.place));
    let ours = table::read(&bytes).map_err(|refusal| (u32::from(refusal.number), refusal.place));
    seen.tables_refused += usize::from(ours.is_err());
    match (ours, due) {
        (Ok(ours), Ok(due)) => assert_eq!(table::write(&ours), due.bytes()),
        (ours, due) => assert_eq!(ours.err(), due.err()),
    }
}

fn check_graph(graph: &Graph, random: &mut Random, seen: &mut Seen) {
    let bytes = graph.table.bytes();
    let drawing = table::read(&bytes).unwrap();
    let theirs = by_flow(graph);
    let ours = labelled_in_all_manners(&drawing);
    assert!(ours.labels.iter().map(|&label| usize::from(label)).eq(theirs.labels.iter().copied()));
    for (ours, theirs) in ours.cuts.iter().zip(&theirs.cuts) {
        assert!(ours.iter().map(|&leaf| usize::from(leaf)).eq(theirs.rising()));
    }
    let sheet_bytes = map(&bytes).unwrap();
    let our_sheet = read(&graph.table, &sheet_bytes).unwrap();
    let their_sheet = mapped_with(graph, &theirs);
    assert_eq!(our_sheet.fixed_part(), their_sheet.fixed_part());
    for sheet in [&our_sheet, &their_sheet] {
        assert_eq!(rule(graph, &sheet.bytes(), seen), Ok(sheet.depth));
    }
    check_damage(graph, &our_sheet, random, seen);
    if let Some(lists) = lean_cuts(graph, 50) {
        let other = other_sheet(graph, &lists, &theirs.labels, random);
        assert_eq!(rule(graph, &other.bytes(), seen), Ok(other.depth));
        check_damage(graph, &other, random, seen);
    }
}

/// Labels and cuts, which do not depend on how the flow is searched.
fn labelled_in_all_manners(drawing: &Drawing) -> Labelling {
    let order = order(drawing, &mut Silent).unwrap();
    let labelling = label(drawing, &order, &mut Silent);
    for manner in MANNERS {
        let mut probe = Probe::searching(manner, drawing);
        assert_eq!(label_with(drawing, &order, &mut probe, &mut Silent), labelling, "{manner:?}");
    }
    labelling
}

/// The ruling on a sheet, which both inspectors give.
fn rule(graph: &Graph, sheet: &[u8], seen: &mut Seen) -> Reply {
    let table = graph.table.bytes();
    let ruling = reply(plain::inspect(&table, sheet));
    assert_eq!(ruling, second::inspect::inspect(&table, sheet));
    match ruling {
        Ok(_) => seen.accepted += 1,
        Err((number, _)) => seen.refused[number as usize - 20] += 1,
    }
    ruling
}

/// Each damage once, and damage upon damage while the shape stays good.
fn check_damage(graph: &Graph, sheet: &Sheet, random: &mut Random, seen: &mut Seen) {
    let mut worse = sheet.clone();
    for damage in DAMAGES {
        if let Some(bytes) = damaged_bytes(graph, sheet, damage, random) {
            let _ = rule(graph, &bytes, seen);
        }
        let another = *random.pick(&DAMAGES);
        if let Some(bytes) = damaged_bytes(graph, &worse, another, random) {
            let _ = rule(graph, &bytes, seen);
            worse = read(&graph.table, &bytes).unwrap_or(worse);
        }
    }
}

/// A damaged sheet. Damage to a path may double it, so a path that is too long for that is spared.
fn damaged_bytes(
    graph: &Graph,
    sheet: &Sheet,
    damage: Damage,
    random: &mut Random,
) -> Option<Vec<u8>> {
    let longest = sheet.lines.iter().flat_map(|line| &line.paths).map(Vec::len).max();
    if damage == Damage::Path && longest > Some(127) {
        return None;
    }
    Some(damaged(graph, sheet, damage, random)?.bytes)
}

fn check_many(count: usize, least: usize, most: usize, seed: u64) -> Seen {
    let mut random = Random::seeded(seed);
    let mut seen = Seen::default();
    for _ in 0..count {
        let nodes = random.between(least, most);
        check(&shapes::any(nodes, &mut random), &mut random, &mut seen);
    }
    seen
}

/// The drawings for measurements, forwards and backwards.
#[test]
fn measured_drawings() {
    let mut random = Random::seeded(20);
    let mut seen = Seen::default();
    for shape in USUAL.into_iter().chain(LADDERS).chain(CARELESS) {
        for k in [2, 3, 6].into_iter().filter(|&k| shape.takes(k)) {
            let drawing = shape.drawing(96 / SHARE.min(2), k);
            for drawing in [drawing.backwards(), drawing] {
                let table = second::table::read(&table::write(&drawing)).table().unwrap();
                check(&table, &mut random, &mut seen);
            }
        }
    }
    assert_eq!(seen.loops, 0);
}

#[test]
fn small_drawings() {
    let seen = check_many(2_000 / SHARE, 1, 30, 21);
    assert!(seen.loops > 100 / SHARE && seen.tables_refused > 1_000 / SHARE, "{seen:?}");
    assert!(seen.refused[1..].iter().all(|&count| count > 100 / SHARE), "{seen:?}");
    assert!(seen.accepted > 5_000 / SHARE, "{seen:?}");
}

#[test]
fn large_drawings() {
    let seen = check_many(20 / SHARE, 100, NODE_LIMIT, 22);
    assert!(seen.loops < seen.drawings, "{seen:?}");
}

#[test]
fn the_largest_drawings() {
    let seen = check_many(10 / SHARE, NODE_LIMIT, NODE_LIMIT, 23);
    assert!(seen.loops < seen.drawings, "{seen:?}");
}

/// A long run: `cargo test --release --package plain -- --ignored --nocapture`.
#[test]
#[ignore]
fn many_more_drawings() {
    println!("{:?}", check_many(30_000, 1, 40, 24));
    println!("{:?}", check_many(1_000, 41, NODE_LIMIT, 25));
}
