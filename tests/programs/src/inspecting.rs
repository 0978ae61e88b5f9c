//! The inspector's program.

use crate::machine::{same, Folder};
use second::cuts::all_cuts;
use second::drawings::named;
use second::graph::Graph;
use second::labels::labelled;
use second::listing::{inspector_line, SHEET_BYTES};
use second::random::damage::{damaged, DAMAGES};
use second::random::others::other_sheet;
use second::random::{shapes, Random};
use second::sheet::{map, mapped, BUFFER_LIMIT};
use second::table::field;

/// So many cuts of a drawing are listed at most, to draw other sheets from.
const CUT_LIMIT: usize = 4_000;

type Files = (Option<Vec<u8>>, Option<Vec<u8>>, &'static str);

/// Lines of the paper, files that are not there, and files longer than what is read; how many.
pub fn by_hand(folder: &Folder) -> usize {
    let cases = files();
    for (net, sheet, due) in &cases {
        run(folder, net.as_deref(), sheet.as_deref(), due);
    }
    cases.len()
}

fn files() -> Vec<Files> {
    let net = named("P1").bytes();
    let sheet = map(&net, BUFFER_LIMIT).expect("P1 is taken");
    let mut false_path = sheet.clone();
    false_path[31] = 1;
    let longer = [sheet.clone(), vec![0]].concat();
    let p6 = named("P6").bytes();
    let long = |bytes: usize| [field(16, &[1, 1, 1]), field(17, &vec![0; bytes - 9])].concat();
    vec![
        (None, None, "refused 1 at 0\n"),
        (Some(net.clone()), None, "refused 21 at 0\n"),
        (None, Some(sheet.clone()), "refused 1 at 0\n"),
        (Some(net.clone()), Some(sheet), "accepted depth 2\n"),
        (Some(net.clone()), Some(false_path), "refused 27 at 6\n"),
        (Some(net), Some(longer), "refused 31 at 83\n"),
        (Some(named("P9").bytes()), None, "refused 7 at 2\n"),
        (Some(p6.clone()), Some(long(SHEET_BYTES)), "refused 23 at 6\n"),
        (Some(p6), Some(long(SHEET_BYTES + 1)), "refused 21 at 6\n"),
    ]
}

/// Sheets at random: true ones, the mapper's and others, and damaged ones; how many.
pub fn drawn(folder: &Folder, rounds: usize, random: &mut Random) -> usize {
    for round in 0..rounds {
        let nodes = random.between(1, if round % 8 == 0 { 192 } else { 24 });
        let table = shapes::any(nodes, random);
        let net = table.bytes();
        let sheet = match Graph::new(table) {
            Ok(graph) => some_sheet(&graph, random),
            Err(_) => Vec::new(),
        };
        run(folder, Some(&net), Some(&sheet), &inspector_line(&net, &sheet));
    }
    rounds
}

fn some_sheet(graph: &Graph, random: &mut Random) -> Vec<u8> {
    let sheet = match all_cuts(graph, CUT_LIMIT) {
        Some(lists) if random.one_in(2) => {
            other_sheet(graph, &lists, &labelled(graph).labels, random)
        }
        _ => mapped(graph),
    };
    let damage = *random.pick(&DAMAGES);
    match damaged(graph, &sheet, damage, random) {
        Some(damaged) if !random.one_in(4) => damaged.bytes,
        _ => sheet.bytes(),
    }
}

fn run(folder: &Folder, net: Option<&[u8]>, sheet: Option<&[u8]>, due: &str) {
    folder.set("net", net);
    folder.set("sheet", sheet);
    let printed = folder.run("inspector", &[]);
    same("the ruling", &[net.unwrap_or(&[]), sheet.unwrap_or(&[])], printed.as_str(), due);
}
