//! A long run of the checks, and how quick this package is:
//! `cargo run --release --example soak -- [SEED] [COUNT] [LEAST NODES] [MOST NODES]`.

use second::checks::{check, Seen};
use second::cuts::lean_cuts;
use second::graph::Graph;
use second::inspect::inspect;
use second::labels::{by_cuts, by_flow, labelled, CUT_LIMIT};
use second::random::{shapes, Random};
use second::sheet::mapped;
use second::table::NODE_LIMIT;
use std::env::args;
use std::time::{Duration, Instant};

fn main() {
    let mut numbers = args().skip(1).map(|text| text.parse().expect("a number"));
    let seed = numbers.next().unwrap_or(1);
    let count = numbers.next().unwrap_or(10_000);
    let least = numbers.next().unwrap_or(1);
    let most = numbers.next().unwrap_or(30);
    let start = Instant::now();
    let seen = soak(seed, count, least as usize, most as usize);
    println!("{seen:#?}\n{:.1} s", start.elapsed().as_secs_f64());
    time_largest(seed);
}

fn soak(seed: u64, count: u64, least: usize, most: usize) -> Seen {
    let mut seen = Seen::default();
    for number in 0..count {
        // A drawing that fails can be drawn again by its own seed.
        let mut random = Random::seeded(seed << 32 | number);
        let nodes = random.between(least, most);
        let table = shapes::any(nodes, &mut random);
        check(&table, &mut random, &mut seen);
    }
    seen
}

/// How long the parts take on drawings of as many nodes as may be.
fn time_largest(seed: u64) {
    let mut random = Random::seeded(seed);
    let tables = (0..200).map(|_| shapes::any(NODE_LIMIT, &mut random));
    let graphs: Vec<Graph> = tables.filter_map(|table| Graph::new(table).ok()).collect();
    let sheets: Vec<Vec<u8>> = graphs.iter().map(|graph| mapped(graph).bytes()).collect();
    let few: Vec<&Graph> =
        graphs.iter().filter(|graph| lean_cuts(graph, CUT_LIMIT).is_some()).collect();
    let longest = sheets.iter().map(Vec::len).max();
    println!("{} of {} drawings have few cuts; longest sheet {longest:?}", few.len(), graphs.len());
    show("labels from flow", graphs.len(), || graphs.iter().for_each(|graph| drop(by_flow(graph))));
    show("labels from cuts", few.len(), || {
        few.iter()
            .for_each(|graph| drop(lean_cuts(graph, CUT_LIMIT).map(|cuts| by_cuts(graph, &cuts))))
    });
    show("labels", graphs.len(), || graphs.iter().for_each(|graph| drop(labelled(graph))));
    show("sheet", graphs.len(), || graphs.iter().for_each(|graph| drop(mapped(graph))));
    show("inspection", graphs.len(), || {
        for (graph, sheet) in graphs.iter().zip(&sheets) {
            inspect(&graph.table.bytes(), sheet).expect("it is true");
        }
    });
}

fn show(what: &str, count: usize, work: impl FnOnce()) {
    let start = Instant::now();
    work();
    let time: Duration = start.elapsed();
    println!("{what}: {:.0} a second", count as f64 / time.as_secs_f64());
}
