//! Prints how many elementary steps the algorithm takes, as tables: the order; the labelling of
//! drawings of 1,000 nodes, ladders among them, and what other searches would take there; all of
//! `map` and `inspect` at 192 nodes.

use plain::area::peak;
use plain::label::{label_with, Labelling, Probe};
use plain::mapping::SHEET_ROOM;
use plain::order::order;
use plain::shapes::{Shape, CARELESS, LADDERS, USUAL};
use plain::table::write;
use plain::worklist::{Manner, MANNERS};
use plain::{inspect, mapping, Drawing, Silent, Step, Steps};
use std::time::Instant;

const LARGE: usize = 1_000;

fn main() {
    print_orders();
    let drawings = large_drawings();
    let counted: Vec<Labelled> =
        drawings.iter().map(|(_, drawing)| labelled(drawing, None)).collect();
    print_flows(&drawings, &counted);
    print_searches(&drawings, &counted);
    print_times(&drawings);
    print_wholes();
}

fn print_orders() {
    println!("\n### The order\n");
    println!("| drawing | gates | sweeps | turns | fanin tests |\n|---|---|---|---|---|");
    for nodes in [192, LARGE] {
        let chain = single_chain(nodes);
        print_order("chain NOT(x)", &chain);
        print_order("chain NOT(x), backwards", &chain.backwards());
        print_order("chain AND(x,x), backwards", &Shape::Doubled.drawing(nodes, 2).backwards());
    }
    for shape in USUAL {
        let drawing = shape.drawing(LARGE, 4);
        print_order(&format!("{shape:?}, K 4"), &drawing);
        print_order(&format!("{shape:?}, K 4, backwards"), &drawing.backwards());
    }
}

fn single_chain(nodes: usize) -> Drawing {
    let mut chain = Drawing::new(2, 1);
    for before in 0..nodes as u16 - 1 {
        chain.push_gate(&[before], 0x1);
    }
    chain.outputs.push(nodes as u16 - 1);
    chain
}

fn print_order(name: &str, drawing: &Drawing) {
    let mut steps = Steps::default();
    order(drawing, &mut steps).expect("it has no loop");
    let counts = [Step::OrderSweep, Step::OrderTurn, Step::OrderTest].map(|step| steps[step]);
    println!("| {name} | {} | {} |", drawing.gates().len(), row(&counts));
}

/// The large drawings, with shape and K as their name.
fn large_drawings() -> Vec<(String, Drawing)> {
    let usual = USUAL.into_iter().flat_map(|shape| [2, 3, 4, 5, 6].map(|k| (shape, k)));
    let ladders = LADDERS.into_iter().flat_map(|shape| [2, 3, 6].map(|k| (shape, k)));
    let kinds = usual.chain(ladders).filter(|&(shape, k)| shape.takes(k));
    kinds.map(|(shape, k)| (format!("{shape:?} | {k}"), shape.drawing(LARGE, k))).collect()
}

/// A labelling and its steps.
struct Labelled {
    labelling: Labelling,
    steps: Steps,
    /// Gates with p of 1 or more, and those of them with label p + 1.
    flows: u64,
    ups: u64,
    /// The nodes of all areas.
    area_nodes: u64,
    /// The nodes of the areas in which a search failed.
    certifying: u64,
    /// The most of any gate.
    most_area: u64,
    most_sweeps: u64,
    most_visits: u64,
}

fn labelled(drawing: &Drawing, manner: Option<Manner>) -> Labelled {
    let order = order(drawing, &mut Silent).expect("it has no loop");
    let mut probe = match manner {
        Some(manner) => Probe::searching(manner, drawing),
        None => Probe::new(drawing.nodes()),
    };
    let mut all = Labelled {
        labelling: Labelling::new(drawing.nodes()),
        steps: Steps::default(),
        flows: 0,
        ups: 0,
        area_nodes: 0,
        certifying: 0,
        most_area: 0,
        most_sweeps: 0,
        most_visits: 0,
    };
    for &gate in &order {
        let before = all.steps;
        all.labelling.settle(drawing, &order, gate, &mut probe, &mut all.steps);
        let labels = &all.labelling.labels;
        let p = peak(drawing, labels, gate);
        if p == 0 {
            continue;
        }
        let is_up = labels[usize::from(gate)] > p;
        let area = probe.mark_area(drawing, &order, labels, gate, p, &mut Silent);
        let area_nodes = area.within.iter().filter(|&&within| within).count() as u64;
        let steps = all.steps - before;
        all.flows += 1;
        all.ups += u64::from(is_up);
        all.area_nodes += area_nodes;
        all.certifying += if is_up { 0 } else { area_nodes };
        all.most_area = all.most_area.max(area_nodes);
        all.most_sweeps = all.most_sweeps.max(steps[Step::Sweep]);
        all.most_visits = all.most_visits.max(steps[Step::Visit]);
    }
    all
}

fn print_flows(drawings: &[(String, Drawing)], counted: &[Labelled]) {
    println!("\n### Labelling {LARGE} nodes: the flow\n");
    println!(
        "| shape | K | depth | flows | of these p + 1 | rounds | sweeps | turns | visits | fanin \
         tests | augmenting steps | visits a flow | most sweeps of a gate | most visits of a gate \
         | largest area |"
    );
    println!("|{}", "---|".repeat(15));
    for ((name, _), all) in drawings.iter().zip(counted) {
        let depth = all.labelling.labels.iter().max().map_or(0, |&label| u64::from(label));
        let parts =
            [Step::Round, Step::Sweep, Step::Turn, Step::Visit, Step::FlowTest, Step::Augment];
        println!(
            "| {name} | {} | {} | {} |",
            row(&[depth, all.flows, all.ups]),
            row(&parts.map(|part| all.steps[part])),
            row(&[
                all.steps[Step::Visit] / all.flows,
                all.most_sweeps,
                all.most_visits,
                all.most_area
            ]),
        );
    }
    println!("\n### Labelling {LARGE} nodes: walks and areas\n");
    println!(
        "| shape | K | walks | turns | fanins met | areas | turns | fanins of D | nodes of all \
         areas |"
    );
    println!("|{}", "---|".repeat(9));
    for ((name, _), all) in drawings.iter().zip(counted) {
        let parts = [
            Step::Walk,
            Step::WalkTurn,
            Step::WalkTest,
            Step::Area,
            Step::AreaTurn,
            Step::AreaTest,
        ];
        let counts = parts.map(|part| all.steps[part]);
        println!("| {name} | {} | {} |", row(&counts), row(&[all.area_nodes]));
    }
}

fn print_searches(drawings: &[(String, Drawing)], counted: &[Labelled]) {
    println!("\n### Other searches at {LARGE} nodes, in thousands\n");
    println!(
        "| shape | K | sweeps: visits | tests | both ways: visits | tests | queue: states | tests \
         | stack: states | tests | certifying visits |"
    );
    println!("|{}", "---|".repeat(11));
    for ((name, drawing), ours) in drawings.iter().zip(counted) {
        let mut counts = visits_and_tests(&ours.steps).to_vec();
        for manner in MANNERS {
            let other = labelled(drawing, Some(manner));
            assert!(other.labelling == ours.labelling, "{name} {manner:?}");
            counts.extend(visits_and_tests(&other.steps));
        }
        counts.push(ours.certifying);
        println!("| {name} | {} |", thousands(&counts));
    }
}

fn visits_and_tests(steps: &Steps) -> [u64; 2] {
    [steps[Step::Visit], steps[Step::FlowTest]]
}

/// The least time of a few labellings.
fn print_times(drawings: &[(String, Drawing)]) {
    println!("\n### Milliseconds of a labelling of {LARGE} nodes\n");
    println!("| shape | K | sweeps | queue | stack |\n|---|---|---|---|---|");
    for (name, drawing) in drawings {
        let queue = Probe::searching(Manner::Queue, drawing);
        let stack = Probe::searching(Manner::Stack, drawing);
        let [sweeps, queue, stack] =
            [Probe::new(LARGE), queue, stack].map(|probe| label_time(drawing, probe));
        println!("| {name} | {sweeps:.1} | {queue:.1} | {stack:.1} |");
    }
}

fn label_time(drawing: &Drawing, mut probe: Probe) -> f64 {
    let order = order(drawing, &mut Silent).expect("it has no loop");
    let time = |_| {
        let start = Instant::now();
        let labelling = label_with(drawing, &order, &mut probe, &mut Silent);
        assert_eq!(labelling.labels.len(), drawing.nodes());
        start.elapsed().as_secs_f64() * 1e3
    };
    (0..3).map(time).fold(f64::INFINITY, f64::min)
}

fn print_wholes() {
    println!("\n### All of map and inspect at 192 nodes, in thousands of steps\n");
    println!(
        "| shape | K | map | order | walks | areas | flow | cones | inspect | walks | areas \
         | cones | sheet bytes |"
    );
    println!("|{}", "---|".repeat(13));
    for shape in USUAL.into_iter().chain(LADDERS).chain(CARELESS) {
        for k in [2, 3, 4, 6].into_iter().filter(|&k| shape.takes(k)) {
            print_whole(&format!("{shape:?} | {k}"), &shape.drawing(192, k));
        }
    }
}

fn print_whole(name: &str, drawing: &Drawing) {
    let table = write(drawing);
    let mut sheet = vec![0; SHEET_ROOM];
    let (mut mapped, mut inspected) = (Steps::default(), Steps::default());
    let length = mapping::map(&table, &mut sheet, &mut mapped).expect("it is a drawing");
    inspect::inspect(&table, &sheet[..length], &mut inspected).expect("it is the mapper's");
    let order = [Step::OrderTurn, Step::OrderTest];
    let walks = [Step::WalkTurn, Step::WalkTest];
    let areas = [Step::AreaTurn, Step::AreaTest];
    let flow = [Step::Turn, Step::Visit, Step::FlowTest, Step::Augment];
    let cones = [Step::ConeTurn, Step::ConeTest];
    let sum = |steps: &Steps, parts: &[Step]| parts.iter().map(|&part| steps[part]).sum::<u64>();
    let counts = [
        mapped.total(),
        sum(&mapped, &order),
        sum(&mapped, &walks),
        sum(&mapped, &areas),
        sum(&mapped, &flow),
        sum(&mapped, &cones),
        inspected.total(),
        sum(&inspected, &walks),
        sum(&inspected, &areas),
        sum(&inspected, &cones),
    ];
    println!("| {name} | {} | {} |", thousands(&counts), row(&[length as u64]));
}

/// Numbers between bars, with a comma at each thousand.
fn row(numbers: &[u64]) -> String {
    let cells: Vec<String> = numbers.iter().map(|&number| grouped(number)).collect();
    cells.join(" | ")
}

fn grouped(number: u64) -> String {
    match number / 1_000 {
        0 => number.to_string(),
        thousands => format!("{},{:03}", grouped(thousands), number % 1_000),
    }
}

/// The same in thousands, with one place where that is less than ten.
fn thousands(numbers: &[u64]) -> String {
    let cell = |&number: &u64| match number {
        0 => String::from("0"),
        1..=9_999 => format!("{:.1}", number as f64 / 1e3),
        _ => grouped((number + 500) / 1_000),
    };
    let cells: Vec<String> = numbers.iter().map(cell).collect();
    cells.join(" | ")
}
