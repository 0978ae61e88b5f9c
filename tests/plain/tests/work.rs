//! Bounds on work: counts of steps, not seconds.

use plain::mapping::SHEET_ROOM;
use plain::order::order;
use plain::shapes::{Shape, CARELESS, LADDERS, USUAL};
use plain::table::{write, NODE_LIMIT};
use plain::{inspect, label, mapping, Drawing, Step, Steps};

/// The steps of `map` and of `inspect` on the mapper's sheet.
fn steps(drawing: &Drawing) -> (Steps, Steps) {
    let (table, mut sheet) = (write(drawing), vec![0; SHEET_ROOM]);
    let (mut mapped, mut inspected) = (Steps::default(), Steps::default());
    let length = mapping::map(&table, &mut sheet, &mut mapped).unwrap();
    inspect::inspect(&table, &sheet[..length], &mut inspected).unwrap();
    (mapped, inspected)
}

#[test]
fn a_chain_numbered_backwards_is_ordered_in_as_many_sweeps_as_gates() {
    for gates in [191_u16, 999] {
        let mut chain = Drawing::new(2, 1);
        for before in 0..gates {
            chain.push_gate(&[before], 0x1);
        }
        let mut steps = Steps::default();
        let order = order(&chain.backwards(), &mut steps).unwrap();
        assert!(order.into_iter().eq((1..=gates).rev()));
        let gates = u64::from(gates);
        assert_eq!(steps[Step::OrderSweep], gates);
        assert_eq!(steps[Step::OrderTurn], gates * gates);
        assert_eq!(steps[Step::OrderTest], gates * (gates + 1) / 2);
        assert_eq!(steps[Step::LoopTest], 0);
    }
}

#[test]
fn a_loop_of_all_gates_is_found_from_the_first() {
    let mut ring = Drawing::new(2, 1);
    ring.push_gate(&[191], 0x1);
    for before in 1..191 {
        ring.push_gate(&[before], 0x1);
    }
    ring.outputs.push(0);
    let mut steps = Steps::default();
    assert_eq!(order(&ring, &mut steps), Err(1));
    assert_eq!(steps[Step::OrderSweep], 1);
    assert_eq!(steps[Step::LoopTest], 192);
}

/// What blows up a careless program stays within a few steps for each pair of nodes.
#[test]
fn careless_shapes_are_quadratic() {
    for shape in CARELESS {
        for k in 2..=6 {
            let nodes = NODE_LIMIT as u64;
            let (mapped, inspected) = steps(&shape.drawing(NODE_LIMIT, k));
            assert!(mapped.total() < 8 * nodes * nodes, "{shape:?} {k}: {mapped:?}");
            assert!(inspected.total() < 8 * nodes * nodes, "{shape:?} {k}: {inspected:?}");
        }
    }
}

#[test]
fn large_careless_shapes_are_quadratic() {
    for shape in CARELESS {
        let (drawing, mut steps) = (shape.drawing(1_000, 6), Steps::default());
        let order = order(&drawing, &mut steps).unwrap();
        label::label(&drawing, &order, &mut steps);
        assert!(steps.total() < 8 * 1_000_000, "{shape:?}: {steps:?}");
    }
}

/// Each part within what its loops allow, whatever the shape.
#[test]
fn every_part_keeps_its_bound() {
    for shape in USUAL.into_iter().chain(LADDERS).chain(CARELESS) {
        for k in [2, 4, 6].into_iter().filter(|&k| shape.takes(k)) {
            let drawing = shape.drawing(NODE_LIMIT, k);
            let (mapped, inspected) = steps(&drawing);
            check_bounds(&drawing, &mapped);
            check_bounds(&drawing, &inspected);
            assert_eq!(inspected[Step::Round], 0);
        }
    }
}

fn check_bounds(drawing: &Drawing, steps: &Steps) {
    let (nodes, gates) = (drawing.nodes() as u64, drawing.gates().len() as u64);
    let edges: u64 = drawing.fanins.iter().map(|fanins| fanins.len() as u64).sum();
    let most = |step: Step, bound: u64| assert!(steps[step] <= bound, "{step:?}: {steps:?}");
    most(Step::OrderSweep, gates);
    most(Step::OrderTurn, gates * steps[Step::OrderSweep]);
    // A gate's area is marked when it is labelled, and again when its evidence is written.
    most(Step::Area, 2 * gates);
    most(Step::WalkTurn, gates * steps[Step::Walk]);
    most(Step::WalkTest, edges * steps[Step::Walk]);
    most(Step::AreaTurn, 2 * nodes * steps[Step::Area]);
    most(Step::AreaTest, edges * steps[Step::Area]);
    most(Step::Round, (drawing.k as u64 + 1) * steps[Step::Area]);
    // Every sweep of a search but the last marks one of two states a node.
    most(Step::Sweep, (2 * nodes + 1) * steps[Step::Round]);
    most(Step::Turn, nodes * steps[Step::Sweep]);
    most(Step::Visit, steps[Step::Turn]);
    most(Step::FlowTest, edges * steps[Step::Sweep]);
    most(Step::Augment, nodes * steps[Step::Round]);
    most(Step::ConeTurn, (gates * gates) << drawing.k);
    most(Step::ConeTest, (gates * edges) << drawing.k);
}

/// A path of so many nodes is undone state by state: nearly the most sweeps that a search can take.
#[test]
fn an_undone_path_takes_two_sweeps_a_node() {
    let (drawing, mut steps) = (Shape::Undone.drawing(150, 2), Steps::default());
    let order = order(&drawing, &mut steps).unwrap();
    let labelling = label::label(&drawing, &order, &mut steps);
    let ups = (0..drawing.nodes()).filter(|&node| labelling.labels[node] == 3).count() as u64;
    let undone = drawing.gates().len() as u64 * 2 / 3;
    assert!(ups > 40);
    assert!(steps[Step::Sweep] > ups * 2 * undone, "{steps:?}");
}
