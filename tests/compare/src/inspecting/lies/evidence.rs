//! False evidence, each path of which is true in all but one thing.

use super::{some_below, some_gate};
use crate::inspecting::PATH_LIMIT;
use crate::mapped::Mapped;
use second::flow::flow;
use second::graph::Graph;
use second::labels::d;
use second::random::Random;
use second::sheet::Sheet;

/// As many true paths as there are, and then some again, or nodes behind the gate.
pub fn made_up(
    graph: &Graph,
    labels: &[usize],
    gate: usize,
    random: &mut Random,
) -> Vec<Vec<usize>> {
    let wanted = graph.k() + 1;
    let mut paths = flow(graph, gate, d(graph, labels, gate), wanted).paths;
    let behind = graph.behind(gate).list();
    while paths.len() < wanted {
        let more = match random.one_in(2) && !paths.is_empty() {
            true => random.pick(&paths).clone(),
            false => vec![*random.pick(&behind)],
        };
        paths.push(more);
    }
    random.shuffle(&mut paths);
    paths
}

/// A sheet with some gate's paths changed.
fn with_paths(
    mapped: &Mapped,
    random: &mut Random,
    change: impl Fn(&Mapped, usize, &mut Vec<Vec<usize>>, &mut Random) -> Option<()>,
) -> Option<Sheet> {
    let mut sheet = mapped.sheet.clone();
    let place = |gate: usize| gate - mapped.graph.table.inputs;
    let has_paths = |gate: usize| !mapped.sheet.lines[place(gate)].paths.is_empty();
    let gate = some_gate(&mapped.graph, random, has_paths)?;
    change(mapped, gate, &mut sheet.lines[place(gate)].paths, random)?;
    Some(sheet)
}

/// A path from an input to a node, each step back to some fanin.
fn path_to(graph: &Graph, node: usize, random: &mut Random) -> Vec<usize> {
    let mut path = vec![node];
    while !graph.is_input(path[path.len() - 1]) {
        path.push(*random.pick(graph.fanins(path[path.len() - 1])));
    }
    path.reverse();
    path
}

/// One path comes from elsewhere and then goes along another.
pub fn sharing(mapped: &Mapped, random: &mut Random) -> Option<Sheet> {
    with_paths(mapped, random, |mapped, _, paths, random| {
        let (one, other) = (random.below(paths.len()), random.below(paths.len()));
        let place = random.below(paths[other].len());
        let mut along = path_to(&mapped.graph, paths[other][place], random);
        along.extend(&paths[other][place + 1..]);
        paths[one] = along;
        (one != other).then_some(())
    })
}

/// A path goes on into D, or through it to one of its fanins.
pub fn through_d(mapped: &Mapped, random: &mut Random) -> Option<Sheet> {
    with_paths(mapped, random, |mapped, gate, paths, random| {
        let members = d(&mapped.graph, &mapped.labelled.labels, gate).list();
        let which = random.below(paths.len());
        let last = *paths[which].last()?;
        let reads = |&&member: &&usize| mapped.graph.fanins(member).contains(&last);
        let readers: Vec<usize> = members.iter().filter(reads).copied().collect();
        paths[which].push(*random.pick(&readers));
        Some(())
    })
}

/// A path to a node that is not behind the gate.
pub fn not_behind(mapped: &Mapped, random: &mut Random) -> Option<Sheet> {
    with_paths(mapped, random, |mapped, gate, paths, random| {
        let graph = &mapped.graph;
        let is_elsewhere = |&node: &usize| node != gate && !graph.behind(gate).contains(node);
        let elsewhere: Vec<usize> = (0..graph.nodes()).filter(is_elsewhere).collect();
        let node = elsewhere[some_below(elsewhere.len(), random)?];
        let which = random.below(paths.len());
        paths[which] = path_to(graph, node, random);
        Some(())
    })
}

/// A path without its first nodes, or without its last.
pub fn starting_late(mapped: &Mapped, random: &mut Random) -> Option<Sheet> {
    with_paths(mapped, random, |_, _, paths, random| {
        let long: Vec<usize> = (0..paths.len()).filter(|&at| paths[at].len() > 1).collect();
        let path = &mut paths[long[some_below(long.len(), random)?]];
        let place = random.between(1, path.len() - 1);
        match random.below(3) {
            0 => drop(path.drain(place..)),
            1 => drop(path.drain(..place)),
            _ => drop(path.drain(place - 1..place)),
        }
        Some(())
    })
}

/// A node again after itself, or a path again after itself.
pub fn twice_on_one(mapped: &Mapped, random: &mut Random) -> Option<Sheet> {
    with_paths(mapped, random, |_, _, paths, random| {
        let which = random.below(paths.len());
        let path = &mut paths[which];
        let place = random.below(path.len());
        match random.one_in(2) {
            true => path.insert(place, path[place]),
            false => path.extend_from_within(place..),
        }
        path.truncate(PATH_LIMIT);
        Some(())
    })
}
