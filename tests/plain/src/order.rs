//! The order of the gates by sweeps, and the loop rule.

use crate::count::{Count, Step};
use crate::drawing::Drawing;

/// The gates with fanins first: sweeps in id order, each of which places every gate whose fanins
/// are inputs or placed. On a loop, the lowest gate that reaches itself.
pub fn order(drawing: &Drawing, count: &mut impl Count) -> Result<Vec<u16>, u16> {
    let gates = drawing.gates();
    let mut placed = vec![false; drawing.nodes()];
    placed[..drawing.inputs].fill(true);
    let mut order = Vec::with_capacity(gates.len());
    while order.len() < gates.len() {
        count.step(Step::OrderSweep);
        let before = order.len();
        for gate in gates.clone() {
            count.step(Step::OrderTurn);
            if !placed[gate] && is_ready(drawing, gate, &placed, count) {
                placed[gate] = true;
                order.push(gate as u16);
            }
        }
        if order.len() == before {
            return Err(lowest_loop(drawing, count));
        }
    }
    Ok(order)
}

fn is_ready(drawing: &Drawing, gate: usize, placed: &[bool], count: &mut impl Count) -> bool {
    drawing.fanins[gate].iter().all(|&fanin| {
        count.step(Step::OrderTest);
        placed[usize::from(fanin)]
    })
}

/// Gates are left over, so some gate reaches itself.
fn lowest_loop(drawing: &Drawing, count: &mut impl Count) -> u16 {
    let mut seen = vec![false; drawing.nodes()];
    let mut list = Vec::with_capacity(drawing.nodes());
    let on_loop =
        drawing.gates().find(|&gate| reaches_itself(drawing, gate, &mut seen, &mut list, count));
    on_loop.expect("gates are left over") as u16
}

/// Whether a search back from the gate comes to it again.
fn reaches_itself(
    drawing: &Drawing,
    gate: usize,
    seen: &mut [bool],
    list: &mut Vec<usize>,
    count: &mut impl Count,
) -> bool {
    seen[..drawing.inputs].fill(true);
    seen[drawing.inputs..].fill(false);
    list.clear();
    list.push(gate);
    let mut done = 0;
    while done < list.len() {
        for &fanin in drawing.fanins[list[done]].iter() {
            count.step(Step::LoopTest);
            let fanin = usize::from(fanin);
            if !seen[fanin] {
                seen[fanin] = true;
                list.push(fanin);
            }
        }
        done += 1;
    }
    seen[gate]
}
