//! The LUTs that the outputs need.

use crate::drawing::Drawing;
use crate::ids::Ids;

/// Marks the roots: the output gates, then their gate leaves, and so back. In one pass back along
/// the order, since whatever needs a gate comes after it.
pub fn roots(drawing: &Drawing, order: &[u16], cuts: &[Ids]) -> Vec<bool> {
    let mut is_root = vec![false; drawing.nodes()];
    let is_gate = |&&node: &&u16| usize::from(node) >= drawing.inputs;
    for &output in drawing.outputs.iter().filter(is_gate) {
        is_root[usize::from(output)] = true;
    }
    for &gate in order.iter().rev() {
        let gate = usize::from(gate);
        if is_root[gate] {
            for &leaf in cuts[gate].iter().filter(is_gate) {
                is_root[usize::from(leaf)] = true;
            }
        }
    }
    is_root
}

/// The greatest of these numbers, which stand by node, over the outputs.
pub fn greatest_at_outputs(drawing: &Drawing, numbers: &[u16]) -> u16 {
    drawing.outputs.iter().map(|&output| numbers[usize::from(output)]).max().unwrap_or(0)
}
