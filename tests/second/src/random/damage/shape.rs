//! Damage to the shape of a sheet, and to its head.

use super::{some_below, starts, Damaged, Due};
use crate::graph::Graph;
use crate::random::Random;
use crate::sheet::{Line, Sheet};

fn byte(number: usize) -> u8 {
    u8::try_from(number).expect("it is a byte")
}

pub fn other_byte(sheet: &Sheet, random: &mut Random) -> Damaged {
    let mut bytes = sheet.bytes();
    let at = random.below(bytes.len());
    let change = match random.below(4) {
        0 => 1,
        1 => u8::MAX,
        _ => byte(random.between(1, 255)),
    };
    bytes[at] = bytes[at].wrapping_add(change);
    Damaged { bytes, due: Due::Open }
}

pub fn shorter(sheet: &Sheet, random: &mut Random) -> Option<Damaged> {
    let starts = starts(&sheet.fields());
    let length = random.below(starts[starts.len() - 1]);
    let torn = starts.into_iter().filter(|&start| start <= length).max()?;
    Some(Damaged::refused(sheet.bytes()[..length].to_vec(), 21, torn))
}

pub fn longer(sheet: &Sheet, random: &mut Random) -> Damaged {
    let mut bytes = sheet.bytes();
    let end = bytes.len();
    let more = random.between(1, 20);
    bytes.extend((0..more).map(|_| byte(random.below(20))));
    Damaged::refused(bytes, 31, end)
}

pub fn other_tag(sheet: &Sheet, random: &mut Random) -> Damaged {
    let mut fields = sheet.fields();
    let at = random.below(fields.len());
    let tag = fields[at][0];
    fields[at][0] = match random.below(3) {
        0 => tag + 1,
        1 => tag - 1,
        _ => tag.wrapping_add(byte(random.between(1, 255))),
    };
    Damaged::refused(fields.concat(), 22, starts(&fields)[at])
}

pub fn other_length(sheet: &Sheet, random: &mut Random) -> Damaged {
    let mut fields = sheet.fields();
    let at = random.below(fields.len());
    let low_byte = 2;
    if random.one_in(2) {
        fields[at].push(byte(random.below(3)));
        fields[at][low_byte] += 1;
    } else {
        fields[at].pop();
        fields[at][low_byte] -= 1;
    }
    Damaged::refused(fields.concat(), 23, starts(&fields)[at])
}

/// A number of the head, of a line or of a LUT that is out of its range.
pub fn out_of_range(graph: &Graph, sheet: &Sheet, random: &mut Random) -> Option<Damaged> {
    let mut fields = sheet.fields();
    let at = random.below(fields.len());
    let place = starts(&fields)[at];
    fields[at] = if at == 0 {
        head_out_of_range(fields[0].clone(), sheet, random)
    } else if at <= sheet.lines.len() {
        line_out_of_range(graph, sheet.lines[at - 1].clone(), random)?.field()
    } else {
        let at = at - 1 - sheet.lines.len();
        let mut lut = sheet.luts[at].clone();
        if random.one_in(2) {
            let root_before = at.checked_sub(1).map(|before| sheet.luts[before].root);
            lut.root = bad_root(graph, root_before, random);
        } else {
            lut.leaves = bad_leaves(graph, &lut.leaves, random)?;
        }
        lut.field()
    };
    Some(Damaged::refused(fields.concat(), 24, place))
}

fn head_out_of_range(mut head: Vec<u8>, sheet: &Sheet, random: &mut Random) -> Vec<u8> {
    let (version_at, depth_at, count_at) = (3, 4, 5);
    match random.below(3) {
        0 => head[version_at] = *random.pick(&[0, 2, 255]),
        1 => head[depth_at] = *random.pick(&[192, 193, 255]),
        _ => head[count_at] = byte(random.between(sheet.lines.len() + 1, 255)),
    }
    head
}

fn line_out_of_range(graph: &Graph, mut line: Line, random: &mut Random) -> Option<Line> {
    match random.below(4) {
        0 => line.label = *random.pick(&[0, 192, 255]),
        1 => line.leaves = bad_leaves(graph, &line.leaves, random)?,
        2 => {
            let k = graph.k();
            let count = *random.pick(&[1, k, k + 2, 40]);
            line.paths = (0..count).map(|_| vec![0]).collect();
        }
        _ => {
            line.paths = (0..=graph.k()).map(|_| vec![0]).collect();
            let path = some_below(line.paths.len(), random)?;
            line.paths[path] = match random.one_in(2) {
                true => vec![],
                false => vec![0, random.between(graph.nodes(), 255)],
            };
        }
    }
    Some(line)
}

/// No leaves, too many, not rising, or no nodes.
fn bad_leaves(graph: &Graph, leaves: &[usize], random: &mut Random) -> Option<Vec<usize>> {
    let mut leaves = leaves.to_vec();
    match random.below(4) {
        0 => leaves.clear(),
        1 if graph.nodes() > graph.k() => leaves = (0..=graph.k()).collect(),
        2 if graph.k() > leaves.len() => leaves.push(leaves[leaves.len() - 1]),
        3 => *leaves.last_mut()? = random.between(graph.nodes(), 255),
        _ if leaves.len() > 1 => leaves.reverse(),
        _ => return None,
    }
    Some(leaves)
}

/// A root that is an input, no node or not above the one before.
fn bad_root(graph: &Graph, root_before: Option<usize>, random: &mut Random) -> usize {
    match (random.below(3), root_before) {
        (0, Some(before)) => random.between(graph.table.inputs, before),
        (1, _) => random.between(graph.nodes(), 255),
        _ => random.below(graph.table.inputs),
    }
}

pub fn other_depth(sheet: &Sheet, random: &mut Random) -> Damaged {
    let depth = (sheet.depth + random.between(1, 191)) % 192;
    Damaged::refused(Sheet { depth, ..sheet.clone() }.bytes(), 30, 0)
}

pub fn other_lut_count(sheet: &Sheet, random: &mut Random) -> Damaged {
    let count_at = 5;
    let starts = starts(&sheet.fields());
    let (last_field, end) = (starts[starts.len() - 2], starts[starts.len() - 1]);
    let mut bytes = sheet.bytes();
    if random.one_in(2) && !sheet.luts.is_empty() {
        bytes[count_at] -= 1;
        return Damaged::refused(bytes, 31, last_field);
    }
    bytes[count_at] += 1;
    if sheet.luts.len() == sheet.lines.len() {
        return Damaged::refused(bytes, 24, 0);
    }
    Damaged::refused(bytes, 21, end)
}
