//! The inspector: four passes over a sheet.

use crate::area::{peak, Area};
use crate::cone::Cone;
use crate::count::Count;
use crate::cover::greatest_at_outputs;
use crate::drawing::Drawing;
use crate::fields::{word, Fault, Fields};
use crate::ids::Ids;
use crate::label::Probe;
use crate::mapping::take;
use crate::walk::Walk;
use crate::Refusal;

const CUT: u8 = 25;
const LABEL: u8 = 26;
const PATHS: u8 = 27;
const COVER: u8 = 28;
const FUNCTION: u8 = 29;
const DEPTH: u8 = 30;
const EXTRA: u8 = 31;

/// The greatest depth and the greatest label.
const MOST: u8 = 191;

/// A sheet whose shape is good. The lines are those of the gates, ids rising.
struct Sheet<'a> {
    depth: u16,
    lines: Vec<Line<'a>>,
    luts: Vec<Lut>,
}

/// A gate's line.
struct Line<'a> {
    label: u16,
    leaves: Ids,
    path_count: usize,
    paths: Lists<'a>,
}

struct Lut {
    root: u16,
    leaves: Ids,
    table: u64,
}

/// Judges a sheet for a gate table, and answers the depth of one that is accepted.
pub fn inspect(table: &[u8], sheet: &[u8], count: &mut impl Count) -> Result<usize, Refusal> {
    let (drawing, order) = take(table, count)?;
    let sheet = read_sheet(&drawing, sheet)?;
    let labels = sheet_labels(&drawing, &sheet);
    judge_gates(&drawing, &order, &labels, &sheet.lines, count)?;
    judge_luts(&drawing, &order, &sheet.luts, count)?;
    judge_cover(&drawing, &sheet.luts)?;
    judge_depth(&drawing, &order, &labels, &sheet)?;
    Ok(usize::from(sheet.depth))
}

/// Pass one: the shape.
fn read_sheet<'a>(drawing: &Drawing, bytes: &'a [u8]) -> Result<Sheet<'a>, Refusal> {
    let mut fields = Fields { bytes, place: 0, above: 20 };
    let gates = drawing.gates().len();
    let (depth, lut_count) = read_head(&mut fields, gates)?;
    let mut lines = Vec::with_capacity(gates);
    for _ in 0..gates {
        lines.push(read_line(&mut fields, drawing)?);
    }
    let mut luts = Vec::with_capacity(lut_count);
    let mut least_root = drawing.inputs;
    for _ in 0..lut_count {
        let lut = read_lut(&mut fields, drawing, least_root)?;
        least_root = usize::from(lut.root) + 1;
        luts.push(lut);
    }
    if !fields.is_over() {
        return Err(Refusal { number: EXTRA, place: fields.place });
    }
    Ok(Sheet { depth, lines, luts })
}

fn read_head(fields: &mut Fields, gates: usize) -> Result<(u16, usize), Refusal> {
    let value = fields.value(16, false)?;
    let (version, depth, luts) = match *value {
        [version, depth, luts] => (version, depth, usize::from(luts)),
        _ => return Err(fields.refusal(Fault::Length)),
    };
    fields.demand(version == 1 && depth <= MOST && luts <= gates, Fault::Range)?;
    fields.pass(value);
    Ok((u16::from(depth), luts))
}

fn read_line<'a>(fields: &mut Fields<'a>, drawing: &Drawing) -> Result<Line<'a>, Refusal> {
    let value = fields.value(17, false)?;
    let parts = split_line(value).ok_or_else(|| fields.refusal(Fault::Length))?;
    let (label, leaves, path_count, paths) = parts;
    let in_range = (1..=MOST).contains(&label)
        && are_leaves(drawing, leaves)
        && (path_count == 0 || path_count == drawing.k + 1)
        && paths.clone().all(|path| !path.is_empty() && are_nodes(drawing, path));
    fields.demand(in_range, Fault::Range)?;
    fields.pass(value);
    Ok(Line { label: u16::from(label), leaves: ids(leaves), path_count, paths })
}

/// The label, the leaves, how many paths there are, and the paths, if they use the value up.
fn split_line(value: &[u8]) -> Option<(u8, &[u8], usize, Lists<'_>)> {
    let (&label, rest) = value.split_first()?;
    let (leaves, rest) = split_list(rest)?;
    let (&path_count, rest) = rest.split_first()?;
    let paths = Lists { bytes: rest };
    let mut after = paths.clone();
    let whole = after.by_ref().take(usize::from(path_count)).count();
    let is_used_up = whole == usize::from(path_count) && after.bytes.is_empty();
    is_used_up.then_some((label, leaves, whole, paths))
}

fn read_lut(fields: &mut Fields, drawing: &Drawing, least_root: usize) -> Result<Lut, Refusal> {
    let value = fields.value(18, false)?;
    let parts = split_lut(value).ok_or_else(|| fields.refusal(Fault::Length))?;
    let (root, leaves, table) = parts;
    let roots = least_root..drawing.nodes();
    let in_range = roots.contains(&usize::from(root)) && are_leaves(drawing, leaves);
    fields.demand(in_range, Fault::Range)?;
    fields.pass(value);
    Ok(Lut { root: u16::from(root), leaves: ids(leaves), table: word(table) })
}

fn split_lut(value: &[u8]) -> Option<(u8, &[u8], &[u8])> {
    let (&root, rest) = value.split_first()?;
    let (leaves, table) = split_list(rest)?;
    (table.len() == 8).then_some((root, leaves, table))
}

/// A count and as many ids, and what follows.
fn split_list(bytes: &[u8]) -> Option<(&[u8], &[u8])> {
    let (&count, rest) = bytes.split_first()?;
    let count = usize::from(count);
    (count <= rest.len()).then(|| rest.split_at(count))
}

/// Lists of ids, one after the other. They end where the bytes do, or with one that is not whole.
#[derive(Clone)]
struct Lists<'a> {
    bytes: &'a [u8],
}

impl<'a> Iterator for Lists<'a> {
    type Item = &'a [u8];

    fn next(&mut self) -> Option<&'a [u8]> {
        let (list, rest) = split_list(self.bytes)?;
        self.bytes = rest;
        Some(list)
    }
}

fn are_nodes(drawing: &Drawing, ids: &[u8]) -> bool {
    ids.iter().all(|&id| usize::from(id) < drawing.nodes())
}

fn are_leaves(drawing: &Drawing, leaves: &[u8]) -> bool {
    (1..=drawing.k).contains(&leaves.len())
        && leaves.windows(2).all(|pair| pair[0] < pair[1])
        && are_nodes(drawing, leaves)
}

fn ids(bytes: &[u8]) -> Ids {
    bytes.iter().map(|&id| u16::from(id)).collect()
}

/// The sheet's labels by node, 0 at inputs.
fn sheet_labels(drawing: &Drawing, sheet: &Sheet) -> Vec<u16> {
    let mut labels = vec![0; drawing.inputs];
    labels.extend(sheet.lines.iter().map(|line| line.label));
    labels
}

/// Pass two: cut, label and paths of each gate.
fn judge_gates(
    drawing: &Drawing,
    order: &[u16],
    labels: &[u16],
    lines: &[Line],
    count: &mut impl Count,
) -> Result<(), Refusal> {
    let mut walk = Walk::new(drawing.nodes());
    let mut probe = Probe::new(drawing.nodes());
    let mut used = vec![false; drawing.nodes()];
    for (place, line) in drawing.gates().zip(lines) {
        let gate = place as u16;
        let refused = |number: u8| Err(Refusal { number, place });
        if !walk.is_cut(drawing, order, gate, &line.leaves, count) {
            return refused(CUT);
        }
        let p = peak(drawing, labels, gate);
        let above = line.leaves.iter().map(|&leaf| labels[usize::from(leaf)]).max().unwrap_or(0);
        if line.label != above + 1 || (line.label != p && line.label != p + 1) {
            return refused(LABEL);
        }
        if line.label == p || p == 0 {
            if line.path_count > 0 {
                return refused(PATHS);
            }
            continue;
        }
        let area = probe.mark_area(drawing, order, labels, gate, p, count);
        if line.path_count == 0 || !is_evidence(drawing, area, line.paths.clone(), &mut used) {
            return refused(PATHS);
        }
    }
    Ok(())
}

/// Whether the paths are true and no node is on two of them or twice on one.
fn is_evidence(drawing: &Drawing, area: &Area, mut paths: Lists, used: &mut [bool]) -> bool {
    used.fill(false);
    paths.all(|path| {
        let last = usize::from(path[path.len() - 1]);
        let is_fanin =
            |pair: &[u8]| drawing.fanins[usize::from(pair[1])].contains(&u16::from(pair[0]));
        let is_free = |&node: &u8| {
            let node = usize::from(node);
            area.within[node] && !std::mem::replace(&mut used[node], true)
        };
        usize::from(path[0]) < drawing.inputs
            && area.ends[last]
            && path.windows(2).all(is_fanin)
            && path.iter().all(is_free)
    })
}

/// Pass three: cut and function of each LUT.
fn judge_luts(
    drawing: &Drawing,
    order: &[u16],
    luts: &[Lut],
    count: &mut impl Count,
) -> Result<(), Refusal> {
    let mut walk = Walk::new(drawing.nodes());
    let mut cone = Cone::new(drawing.nodes());
    for lut in luts {
        let refused = |number: u8| Err(Refusal { number, place: usize::from(lut.root) });
        if !walk.is_cut(drawing, order, lut.root, &lut.leaves, count) {
            return refused(CUT);
        }
        if cone.table(drawing, order, lut.root, &lut.leaves, count) != lut.table {
            return refused(FUNCTION);
        }
    }
    Ok(())
}

/// Pass four, first half: a gate is a root exactly if it is an output or a leaf.
fn judge_cover(drawing: &Drawing, luts: &[Lut]) -> Result<(), Refusal> {
    let mut is_wanted = vec![false; drawing.nodes()];
    let mut is_root = vec![false; drawing.nodes()];
    let leaves = luts.iter().flat_map(|lut| lut.leaves.iter());
    for &node in drawing.outputs.iter().chain(leaves) {
        is_wanted[usize::from(node)] = true;
    }
    luts.iter().for_each(|lut| is_root[usize::from(lut.root)] = true);
    match drawing.gates().find(|&gate| is_wanted[gate] != is_root[gate]) {
        Some(place) => Err(Refusal { number: COVER, place }),
        None => Ok(()),
    }
}

/// Pass four, second half: three depths are equal.
fn judge_depth(
    drawing: &Drawing,
    order: &[u16],
    labels: &[u16],
    sheet: &Sheet,
) -> Result<(), Refusal> {
    let mut leaves = vec![Ids::default(); drawing.nodes()];
    sheet.luts.iter().for_each(|lut| leaves[usize::from(lut.root)] = lut.leaves);
    let mut depths = vec![0; drawing.nodes()];
    for &gate in order {
        let leaf_depths = leaves[usize::from(gate)].iter().map(|&leaf| depths[usize::from(leaf)]);
        depths[usize::from(gate)] = leaf_depths.max().map_or(0, |depth: u16| depth + 1);
    }
    let cover_depth = greatest_at_outputs(drawing, &depths);
    if cover_depth != sheet.depth || greatest_at_outputs(drawing, labels) != sheet.depth {
        return Err(Refusal { number: DEPTH, place: 0 });
    }
    Ok(())
}
