//! The mapping sheet: as a value, as bytes, and as the mapper makes it.

use crate::evidence::{evidence, is_due};
use crate::graph::Graph;
use crate::inspect::Rule;
use crate::labels::{labelled, Labelled};
use crate::mapping::{cover, cover_depth, Lut};
use crate::table::{field, Fields, Refusal, Table};
use crate::{Refused, ROOM};
use std::ops::RangeInclusive;

/// The least length of the mapper's sheet buffer.
pub const BUFFER_LIMIT: usize = 49_152;
/// No acceptable sheet is longer.
pub const SHEET_LIMIT: usize = 43_554;

const HEAD_TAG: u8 = 16;
const LINE_TAG: u8 = 17;
const LUT_TAG: u8 = 18;

const DEPTH_LIMIT: usize = 191;
const LABELS: RangeInclusive<usize> = 1..=191;

/// A gate's line: its label, the leaves of its cut and the paths of its evidence.
#[derive(Clone, Debug, PartialEq, Eq)]
pub struct Line {
    pub label: usize,
    pub leaves: Vec<usize>,
    pub paths: Vec<Vec<usize>>,
}

/// A mapping sheet. The lines are those of the gates in id order.
#[derive(Clone, Debug, PartialEq, Eq)]
pub struct Sheet {
    pub depth: usize,
    pub lines: Vec<Line>,
    pub luts: Vec<Lut>,
}

/// The mapper: from a table as bytes and the sheet buffer's length, a sheet as bytes or the
/// refusals 1 to 8.
pub fn map(table: &[u8], buffer_length: usize) -> Result<Vec<u8>, Refused> {
    let graph = Graph::read(table)?;
    if buffer_length < BUFFER_LIMIT {
        return Err((ROOM, BUFFER_LIMIT));
    }
    Ok(mapped(&graph).bytes())
}

/// The mapper's sheet.
pub fn mapped(graph: &Graph) -> Sheet {
    mapped_with(graph, &labelled(graph))
}

/// The mapper's sheet with these labels and cuts.
pub fn mapped_with(graph: &Graph, Labelled { labels, cuts }: &Labelled) -> Sheet {
    let paths = |gate: usize| match is_due(graph, labels, gate) {
        true => evidence(graph, labels, gate),
        false => Vec::new(),
    };
    let line =
        |gate: usize| Line { label: labels[gate], leaves: cuts[gate].list(), paths: paths(gate) };
    let luts = cover(graph, cuts);
    Sheet { depth: cover_depth(graph, &luts), lines: graph.gates().map(line).collect(), luts }
}

fn byte(number: usize) -> u8 {
    u8::try_from(number).expect("a sheet's numbers are bytes")
}

/// A count and as many ids, as bytes.
fn counted(ids: &[usize]) -> Vec<u8> {
    [ids.len()].iter().chain(ids).map(|&number| byte(number)).collect()
}

impl Line {
    pub fn field(&self) -> Vec<u8> {
        let mut value = vec![byte(self.label)];
        value.extend(counted(&self.leaves));
        value.push(byte(self.paths.len()));
        value.extend(self.paths.iter().flat_map(|path| counted(path)));
        field(LINE_TAG, &value)
    }
}

impl Lut {
    pub fn field(&self) -> Vec<u8> {
        let mut value = vec![byte(self.root)];
        value.extend(counted(&self.leaves));
        value.extend(self.rows.to_be_bytes());
        field(LUT_TAG, &value)
    }
}

impl Sheet {
    /// The sheet as bytes, a vector for each field.
    pub fn fields(&self) -> Vec<Vec<u8>> {
        let head = field(HEAD_TAG, &[1, byte(self.depth), byte(self.luts.len())]);
        let lines = self.lines.iter().map(Line::field);
        let luts = self.luts.iter().map(Lut::field);
        [head].into_iter().chain(lines).chain(luts).collect()
    }

    /// The sheet as bytes.
    pub fn bytes(&self) -> Vec<u8> {
        self.fields().concat()
    }

    /// What the paper fixes of the mapper's sheet: all but the paths of the evidence.
    pub fn fixed_part(&self) -> Sheet {
        let mut fixed = self.clone();
        fixed.lines.iter_mut().for_each(|line| line.paths.clear());
        fixed
    }
}

/// Reads a sheet for a table, which is the inspector's first pass: the refusals 21 to 24, field by
/// field from the left, then 31.
pub fn read(table: &Table, bytes: &[u8]) -> Result<Sheet, Refused> {
    let mut fields = Fields { bytes, start: 0 };
    let (depth, lut_count) = read_head(&mut fields, table)?;
    let mut lines = Vec::new();
    for _ in 0..table.gates.len() {
        lines.push(read_line(&mut fields, table)?);
    }
    let mut luts: Vec<Lut> = Vec::new();
    for _ in 0..lut_count {
        let root_before = luts.last().map(|lut| lut.root);
        let lut = read_lut(&mut fields, table, root_before)?;
        luts.push(lut);
    }
    if fields.bytes_left() > 0 {
        return Err(Rule::Extra.at(fields.start));
    }
    Ok(Sheet { depth, lines, luts })
}

/// The value of the field that is due, or 21 or 22.
fn due<'a>(fields: &Fields<'a>, tag: u8) -> Result<&'a [u8], Refused> {
    // The sheet's Torn and Tag are the table's, twenty numbers on.
    let refused = |refusal: Refusal| (20 + refusal.fault.number(), refusal.place);
    fields.begin(tag).map_err(refused)?;
    fields.value().map_err(refused)
}

fn read_head(fields: &mut Fields, table: &Table) -> Result<(usize, usize), Refused> {
    let value = due(fields, HEAD_TAG)?;
    if value.len() != 3 {
        return Err(Rule::Length.at(fields.start));
    }
    let (version, depth, lut_count) = (value[0], usize::from(value[1]), usize::from(value[2]));
    if version != 1 || depth > DEPTH_LIMIT || lut_count > table.gates.len() {
        return Err(Rule::Range.at(fields.start));
    }
    fields.pass(value);
    Ok((depth, lut_count))
}

fn read_line(fields: &mut Fields, table: &Table) -> Result<Line, Refused> {
    let value = due(fields, LINE_TAG)?;
    let line = parse_line(value).ok_or_else(|| Rule::Length.at(fields.start))?;
    let in_range = LABELS.contains(&line.label)
        && leaves_in_range(table, &line.leaves)
        && [0, table.k + 1].contains(&line.paths.len())
        && line.paths.iter().all(|path| !path.is_empty() && are_nodes(table, path));
    if !in_range {
        return Err(Rule::Range.at(fields.start));
    }
    fields.pass(value);
    Ok(line)
}

fn read_lut(
    fields: &mut Fields,
    table: &Table,
    root_before: Option<usize>,
) -> Result<Lut, Refused> {
    let value = due(fields, LUT_TAG)?;
    let lut = parse_lut(value).ok_or_else(|| Rule::Length.at(fields.start))?;
    let in_range = are_nodes(table, &[lut.root])
        && lut.root >= table.inputs
        && root_before.map_or(true, |before| before < lut.root)
        && leaves_in_range(table, &lut.leaves);
    if !in_range {
        return Err(Rule::Range.at(fields.start));
    }
    fields.pass(value);
    Ok(lut)
}

fn leaves_in_range(table: &Table, leaves: &[usize]) -> bool {
    (1..=table.k).contains(&leaves.len())
        && leaves.windows(2).all(|pair| pair[0] < pair[1])
        && are_nodes(table, leaves)
}

fn are_nodes(table: &Table, ids: &[usize]) -> bool {
    ids.iter().all(|&id| id < table.inputs + table.gates.len())
}

/// The line whose own counts use the value up exactly.
fn parse_line(value: &[u8]) -> Option<Line> {
    let mut left = value;
    let label = take_byte(&mut left)?;
    let leaves = take_counted(&mut left)?;
    let path_count = take_byte(&mut left)?;
    let paths = (0..path_count).map(|_| take_counted(&mut left)).collect::<Option<_>>()?;
    left.is_empty().then_some(Line { label, leaves, paths })
}

/// The LUT whose own count uses the value up exactly.
fn parse_lut(value: &[u8]) -> Option<Lut> {
    let mut left = value;
    let root = take_byte(&mut left)?;
    let leaves = take_counted(&mut left)?;
    let rows = u64::from_be_bytes(<[u8; 8]>::try_from(left).ok()?);
    Some(Lut { root, leaves, rows })
}

fn take_byte(left: &mut &[u8]) -> Option<usize> {
    let (&first, rest) = left.split_first()?;
    *left = rest;
    Some(usize::from(first))
}

/// A count and as many ids.
fn take_counted(left: &mut &[u8]) -> Option<Vec<usize>> {
    let count = take_byte(left)?;
    (0..count).map(|_| take_byte(left)).collect()
}

#[cfg(test)]
mod tests {
    use super::*;
    use crate::drawings::{named, paper};
    use crate::table::{gate_field, head_field, output_field, NODE_LIMIT};

    fn sheet_bytes(name: &str) -> Vec<u8> {
        map(&named(name).bytes(), BUFFER_LIMIT).unwrap()
    }

    #[test]
    fn the_bytes_of_p1s_sheet() {
        let by_hand = [
            16, 0, 3, 1, 2, 3, //
            17, 0, 5, 1, 2, 0, 1, 0, //
            17, 0, 5, 1, 2, 2, 3, 0, //
            17, 0, 13, 2, 2, 4, 5, 4, 1, 0, 1, 1, 1, 2, 1, 3, //
            18, 0, 12, 4, 2, 0, 1, 0, 0, 0, 0, 0, 0, 0, 8, //
            18, 0, 12, 5, 2, 2, 3, 0, 0, 0, 0, 0, 0, 0, 8, //
            18, 0, 12, 6, 2, 4, 5, 0, 0, 0, 0, 0, 0, 0, 14,
        ];
        assert_eq!(named("P1").bytes().len(), 53);
        assert_eq!(by_hand.len(), 83);
        assert_eq!(sheet_bytes("P1"), by_hand);
    }

    #[test]
    fn the_sheet_of_p7_is_its_head() {
        assert_eq!(sheet_bytes("P7"), [16, 0, 3, 1, 0, 0]);
    }

    #[test]
    fn every_sheet_of_the_paper_is_read_back() {
        for drawing in paper() {
            if let Ok(graph) = Graph::new(drawing.table) {
                let sheet = mapped(&graph);
                assert_eq!(read(&graph.table, &sheet.bytes()), Ok(sheet), "{}", drawing.name);
            }
        }
    }

    #[test]
    fn the_paths_are_free() {
        let sheet = mapped(&Graph::new(named("P1")).unwrap());
        let mut other = sheet.clone();
        other.lines[2].paths.reverse();
        assert_ne!(other, sheet);
        assert_eq!(other.fixed_part(), sheet.fixed_part());
        other.luts[2].rows = 0;
        assert_ne!(other.fixed_part(), sheet.fixed_part());
    }

    #[test]
    fn refusals_of_the_mapper_in_order() {
        assert_eq!(map(&[], 0), Err((1, 0)));
        assert_eq!(map(&named("P8").bytes(), 0), Err((7, 1)), "a loop comes before the room");
        assert_eq!(map(&named("P9").bytes(), BUFFER_LIMIT), Err((7, 2)));
        assert_eq!(map(&named("P1").bytes(), BUFFER_LIMIT - 1), Err((8, BUFFER_LIMIT)));
        assert!(map(&named("P1").bytes(), BUFFER_LIMIT).is_ok());
        let k_of_7 = [head_field(7, 1, 0), output_field(0)].concat();
        assert_eq!(map(&k_of_7, BUFFER_LIMIT), Err((4, 0)));
    }

    #[test]
    fn the_papers_limits() {
        let reply = |k: u8, inputs: u8, gates: u8, outputs: usize, buffer_length: usize| {
            let mut bytes = head_field(k, inputs, gates);
            (0..gates).for_each(|_| bytes.extend(gate_field(&[0], 1)));
            (0..outputs).for_each(|_| bytes.extend(output_field(0)));
            map(&bytes, buffer_length).map(|_| ())
        };
        assert_eq!(reply(6, 1, 1, 1, BUFFER_LIMIT), Ok(()));
        assert_eq!(reply(7, 1, 1, 1, BUFFER_LIMIT), Err((4, 0)));
        assert_eq!(reply(2, 64, 128, 1, BUFFER_LIMIT), Ok(()));
        assert_eq!(reply(2, 64, 129, 1, BUFFER_LIMIT), Err((4, 0)));
        assert_eq!(reply(2, 1, 0, 64, BUFFER_LIMIT), Ok(()));
        assert_eq!(reply(2, 1, 0, 65, BUFFER_LIMIT), Err((6, 263)));
        assert_eq!(reply(2, 1, 0, 1, 49_152), Ok(()));
        assert_eq!(reply(2, 1, 0, 1, 49_151), Err((8, 49_152)));
    }

    /// No acceptable sheet is longer than this: a line has at most 6 leaves and 7 paths, which
    /// miss the gate and a fanin of label p.
    #[test]
    fn the_longest_sheet() {
        let line = 3 + 1 + 1 + 6 + 1 + 7 + (NODE_LIMIT - 2);
        let lut = 3 + 1 + 1 + 6 + 8;
        assert_eq!(6 + (NODE_LIMIT - 1) * (line + lut), SHEET_LIMIT);
    }

    /// Where the fields of P1's sheet begin.
    const P1_STARTS: [usize; 7] = [0, 6, 14, 22, 38, 53, 68];

    /// Each case is a number and a field that stands in the place of P1's at this position.
    fn assert_refused(at: usize, cases: &[(u32, Vec<u8>)]) {
        let table = named("P1");
        let sheet = mapped(&Graph::new(table.clone()).unwrap());
        for (number, other) in cases {
            let mut fields = sheet.fields();
            fields[at] = other.clone();
            let reply = read(&table, &fields.concat());
            assert_eq!(reply, Err((*number, P1_STARTS[at])), "{other:?}");
        }
    }

    #[test]
    fn bad_heads() {
        let cases = [
            (22, field(17, &[1, 2, 3])),
            (23, field(16, &[1, 2])),
            (23, field(16, &[1, 2, 3, 0])),
            (24, field(16, &[0, 2, 3])),
            (24, field(16, &[1, 192, 3])),
            (24, field(16, &[1, 2, 4])),
        ];
        assert_refused(0, &cases);
    }

    #[test]
    fn bad_lines() {
        let cases = [
            (22, field(18, &[1, 2, 0, 1, 0])),
            (23, field(17, &[])),
            (23, field(17, &[1])),
            (23, field(17, &[1, 2, 0, 1])),
            (23, field(17, &[1, 2, 0, 1, 0, 0])),
            (23, field(17, &[0, 255, 0, 1, 0])),
            (23, field(17, &[1, 2, 0, 1, 4, 1, 0, 1, 1, 1, 2])),
            (24, field(17, &[0, 2, 0, 1, 0])),
            (24, field(17, &[192, 2, 0, 1, 0])),
            (24, field(17, &[1, 0, 0])),
            (24, field(17, &[1, 4, 0, 1, 2, 3, 0])),
            (24, field(17, &[1, 2, 1, 0, 0])),
            (24, field(17, &[1, 2, 1, 1, 0])),
            (24, field(17, &[1, 2, 0, 7, 0])),
            (24, field(17, &[1, 2, 0, 1, 1, 1, 0])),
            (24, field(17, &[1, 2, 0, 1, 4, 0, 0, 0, 0])),
            (24, field(17, &[1, 2, 0, 1, 4, 1, 7, 1, 1, 1, 2, 1, 3])),
        ];
        assert_refused(1, &cases);
    }

    #[test]
    fn bad_luts() {
        let lut = |value: &[u8]| field(LUT_TAG, &[value, &[0, 0, 0, 0, 0, 0, 0, 8]].concat());
        let cases = [
            (22, field(17, &[1, 2, 0, 1, 0])),
            (23, field(18, &[])),
            (23, field(18, &[4])),
            (23, field(18, &[4, 2, 0, 1, 0, 0, 0, 0, 0, 0, 8])),
            (23, lut(&[4, 1, 0, 1])),
            (23, lut(&[4, 3, 0, 1])),
            (24, lut(&[3, 2, 0, 1])),
            (24, lut(&[7, 2, 0, 1])),
            (24, lut(&[4, 0])),
            (24, lut(&[4, 4, 0, 1, 2, 3])),
            (24, lut(&[4, 2, 1, 0])),
            (24, lut(&[4, 2, 0, 9])),
        ];
        assert_refused(4, &cases);
        assert_refused(5, &[(24, lut(&[4, 2, 0, 1]))]);
    }

    #[test]
    fn every_shorter_sheet_is_torn_where_its_field_begins() {
        let table = named("P1");
        let bytes = sheet_bytes("P1");
        for length in 0..bytes.len() {
            let start = P1_STARTS.into_iter().filter(|&start| start <= length).max().unwrap();
            assert_eq!(read(&table, &bytes[..length]), Err((21, start)), "{length}");
        }
    }

    #[test]
    fn extra_bytes_come_last() {
        let table = named("P1");
        let mut bytes = sheet_bytes("P1");
        bytes.push(18);
        assert_eq!(read(&table, &bytes), Err((31, 83)));
        bytes[4] = 192;
        assert_eq!(read(&table, &bytes), Err((24, 0)));
        assert_eq!(read(&named("P7"), &[16, 0, 3, 1, 0, 0, 16]), Err((31, 6)));
    }
}
