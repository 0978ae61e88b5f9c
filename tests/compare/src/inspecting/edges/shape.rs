//! Rules 21 to 24 and 31, on P1's sheet and P7's.

use super::Edges;
use second::drawings::named;
use second::table::field;
use second::Refused;

/// Where the fields of P1's sheet begin, and where the last one ends.
const STARTS: [usize; 8] = [0, 6, 14, 22, 38, 53, 68, 83];
/// The fields by their numbers.
const HEAD: usize = 0;
const LINE_OF_6: usize = 3;
const LUT_4: usize = 4;
const LUT_5: usize = 5;
const LUT_6: usize = 6;

const HEAD_TAG: u8 = 16;
const LINE_TAG: u8 = 17;
const LUT_TAG: u8 = 18;

/// The four paths of gate 6.
const PATHS: [u8; 9] = [4, 1, 0, 1, 1, 1, 2, 1, 3];
const AND_ROWS: [u8; 8] = [0, 0, 0, 0, 0, 0, 0, 8];
const OR_ROWS: [u8; 8] = [0, 0, 0, 0, 0, 0, 0, 14];

pub fn add(edges: &mut Edges) {
    let mut shape = Shape { edges };
    shape.whole();
    shape.torn();
    shape.tags();
    shape.head_values();
    shape.line_lengths();
    shape.line_ranges();
    shape.path_ranges();
    shape.lut_lengths();
    shape.lut_ranges();
    shape.extra();
    shape.first_field_first();
    shape.no_gates();
}

fn p1_fields() -> Vec<Vec<u8>> {
    vec![
        field(HEAD_TAG, &[1, 2, 3]),
        field(LINE_TAG, &[1, 2, 0, 1, 0]),
        field(LINE_TAG, &[1, 2, 2, 3, 0]),
        line_of_6(&[2, 2, 4, 5], &PATHS),
        lut(&[4, 2, 0, 1], &AND_ROWS),
        lut(&[5, 2, 2, 3], &AND_ROWS),
        lut(&[6, 2, 4, 5], &OR_ROWS),
    ]
}

fn line_of_6(start: &[u8], paths: &[u8]) -> Vec<u8> {
    field(LINE_TAG, &[start, paths].concat())
}

fn lut(start: &[u8], rows: &[u8]) -> Vec<u8> {
    field(LUT_TAG, &[start, rows].concat())
}

struct Shape<'a> {
    edges: &'a mut Edges,
}

impl Shape<'_> {
    fn p1(&mut self, name: &str, sheet: Vec<u8>, reply: Result<usize, Refused>) {
        self.edges.add(&format!("P1, {name}"), &named("P1"), sheet, reply);
    }

    /// P1's sheet with another field in the place of one of its own.
    fn with(&mut self, at: usize, name: &str, other: Vec<u8>, reply: Result<usize, Refused>) {
        let mut fields = p1_fields();
        fields[at] = other;
        self.p1(&format!("field {at} {name}"), fields.concat(), reply);
    }

    /// Values of a field that are refused by this number at the field's start.
    fn values(&mut self, at: usize, number: u32, values: &[&[u8]]) {
        for value in values {
            let other = field(p1_fields()[at][0], value);
            self.with(at, &format!("{value:?}"), other, Err((number, STARTS[at])));
        }
    }

    fn whole(&mut self) {
        self.p1("whole", p1_fields().concat(), Ok(2));
    }

    /// Cut at every byte, a wrong tag or none in the last two; a value that runs past the end.
    fn torn(&mut self) {
        let bytes = p1_fields().concat();
        for (at, field) in p1_fields().into_iter().enumerate() {
            let refused = Err((21, STARTS[at]));
            for length in STARTS[at]..STARTS[at + 1] {
                self.p1(&format!("{length} bytes"), bytes[..length].to_vec(), refused);
            }
            for left in 1..=2 {
                let cut = [&bytes[..STARTS[at]], &vec![99; left]].concat();
                self.p1(&format!("field {at}, {left} bytes and a wrong tag"), cut, refused);
            }
            let mut long = field;
            long[1] = 255;
            self.with(at, "of length 65,280 and more", long, refused);
        }
        let mut long = p1_fields()[LUT_6].clone();
        long[2] += 1;
        self.with(LUT_6, "one byte past the end", long, Err((21, STARTS[LUT_6])));
    }

    /// A wrong tag, also where the value is missing or runs past the end.
    fn tags(&mut self) {
        for (at, field) in p1_fields().into_iter().enumerate() {
            let due = field[0];
            let refused = Err((22, STARTS[at]));
            for tag in [0, 1, 2, 3, 15, 16, 17, 18, 19, 255].into_iter().filter(|&tag| tag != due) {
                let mut other = field.clone();
                other[0] = tag;
                self.with(at, &format!("of tag {tag}"), other.clone(), refused);
                other[1] = 255;
                self.with(at, &format!("of tag {tag}, past the end"), other, refused);
                let cut = [&p1_fields()[..at].concat()[..], &[tag, 0, 0]].concat();
                self.p1(&format!("field {at} of tag {tag} and no more"), cut, refused);
            }
        }
    }

    fn head_values(&mut self) {
        let long = vec![1; 259];
        self.values(HEAD, 23, &[&[], &[1], &[1, 2], &[1, 2, 3, 0], &[0, 2], &[0; 4], &long]);
        self.values(HEAD, 24, &[&[0, 2, 3], &[2, 2, 3], &[255, 2, 3]]);
        self.values(HEAD, 24, &[&[1, 192, 3], &[1, 255, 3], &[1, 2, 4], &[1, 2, 255]]);
        self.with(HEAD, "depth 191", field(HEAD_TAG, &[1, 191, 3]), Err((30, 0)));
        self.with(HEAD, "2 LUTs", field(HEAD_TAG, &[1, 2, 2]), Err((31, STARTS[LUT_6])));
        self.with(HEAD, "no LUTs", field(HEAD_TAG, &[1, 2, 0]), Err((31, STARTS[LUT_4])));
    }

    fn line_lengths(&mut self) {
        let value = [&[2, 2, 4, 5][..], &PATHS].concat();
        for length in 0..value.len() {
            self.values(LINE_OF_6, 23, &[&value[..length]]);
        }
        let surplus = [&value[..], &[0]].concat();
        let far_more = [&value[..], &[0; 256]].concat();
        self.values(LINE_OF_6, 23, &[&surplus, &far_more, &[2, 2, 4, 5, 0, 0], &[2, 255, 4, 5]]);
        // The length goes before the range: label 0, no leaves, a falling leaf, an id of n.
        self.values(LINE_OF_6, 23, &[&[0, 2, 4], &[2, 0], &[2, 2, 5, 4], &[2, 2, 4, 7, 0, 9]]);
        // A path of 255 ids uses the value up all the same.
        let mut paths = vec![4, 255];
        paths.extend([0; 255]);
        paths.extend([1, 1, 1, 2, 1, 3]);
        self.with(LINE_OF_6, "a long path", line_of_6(&[2, 2, 4, 5], &paths), Err((27, 6)));
    }

    fn line_ranges(&mut self) {
        let mut refused = |start: &[u8]| {
            let value = [start, &PATHS].concat();
            self.values(LINE_OF_6, 24, &[&value]);
        };
        for label in [0, 192, 255] {
            refused(&[label, 2, 4, 5]);
        }
        refused(&[2, 0]);
        refused(&[2, 4, 0, 1, 2, 3]);
        refused(&[2, 2, 4, 4]);
        refused(&[2, 2, 5, 4]);
        refused(&[2, 3, 2, 1, 3]);
        refused(&[2, 3, 1, 2, 2]);
        refused(&[2, 2, 4, 7]);
        refused(&[2, 2, 4, 255]);
        refused(&[2, 1, 7]);
        let mut judged = |start: &[u8], number: u32| {
            let other = line_of_6(start, &PATHS);
            self.with(LINE_OF_6, &format!("of {start:?}"), other, Err((number, 6)));
        };
        judged(&[191, 2, 4, 5], 26);
        judged(&[2, 1, 6], 25);
        judged(&[2, 3, 4, 5, 6], 25);
    }

    fn path_ranges(&mut self) {
        let mut refused = |paths: &[u8]| {
            let value = [&[2, 2, 4, 5], paths].concat();
            self.values(LINE_OF_6, 24, &[&value]);
        };
        // 1, K, K + 2 and 255 paths.
        for count in [1, 3, 5, 255] {
            refused(&[&[count][..], &[1, 0].repeat(usize::from(count))].concat());
        }
        for empty in 0..4 {
            let path = |at: usize| if at == empty { vec![0] } else { vec![1, at as u8] };
            refused(&[vec![4], (0..4).flat_map(path).collect()].concat());
        }
        refused(&[4, 0, 0, 0, 0]);
        refused(&[4, 1, 7, 1, 1, 1, 2, 1, 3]);
        refused(&[4, 1, 0, 1, 1, 1, 2, 1, 7]);
        refused(&[4, 1, 0, 1, 1, 1, 2, 2, 3, 255]);
        let other = line_of_6(&[2, 2, 4, 5], &[4, 1, 0, 1, 1, 1, 2, 1, 6]);
        self.with(LINE_OF_6, "with a path to itself", other, Err((27, 6)));
    }

    fn lut_lengths(&mut self) {
        let value = [&[5, 2, 2, 3][..], &AND_ROWS].concat();
        for length in 0..value.len() {
            self.values(LUT_5, 23, &[&value[..length]]);
        }
        let surplus = [&value[..], &[0]].concat();
        let far_more = [&value[..], &[0; 256]].concat();
        let counts_more = [&[5, 3, 2, 3][..], &AND_ROWS].concat();
        let counts_all = [&[5, 255, 2, 3][..], &AND_ROWS].concat();
        self.values(LUT_5, 23, &[&surplus, &far_more, &counts_more, &counts_all]);
        // The length goes before the range: root an input, no leaves.
        self.values(LUT_5, 23, &[&[0, 2, 2, 3, 0], &[5, 0]]);
    }

    fn lut_ranges(&mut self) {
        let mut refused = |at: usize, start: &[u8]| {
            let value = [start, &AND_ROWS].concat();
            self.values(at, 24, &[&value]);
        };
        for root in [0, 3, 7, 192, 255] {
            refused(LUT_4, &[root, 2, 0, 1]);
            refused(LUT_5, &[root, 2, 2, 3]);
        }
        refused(LUT_5, &[4, 2, 2, 3]);
        refused(LUT_6, &[4, 2, 4, 5]);
        refused(LUT_6, &[5, 2, 4, 5]);
        for at in [LUT_4, LUT_5, LUT_6] {
            let root = at as u8;
            refused(at, &[root, 0]);
            refused(at, &[root, 4, 0, 1, 2, 3]);
            refused(at, &[root, 2, 3, 3]);
            refused(at, &[root, 2, 3, 2]);
            refused(at, &[root, 2, 2, 7]);
            refused(at, &[root, 1, 255]);
        }
    }

    /// Bytes after the last LUT go before what is wrong with gates and LUTs.
    fn extra(&mut self) {
        let bytes = p1_fields().concat();
        for more in [&[0][..], &[16], &[18, 0], &bytes, &[0; 65_536]] {
            let name = format!("{} bytes more", more.len());
            self.p1(&name, [&bytes, more].concat(), Err((31, 83)));
        }
        let mut fields = p1_fields();
        fields[LINE_OF_6] = line_of_6(&[3, 2, 4, 5], &PATHS);
        fields.push(vec![0]);
        self.p1("a wrong label and a byte more", fields.concat(), Err((31, 83)));
        let last = fields.len() - 2;
        fields[last] = lut(&[6, 2, 4, 5], &AND_ROWS);
        self.p1("a wrong table and a byte more", fields.concat(), Err((31, 83)));
        fields[last] = lut(&[6, 2, 4, 7], &AND_ROWS);
        self.p1("a leaf out of range and a byte more", fields.concat(), Err((24, 68)));
    }

    /// Of two faulty fields, and of a faulty field and a broken rule.
    fn first_field_first(&mut self) {
        let mut fields = p1_fields();
        fields[LUT_6][0] = 0;
        fields[LUT_5] = lut(&[5, 2, 3, 2], &AND_ROWS);
        self.p1("a LUT out of range, then a tag", fields.concat(), Err((24, 53)));
        fields[LINE_OF_6] = field(LINE_TAG, &[2]);
        self.p1("a line too short, then both", fields.concat(), Err((23, 22)));
        fields[HEAD][3] = 0;
        self.p1("version 0, then all", fields.concat(), Err((24, 0)));
        let mut fields = p1_fields();
        fields[LINE_OF_6] = line_of_6(&[3, 2, 4, 5], &PATHS);
        fields[LUT_6][0] = 0;
        self.p1("a wrong label, then a tag", fields.concat(), Err((22, 68)));
    }

    /// P7's sheet is its head.
    fn no_gates(&mut self) {
        let mut p7 = |sheet: &[u8], reply: Result<usize, Refused>| {
            self.edges.add(&format!("P7, {sheet:?}"), &named("P7"), sheet.to_vec(), reply);
        };
        p7(&[16, 0, 3, 1, 0, 0], Ok(0));
        p7(&[16, 0, 3, 1, 0, 1], Err((24, 0)));
        p7(&[16, 0, 3, 1, 1, 0], Err((30, 0)));
        p7(&[16, 0, 3, 1, 0, 0, 17], Err((31, 6)));
        p7(&[16, 0, 3, 1, 0, 0, 17, 0, 5, 1, 1, 0, 0, 0], Err((31, 6)));
        p7(&[], Err((21, 0)));
        p7(&[17, 0, 3, 1, 0, 0], Err((22, 0)));
    }
}
