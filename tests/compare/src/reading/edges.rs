//! The edges of the reading rules, each with its reply written down by hand from document 01.
//!
//! A head has 7 bytes, a gate 12 + m and an output 4, which gives the places below.

use second::drawings;
use second::table::{field, gate_field, head_field, output_field};
use second::Refused;

/// The paper's numbers of the refusals.
const TORN: u32 = 1;
const TAG: u32 = 2;
const LENGTH: u32 = 3;
const RANGE: u32 = 4;
const ROWS: u32 = 5;
const OUTPUTS: u32 = 6;

/// K, and the numbers of inputs, gates and outputs; or the refusal.
pub type Read = Result<[usize; 4], Refused>;

fn refused(number: u32, place: usize) -> Read {
    Err((number, place))
}

fn whole(k: usize, inputs: usize, gates: usize, outputs: usize) -> Read {
    Ok([k, inputs, gates, outputs])
}

pub struct Edge {
    pub name: String,
    pub bytes: Vec<u8>,
    pub due: Read,
}

pub fn all() -> Vec<Edge> {
    let mut edges = Edges(Vec::new());
    begun_heads(&mut edges);
    head_lengths(&mut edges);
    head_numbers(&mut edges);
    begun_gates(&mut edges);
    gate_lengths(&mut edges);
    gate_ranges(&mut edges);
    gate_rows(&mut edges);
    second_gates(&mut edges);
    begun_outputs(&mut edges);
    outputs(&mut edges);
    output_65(&mut edges);
    largest(&mut edges);
    paper(&mut edges);
    edges.0
}

struct Edges(Vec<Edge>);

impl Edges {
    fn add(&mut self, name: &str, bytes: &[u8], due: Read) {
        self.0.push(Edge { name: name.to_string(), bytes: bytes.to_vec(), due });
    }

    /// An edge behind a head that is good.
    fn behind(&mut self, head: [u8; 3], name: &str, bytes: &[u8], due: Read) {
        let [k, inputs, gates] = head;
        let name = format!("K {k}, I {inputs}, G {gates}: {name}");
        self.add(&name, &[&head_field(k, inputs, gates), bytes].concat(), due);
    }
}

fn begun_heads(edges: &mut Edges) {
    edges.add("no bytes", &[], refused(TORN, 0));
    edges.add("one byte of a head", &[1], refused(TORN, 0));
    edges.add("two bytes of a head", &[1, 0], refused(TORN, 0));
    edges.add("one byte, a wrong tag", &[9], refused(TORN, 0));
    edges.add("two bytes, a wrong tag", &[9, 9], refused(TORN, 0));
    edges.add("a head without its value", &[1, 0, 4], refused(TORN, 0));
    let all_but_one = &head_field(2, 1, 0)[..6];
    edges.add("a head without its last byte", all_but_one, refused(TORN, 0));
    for tag in [0, 2, 3, 4, 16, 33, 255] {
        let name = format!("tag {tag} for a head");
        let head = field(tag, &[1, 2, 1, 0]);
        edges.add(&name, &[head, output_field(0)].concat(), refused(TAG, 0));
        let name = format!("tag {tag} for a head, and no value");
        edges.add(&name, &[tag, 0, 4], refused(TAG, 0));
    }
}

fn head_lengths(edges: &mut Edges) {
    edges.add("head of length 0", &[1, 0, 0], refused(LENGTH, 0));
    edges.add("head of length 3", &[1, 0, 3, 1, 2, 1], refused(LENGTH, 0));
    let five = [1, 0, 5, 1, 2, 1, 0, 0];
    edges.add("head of length 5", &five, refused(LENGTH, 0));
    edges.add("head of length 5, torn", &five[..7], refused(TORN, 0));
    let high = field(1, &[[1, 2, 1, 0].as_slice(), &[0; 256]].concat());
    edges.add("head of length 260", &high, refused(LENGTH, 0));
    edges.add("head of length 260, torn", &high[..262], refused(TORN, 0));
    let longest = field(1, &[1; 65_535]);
    edges.add("head of length 65,535", &longest, refused(LENGTH, 0));
    let torn = &longest[..65_537];
    edges.add("head of length 65,535, torn", torn, refused(TORN, 0));
    let both = [1, 0, 3, 0, 9, 0];
    edges.add("head of wrong length, out of range", &both, refused(LENGTH, 0));
}

/// Heads with an output behind them and as many gates as they announce.
fn head_numbers(edges: &mut Edges) {
    let mut number = |version: u8, k: u8, inputs: u8, gates: u8, due: Read| {
        let head = field(1, &[version, k, inputs, gates]);
        let gate = gate_field(&[0], 1);
        let bytes = [head, gate.repeat(usize::from(gates)), output_field(0)].concat();
        let name = format!("head of version {version}, K {k}, I {inputs}, G {gates}");
        edges.add(&name, &bytes, due);
    };
    let good = |k, inputs, gates| whole(k, inputs, gates, 1);
    number(0, 2, 1, 0, refused(RANGE, 0));
    number(2, 2, 1, 0, refused(RANGE, 0));
    number(255, 2, 1, 0, refused(RANGE, 0));
    number(1, 0, 1, 0, refused(RANGE, 0));
    number(1, 1, 1, 0, refused(RANGE, 0));
    number(1, 2, 1, 0, good(2, 1, 0));
    number(1, 6, 1, 0, good(6, 1, 0));
    number(1, 7, 1, 0, refused(RANGE, 0));
    number(1, 255, 1, 0, refused(RANGE, 0));
    number(1, 2, 0, 0, refused(RANGE, 0));
    number(1, 2, 0, 1, refused(RANGE, 0));
    number(1, 2, 64, 0, good(2, 64, 0));
    number(1, 2, 65, 0, refused(RANGE, 0));
    number(1, 2, 255, 0, refused(RANGE, 0));
    number(1, 2, 1, 190, good(2, 1, 190));
    number(1, 2, 1, 191, good(2, 1, 191));
    number(1, 2, 1, 192, refused(RANGE, 0));
    number(1, 2, 1, 255, refused(RANGE, 0));
    number(1, 2, 2, 190, good(2, 2, 190));
    number(1, 2, 2, 191, refused(RANGE, 0));
    number(1, 2, 64, 128, good(2, 64, 128));
    number(1, 2, 64, 129, refused(RANGE, 0));
    number(1, 2, 64, 192, refused(RANGE, 0));
    edges.add("n 193, nothing behind", &head_field(2, 1, 192), refused(RANGE, 0));
}

fn begun_gates(edges: &mut Edges) {
    let head = [2, 1, 1];
    edges.behind(head, "no gate", &[], refused(TORN, 7));
    edges.behind(head, "one byte of a gate", &[2], refused(TORN, 7));
    edges.behind(head, "two bytes of a gate", &[2, 0], refused(TORN, 7));
    edges.behind(head, "one byte, a wrong tag", &[3], refused(TORN, 7));
    edges.behind(head, "two bytes, a wrong tag", &[3, 0], refused(TORN, 7));
    edges.behind(head, "an output for a gate", &output_field(0), refused(TAG, 7));
    edges.behind(head, "a head for a gate", &head_field(2, 1, 1), refused(TAG, 7));
    for tag in [0, 1, 3, 4, 5, 34, 255] {
        let name = format!("tag {tag} for a gate, and no value");
        edges.behind(head, &name, &[tag, 0, 10], refused(TAG, 7));
    }
    let gate = gate_field(&[0], 1);
    for length in 3..gate.len() {
        let name = format!("{length} bytes of a gate of 13");
        edges.behind(head, &name, &gate[..length], refused(TORN, 7));
    }
    edges.behind(head, "a gate and no output", &gate, refused(OUTPUTS, 20));
}

/// Gates of K 6, so that no m of a right length is above K.
fn gate_lengths(edges: &mut Edges) {
    let head = [6, 1, 1];
    let mut length = |name: &str, value: &[u8], due: Read| {
        let bytes = [field(2, value), output_field(0)].concat();
        edges.behind(head, name, &bytes, due);
    };
    let good = whole(6, 1, 1, 1);
    length("gate of length 0", &[], refused(LENGTH, 7));
    length("gate of length 1", &[1], refused(LENGTH, 7));
    length("gate of length 8, m 0", &[0; 8], refused(LENGTH, 7));
    length("gate of length 9, m 0", &[0; 9], refused(LENGTH, 7));
    let m_of = |m: u8, size: usize| [vec![m], vec![0; size - 1]].concat();
    for m in 1..=6 {
        let size = 9 + usize::from(m);
        length("gate of length 9 + m", &m_of(m, size), good);
        length("gate of length 8 + m", &m_of(m, size - 1), refused(LENGTH, 7));
        length("gate of length 10 + m", &m_of(m, size + 1), refused(LENGTH, 7));
        let high = m_of(m, size + 256);
        length("gate of length 265 + m", &high, refused(LENGTH, 7));
    }
    length("gate of length 10, m 0", &m_of(0, 10), refused(LENGTH, 7));
    length("gate of length 15, m 255", &m_of(255, 15), refused(LENGTH, 7));
    length("gate of length 16, m 7", &m_of(7, 16), refused(LENGTH, 7));
    length("gate of length 264, m 255", &m_of(255, 264), refused(LENGTH, 7));
    length("gate of length 65,535", &m_of(6, 65_535), refused(LENGTH, 7));
    let longest = field(2, &m_of(6, 65_535));
    let torn = &longest[..65_537];
    edges.behind(head, "gate of length 65,535, torn", torn, refused(TORN, 7));
    let wrong_and_torn = &field(2, &m_of(1, 11))[..13];
    edges.behind(head, "gate of wrong length, torn", wrong_and_torn, refused(TORN, 7));
    let wrong_and_far = field(2, &[1, 255, 0, 0, 0, 0, 0, 0, 0, 0, 0]);
    edges.behind(head, "wrong length, id far off", &wrong_and_far, refused(LENGTH, 7));
    let no_fanin = field(2, &[0, 0, 0, 0, 0, 0, 0, 0, 2]);
    edges.behind(head, "length 9, m 0, a row set", &no_fanin, refused(LENGTH, 7));
}

fn gate_ranges(edges: &mut Edges) {
    let mut range = |k: u8, fanins: &[u8], rows: u64, due: Read| {
        let bytes = [gate_field(fanins, rows), output_field(0)].concat();
        let name = format!("gate of fanins {fanins:?}, rows {rows:#x}");
        edges.behind([k, 2, 1], &name, &bytes, due);
    };
    for k in 2..=5 {
        let most = [0, 1, 2, 0, 1, 2];
        let full = usize::from(k);
        range(k, &most[..full], 1, whole(full, 2, 1, 1));
        range(k, &most[..full + 1], 1, refused(RANGE, 7));
    }
    range(2, &zeros(6), 1, refused(RANGE, 7));
    range(2, &[2], 1, whole(2, 2, 1, 1));
    range(2, &[3], 1, refused(RANGE, 7));
    range(2, &[255], 1, refused(RANGE, 7));
    range(2, &[2, 2], 1, whole(2, 2, 1, 1));
    for position in 0..6 {
        let mut fanins = zeros(6);
        fanins[position] = 2;
        range(6, &fanins, u64::MAX, whole(6, 2, 1, 1));
        fanins[position] = 3;
        range(6, &fanins, u64::MAX, refused(RANGE, 7));
    }
    // Two faults in one field: the range goes before the rows.
    range(2, &[3], 4, refused(RANGE, 7));
    range(2, &[0, 1, 2], 256, refused(RANGE, 7));
    // A fault of the gate goes before those of the output behind it.
    let late = [gate_field(&[3], 1), field(9, &[])].concat();
    edges.behind([2, 2, 1], "a fanin of n, then a wrong tag", &late, refused(RANGE, 7));
}

fn zeros(count: usize) -> Vec<u8> {
    vec![0; count]
}

fn gate_rows(edges: &mut Edges) {
    let mut rows = |m: usize, rows: u64, due: Read| {
        let bytes = [gate_field(&zeros(m), rows), output_field(0)].concat();
        let name = format!("gate of {m} fanins, rows {rows:#x}");
        edges.behind([6, 1, 1], &name, &bytes, due);
    };
    let good = whole(6, 1, 1, 1);
    let bad = refused(ROWS, 7);
    let first_bad_rows: [(usize, u64); 5] =
        [(1, 0x4), (2, 0x10), (3, 0x100), (4, 0x1_0000), (5, 0x1_0000_0000)];
    for (m, first_bad) in first_bad_rows {
        rows(m, 0, good);
        rows(m, first_bad >> 1, good);
        rows(m, first_bad - 1, good);
        rows(m, first_bad, bad);
        rows(m, first_bad | 1, bad);
        rows(m, 1 << 63, bad);
        rows(m, u64::MAX, bad);
    }
    rows(6, 0, good);
    rows(6, 1 << 63, good);
    rows(6, u64::MAX, good);
}

/// The same faults in a second gate, whose start is at 20.
fn second_gates(edges: &mut Edges) {
    let mut second = |name: &str, bytes: &[u8], due: Read| {
        let bytes = [&gate_field(&[2], 1), bytes].concat();
        edges.behind([2, 1, 2], &format!("second gate: {name}"), &bytes, due);
    };
    let gate = gate_field(&[1, 2], 8);
    second("none", &[], refused(TORN, 20));
    second("two bytes", &gate[..2], refused(TORN, 20));
    second("torn", &gate[..13], refused(TORN, 20));
    second("an output in its place", &output_field(0), refused(TAG, 20));
    second("length 11, m 1", &field(2, &[1; 11]), refused(LENGTH, 20));
    second("fanin 3", &gate_field(&[0, 3], 8), refused(RANGE, 20));
    second("three fanins", &gate_field(&[0, 0, 0], 8), refused(RANGE, 20));
    second("row 4", &gate_field(&[0, 0], 16), refused(ROWS, 20));
    second("no output behind", &gate, refused(OUTPUTS, 34));
    let third = [gate.clone(), gate.clone()].concat();
    second("a third gate behind", &third, refused(TAG, 34));
    let bad_output = [gate.clone(), output_field(3)].concat();
    second("output 3 behind", &bad_output, refused(RANGE, 34));
    let good = [gate, output_field(2)].concat();
    second("output 2 behind", &good, whole(2, 1, 2, 1));
}

/// What may stand where the first output is looked for.
fn begun_outputs(edges: &mut Edges) {
    let head = [2, 1, 0];
    edges.behind(head, "no output", &[], refused(OUTPUTS, 7));
    edges.behind(head, "one byte of an output", &[3], refused(TORN, 7));
    edges.behind(head, "two bytes of an output", &[3, 0], refused(TORN, 7));
    edges.behind(head, "one byte, a wrong tag", &[9], refused(TORN, 7));
    edges.behind(head, "two bytes, a wrong tag", &[9, 9], refused(TORN, 7));
    edges.behind(head, "an output without its id", &[3, 0, 1], refused(TORN, 7));
    edges.behind(head, "a gate too many", &gate_field(&[0], 1), refused(TAG, 7));
    edges.behind(head, "a second head", &head_field(2, 1, 0), refused(TAG, 7));
    edges.behind(head, "a wrong tag and no value", &[0, 0, 1], refused(TAG, 7));
}

fn outputs(edges: &mut Edges) {
    let head = [2, 2, 0];
    let good = whole(2, 2, 0, 1);
    edges.behind(head, "output 0", &output_field(0), good);
    edges.behind(head, "output 1", &output_field(1), good);
    edges.behind(head, "output 2", &output_field(2), refused(RANGE, 7));
    edges.behind(head, "output 255", &output_field(255), refused(RANGE, 7));
    edges.behind(head, "output of length 0", &[3, 0, 0], refused(LENGTH, 7));
    edges.behind(head, "output of length 2", &field(3, &[0, 0]), refused(LENGTH, 7));
    edges.behind(head, "output of length 2, torn", &[3, 0, 2, 0], refused(TORN, 7));
    edges.behind(head, "output of length 257", &field(3, &[0; 257]), refused(LENGTH, 7));
    edges.behind(head, "output of length 257, torn", &[3, 1, 1, 0], refused(TORN, 7));
    edges.behind(head, "length 2, out of range", &field(3, &[9, 9]), refused(LENGTH, 7));
    let mut after_one = |name: &str, bytes: &[u8], due: Read| {
        edges.behind(head, name, &[&output_field(1), bytes].concat(), due);
    };
    after_one("an output again", &output_field(1), whole(2, 2, 0, 2));
    after_one("one byte left", &[0], refused(TORN, 11));
    after_one("one byte left, tag 3", &[3], refused(TORN, 11));
    after_one("two bytes left", &[0, 0], refused(TORN, 11));
    after_one("two bytes left, tag 3", &[3, 0], refused(TORN, 11));
    after_one("three bytes left", &[0, 0, 0], refused(TAG, 11));
    after_one("three bytes left, tag 3", &[3, 0, 0], refused(LENGTH, 11));
    after_one("a gate left", &gate_field(&[0], 1), refused(TAG, 11));
    after_one("output 2", &output_field(2), refused(RANGE, 11));
}

/// What may stand behind 64 outputs, at 7 + 64 · 4 = 263.
fn output_65(edges: &mut Edges) {
    let mut behind_64 = |name: &str, bytes: &[u8], due: Read| {
        let bytes = [&output_field(0).repeat(64), bytes].concat();
        edges.behind([2, 1, 0], &format!("64 outputs, then {name}"), &bytes, due);
    };
    behind_64("nothing", &[], whole(2, 1, 0, 64));
    behind_64("an output", &output_field(0), refused(OUTPUTS, 263));
    behind_64("two outputs", &output_field(0).repeat(2), refused(OUTPUTS, 263));
    behind_64("one byte", &[3], refused(TORN, 263));
    behind_64("two bytes", &[3, 0], refused(TORN, 263));
    behind_64("an output without its id", &[3, 0, 1], refused(OUTPUTS, 263));
    behind_64("an output of length 0", &[3, 0, 0], refused(OUTPUTS, 263));
    behind_64("an output far past the end", &[3, 255, 255], refused(OUTPUTS, 263));
    behind_64("an output out of range", &output_field(1), refused(OUTPUTS, 263));
    behind_64("a wrong tag", &[2, 0, 1, 0], refused(TAG, 263));
    behind_64("a wrong tag and no value", &[4, 0, 1], refused(TAG, 263));
    let outputs_63 = output_field(0).repeat(63);
    edges.behind([2, 1, 0], "63 outputs", &outputs_63, whole(2, 1, 0, 63));
    let bad_64th = [outputs_63, output_field(1)].concat();
    edges.behind([2, 1, 0], "64th output is 1", &bad_64th, refused(RANGE, 259));
}

/// The largest table: 7 + 191 · 18 + 64 · 4 = 3,701 bytes.
fn largest(edges: &mut Edges) {
    let head = [6, 1, 191];
    let mut gates = Vec::new();
    for node in 1..=191u8 {
        let fanins = [0, 191, node, node - 1, 192 - node, 1];
        gates.extend(gate_field(&fanins, u64::MAX - u64::from(node)));
    }
    let outputs: Vec<u8> = (128..192u8).flat_map(output_field).collect();
    let bytes = [gates.clone(), outputs].concat();
    assert_eq!(bytes.len(), 3_701 - 7);
    edges.behind(head, "largest table", &bytes, whole(6, 1, 191, 64));
    edges.behind(head, "largest, no output", &gates, refused(OUTPUTS, 3_445));
    let more = [bytes.clone(), vec![0; 70_000]].concat();
    edges.behind(head, "largest, 70,000 zeros", &more, refused(TAG, 3_701));
    let more = [bytes, vec![3; 70_000]].concat();
    edges.behind(head, "largest, 70,000 threes", &more, refused(OUTPUTS, 3_701));
    let without_last = &gates[..gates.len() - 18];
    edges.behind(head, "190 gates of 191", without_last, refused(TORN, 3_427));
}

/// P1 to P9. Loops are no matter of reading, so P8 and P9 are whole.
fn paper(edges: &mut Edges) {
    let replies = [
        ("P1", whole(3, 4, 3, 1)),
        ("P2", whole(4, 4, 3, 1)),
        ("P3", whole(2, 2, 2, 1)),
        ("P4", whole(2, 4, 6, 1)),
        ("P5 at K 2", whole(2, 3, 2, 1)),
        ("P5 at K 3", whole(3, 3, 2, 1)),
        ("P6", whole(2, 1, 1, 1)),
        ("P7", whole(2, 1, 0, 1)),
        ("P8", whole(2, 1, 1, 1)),
        ("P9", whole(2, 1, 3, 1)),
    ];
    for (drawing, (name, due)) in drawings::paper().iter().zip(replies) {
        assert_eq!(drawing.name, name);
        edges.add(name, &drawing.table.bytes(), due);
    }
}
