//! P1 to P9 and the limits, in every number of document 01.

use plain::mapping::SHEET_ROOM;
use plain::{inspect, map, table, Drawing, Refusal};
use second::sheet::{read, Sheet};

const AND: u64 = 0x8;
const OR: u64 = 0xE;
const NOT: u64 = 0x1;

/// A drawing whose one output is its last node.
fn drawing(k: usize, inputs: usize, gates: &[(&[u16], u64)]) -> Drawing {
    let mut drawing = Drawing::new(k, inputs);
    for (fanins, rows) in gates {
        drawing.push_gate(fanins, *rows);
    }
    drawing.outputs.push(drawing.nodes() as u16 - 1);
    drawing
}

fn two_ands(k: usize) -> Drawing {
    drawing(k, 4, &[(&[0, 1], AND), (&[2, 3], AND), (&[4, 5], OR)])
}

fn sheet_bytes(drawing: &Drawing) -> Vec<u8> {
    let mut buffer = vec![0xA5; SHEET_ROOM];
    let length = map(&table::write(drawing), &mut buffer).expect("it is a drawing");
    assert!(buffer[length..].iter().all(|&byte| byte == 0xA5));
    buffer.truncate(length);
    buffer
}

/// The mapper's sheet, which the inspector accepts.
fn sheet(drawing: &Drawing) -> Sheet {
    let bytes = sheet_bytes(drawing);
    let table = second::table::read(&table::write(drawing)).table().unwrap();
    let sheet = read(&table, &bytes).expect("its shape is good");
    assert_eq!(inspect(&table::write(drawing), &bytes), Ok(sheet.depth));
    sheet
}

fn labels(sheet: &Sheet) -> Vec<usize> {
    sheet.lines.iter().map(|line| line.label).collect()
}

/// Root, leaves and table of each LUT.
fn luts(sheet: &Sheet) -> Vec<(usize, &[usize], u64)> {
    sheet.luts.iter().map(|lut| (lut.root, &lut.leaves[..], lut.rows)).collect()
}

fn refused(drawing: &Drawing) -> Refusal {
    let mut buffer = vec![0xA5; SHEET_ROOM];
    let bytes = table::write(drawing);
    let refusal = map(&bytes, &mut buffer).unwrap_err();
    assert!(buffer.iter().all(|&byte| byte == 0xA5));
    assert_eq!(inspect(&bytes, &[]), Err(refusal));
    refusal
}

fn refusal(number: u8, place: usize) -> Refusal {
    Refusal { number, place }
}

#[test]
fn p1() {
    let p1 = two_ands(3);
    assert_eq!(table::write(&p1).len(), 53);
    assert_eq!(table::read(&table::write(&p1)).as_ref(), Ok(&p1));
    assert_eq!(sheet_bytes(&p1).len(), 83);
    let sheet = sheet(&p1);
    assert_eq!(sheet.depth, 2);
    assert_eq!(labels(&sheet), [1, 1, 2]);
    assert_eq!(luts(&sheet), [(4, &[0, 1][..], 8), (5, &[2, 3], 8), (6, &[4, 5], 0xE)]);
    assert_eq!(sheet.lines[2].paths, [[0], [1], [2], [3]]);
    assert!(sheet.lines[..2].iter().all(|line| line.paths.is_empty()));
}

#[test]
fn p2() {
    let sheet = sheet(&two_ands(4));
    assert_eq!(sheet.depth, 1);
    assert_eq!(luts(&sheet), [(6, &[0, 1, 2, 3][..], 0xF888)]);
}

#[test]
fn p3() {
    let sheet = sheet(&drawing(2, 2, &[(&[0, 1], AND), (&[0, 2], OR)]));
    assert_eq!(labels(&sheet), [1, 1]);
    assert_eq!(luts(&sheet), [(3, &[0, 1][..], 0xA)]);
}

#[test]
fn p4() {
    let gates: [(&[u16], u64); 6] =
        [(&[0, 1], AND), (&[2, 3], AND), (&[4], NOT), (&[5], NOT), (&[6, 7], AND), (&[8], NOT)];
    let sheet = sheet(&drawing(2, 4, &gates));
    assert_eq!(labels(&sheet), [1, 1, 1, 1, 2, 2]);
    assert_eq!(sheet.lines[5].leaves, [4, 5]);
    assert_eq!(luts(&sheet), [(4, &[0, 1][..], 8), (5, &[2, 3], 8), (9, &[4, 5], 0xE)]);
}

#[test]
fn p5() {
    let chain = |k: usize| drawing(k, 3, &[(&[0, 1], AND), (&[3, 2], AND)]);
    assert_eq!(labels(&sheet(&chain(2))), [1, 2]);
    assert_eq!(labels(&sheet(&chain(3))), [1, 1]);
}

#[test]
fn p6() {
    assert_eq!(luts(&sheet(&drawing(2, 1, &[(&[0, 0], AND)]))), [(1, &[0][..], 0x2)]);
}

#[test]
fn p7() {
    let p7 = drawing(2, 1, &[]);
    assert_eq!(sheet(&p7), Sheet { depth: 0, lines: vec![], luts: vec![] });
}

#[test]
fn p8_and_p9() {
    assert_eq!(refused(&drawing(2, 1, &[(&[0, 1], AND)])), refusal(7, 1));
    assert_eq!(refused(&drawing(2, 1, &[(&[3], NOT), (&[3], NOT), (&[2], NOT)])), refusal(7, 2));
}

#[test]
fn limits() {
    let chain = |gates: u16| {
        let mut chain = Drawing::new(6, 1);
        for node in 0..gates {
            chain.push_gate(&[node], NOT);
        }
        chain.outputs.push(gates);
        chain
    };
    assert_eq!(sheet(&chain(191)).depth, 1);
    assert_eq!(refused(&chain(192)), refusal(4, 0));
    let with_k = |k: usize| Drawing { k, ..chain(1) };
    assert_eq!(sheet(&with_k(6)).depth, 1);
    assert_eq!([1, 7].map(|k| refused(&with_k(k))), [refusal(4, 0); 2]);
    let with_outputs = |count: usize| Drawing { outputs: vec![1; count], ..chain(1) };
    assert_eq!(sheet(&with_outputs(64)).depth, 1);
    assert_eq!(refused(&with_outputs(65)), refusal(6, 7 + 13 + 64 * 4));
    assert_eq!(refused(&with_outputs(0)), refusal(6, 7 + 13));
    assert_eq!(map(&[], &mut []), Err(refusal(1, 0)));
}

#[test]
fn room_comes_last() {
    let p1 = table::write(&two_ands(3));
    let mut buffer = vec![0xA5; SHEET_ROOM];
    assert_eq!(map(&p1, &mut buffer[..SHEET_ROOM - 1]), Err(refusal(8, SHEET_ROOM)));
    assert!(buffer.iter().all(|&byte| byte == 0xA5));
    assert_eq!(map(&p1, &mut buffer), Ok(83));
    let p8 = table::write(&drawing(2, 1, &[(&[0, 1], AND)]));
    assert_eq!(map(&p8, &mut []), Err(refusal(7, 1)));
}
