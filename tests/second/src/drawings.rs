//! The small drawings P1 to P9 of document 01.

use crate::table::{Gate, Table};

/// A drawing and the paper's name of it.
pub struct Drawing {
    pub name: &'static str,
    pub table: Table,
}

fn and(first: usize, second: usize) -> Gate {
    Gate { fanins: vec![first, second], rows: 0x8 }
}

fn or(first: usize, second: usize) -> Gate {
    Gate { fanins: vec![first, second], rows: 0xE }
}

fn not(only: usize) -> Gate {
    Gate { fanins: vec![only], rows: 0x1 }
}

/// A drawing whose one output is its last node, as all of the paper's are.
fn drawing(name: &'static str, k: usize, inputs: usize, gates: Vec<Gate>) -> Drawing {
    let last = inputs + gates.len() - 1;
    Drawing { name, table: Table { k, inputs, gates, outputs: vec![last] } }
}

/// The paper's drawings in its order. P5 stands at both of its K.
pub fn paper() -> Vec<Drawing> {
    let two_ands = || vec![and(0, 1), and(2, 3), or(4, 5)];
    let inverted = vec![and(0, 1), and(2, 3), not(4), not(5), and(6, 7), not(8)];
    let chain = || vec![and(0, 1), and(3, 2)];
    vec![
        drawing("P1", 3, 4, two_ands()),
        drawing("P2", 4, 4, two_ands()),
        drawing("P3", 2, 2, vec![and(0, 1), or(0, 2)]),
        drawing("P4", 2, 4, inverted),
        drawing("P5 at K 2", 2, 3, chain()),
        drawing("P5 at K 3", 3, 3, chain()),
        drawing("P6", 2, 1, vec![and(0, 0)]),
        drawing("P7", 2, 1, vec![]),
        drawing("P8", 2, 1, vec![and(0, 1)]),
        drawing("P9", 2, 1, vec![not(3), not(3), not(2)]),
    ]
}

/// The paper's drawing of a name.
pub fn named(name: &str) -> Table {
    let found = paper().into_iter().find(|drawing| drawing.name == name);
    found.expect("the paper has it").table
}

#[cfg(test)]
mod tests {
    use super::*;
    use crate::table::read;

    fn bytes_of(name: &str) -> Vec<u8> {
        named(name).bytes()
    }

    #[test]
    fn the_bytes_of_p1() {
        let by_hand = [
            1, 0, 4, 1, 3, 4, 3, //
            2, 0, 11, 2, 0, 1, 0, 0, 0, 0, 0, 0, 0, 8, //
            2, 0, 11, 2, 2, 3, 0, 0, 0, 0, 0, 0, 0, 8, //
            2, 0, 11, 2, 4, 5, 0, 0, 0, 0, 0, 0, 0, 14, //
            3, 0, 1, 6,
        ];
        assert_eq!(by_hand.len(), 53);
        assert_eq!(bytes_of("P1"), by_hand);
    }

    #[test]
    fn the_bytes_of_p7() {
        assert_eq!(bytes_of("P7"), [1, 0, 4, 1, 2, 1, 0, 3, 0, 1, 0]);
    }

    #[test]
    fn the_bytes_of_p9() {
        let by_hand = [
            1, 0, 4, 1, 2, 1, 3, //
            2, 0, 10, 1, 3, 0, 0, 0, 0, 0, 0, 0, 1, //
            2, 0, 10, 1, 3, 0, 0, 0, 0, 0, 0, 0, 1, //
            2, 0, 10, 1, 2, 0, 0, 0, 0, 0, 0, 0, 1, //
            3, 0, 1, 3,
        ];
        assert_eq!(bytes_of("P9"), by_hand);
    }

    #[test]
    fn every_drawing_is_read_back() {
        for drawing in paper() {
            let reading = read(&drawing.table.bytes());
            assert_eq!(reading.table(), Ok(drawing.table), "{}", drawing.name);
        }
    }
}
