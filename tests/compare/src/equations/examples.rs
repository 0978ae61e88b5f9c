//! The texts in the folder `examples`, each with what it is there for.

use super::comparison::Outcome;
use second::drawings::named;
use second::table::{Gate, Table};
use std::fs;
use std::path::Path;

const FOLDER: &str = concat!(env!("CARGO_MANIFEST_DIR"), "/../../examples");

pub struct Example {
    pub file: &'static str,
    pub text: Vec<u8>,
    pub k: u64,
    pub due: Outcome,
}

/// All that are there, and no other.
pub fn all() -> Result<Vec<Example>, String> {
    let due = due();
    let mut files: Vec<&str> = due.iter().map(|&(file, _, _)| file).collect();
    files.dedup();
    if files.len() != count()? {
        return Err(format!("examples: other texts than {files:?}"));
    }
    let example = |(file, k, due)| {
        let text = read(&format!("{file}.eq"))?;
        Ok(Example { file, text, k, due })
    };
    due.into_iter().map(example).collect()
}

fn read(file: &str) -> Result<Vec<u8>, String> {
    fs::read(Path::new(FOLDER).join(file)).map_err(|error| format!("{file}: {error}"))
}

/// How many texts there are.
fn count() -> Result<usize, String> {
    let files = fs::read_dir(FOLDER).map_err(|error| format!("{FOLDER}: {error}"))?;
    let names = files.filter_map(|file| file.ok()?.file_name().into_string().ok());
    Ok(names.filter(|name| name.ends_with(".eq")).count())
}

type Due = (&'static str, u64, Outcome);

fn due() -> Vec<Due> {
    let paper = |file, name: &str| {
        let table = named(name);
        (file, table.k as u64, Ok(table.bytes()))
    };
    let mut due = vec![
        paper("p1", "P1"),
        paper("p2", "P2"),
        paper("p3", "P3"),
        paper("p4", "P4"),
        paper("p5", "P5 at K 2"),
        paper("p5", "P5 at K 3"),
        paper("p6", "P6"),
        paper("p7", "P7"),
        ("p8", 2, Err((7, 1))),
        ("p9", 2, Err((7, 2))),
        ("mux", 3, Ok(mux().bytes())),
        ("adder", 4, Ok(adder().bytes())),
    ];
    for k in 0..=9 {
        due.push(("refused-41", k, Err((41, 16))));
    }
    for k in 0..=9 {
        due.push(("refused-42", k, Err((42, 14))));
    }
    for k in 0..=9 {
        due.push(("refused-43", k, Err((43, 0))));
    }
    for k in 2..=6 {
        due.push(("refused-7", k, Err((7, 2))));
    }
    due
}

fn not(only: usize) -> Gate {
    Gate { fanins: vec![only], rows: 0x1 }
}

fn and(first: usize, second: usize) -> Gate {
    Gate { fanins: vec![first, second], rows: 0x8 }
}

fn or(first: usize, second: usize) -> Gate {
    Gate { fanins: vec![first, second], rows: 0xE }
}

fn mux() -> Table {
    let gates = vec![not(2), and(0, 3), and(1, 2), or(4, 5)];
    Table { k: 3, inputs: 3, gates, outputs: vec![6] }
}

/// Inputs a1, a0, b1, b0; s0 is 8, s1 is 13, over is 16, half is 21, carry is 22.
fn adder() -> Table {
    let gates = vec![
        not(3),
        and(1, 4),
        not(1),
        and(6, 3),
        or(5, 7),
        not(22),
        and(21, 9),
        not(21),
        and(11, 22),
        or(10, 12),
        and(0, 2),
        and(21, 22),
        or(14, 15),
        not(2),
        and(0, 17),
        not(0),
        and(19, 2),
        or(18, 20),
        and(1, 3),
    ];
    Table { k: 4, inputs: 4, gates, outputs: vec![16, 13, 8] }
}

#[cfg(test)]
mod tests {
    use super::*;
    use second::mapping::gate_words;
    use second::{graph::Graph, table};

    /// The adder adds: of 64 settings, which are all of four inputs, each has the right sum.
    #[test]
    fn the_adder_adds() {
        let graph = Graph::new(adder()).unwrap();
        let bit = |setting: usize, at: usize| setting >> at & 1;
        let word = |at: usize| (0..64).fold(0, |word, s| word | (bit(s, at) as u64) << s);
        let words = gate_words(&graph, &[0, 1, 2, 3].map(word));
        for setting in 0..16 {
            let [a1, a0, b1, b0] = [0, 1, 2, 3].map(|at| bit(setting, at));
            let sum = 2 * a1 + a0 + 2 * b1 + b0;
            let found = adder()
                .outputs
                .iter()
                .fold(0, |sum, &node| 2 * sum + (words[node] >> setting & 1) as usize);
            assert_eq!(found, sum);
        }
    }

    /// The gate tables of the folder are those of the texts of the same names.
    #[test]
    fn tables_of_the_same_name() {
        for file in ["p1", "p2", "p3", "p4"] {
            let example = all().unwrap().into_iter().find(|example| example.file == file).unwrap();
            assert_eq!(example.due, Ok(read(&format!("{file}.net")).unwrap()), "{file}");
        }
        let looped = table::read(&read("p9.net").unwrap()).table().unwrap();
        assert_eq!(looped, named("P9"));
    }
}
