//! Equations as text, the first of the change requests: what gate table a text stands for, or what
//! it is refused for. Written from the request and the points that were settled about it.
//!
//! A text is cut into words and signs (`tokens`), these at each `;` into statements (`system`), and
//! an operator stack puts expressions into the order of gates (`yard`). None of them looks for the
//! place of a fault: `beginnings` finds it by trying what completes a beginning. `values` says what
//! the equations mean, without gates.

pub mod beginnings;
pub mod system;
pub mod tokens;
pub mod values;
pub mod yard;

use crate::graph::lowest_loop;
use crate::table::{Gate, Table, FANIN_LIMIT, INPUT_LIMIT, NODE_LIMIT, OUTPUT_LIMIT};
use crate::{Refused, LOOP, ROOM};
use std::collections::{HashMap, HashSet};
use system::System;
use tokens::Token;
use yard::Step;

/// The number of the refusal of a text that is too long or not in the grammar.
pub const TEXT: u32 = 41;
/// The number of the refusal of a name that is nowhere defined, or defined again.
pub const NAME: u32 = 42;
/// The number of the refusal of K, inputs, nodes or outputs.
pub const NUMBERS: u32 = 43;

/// The most bytes of a text.
pub const TEXT_LIMIT: usize = 8_192;
/// The least length of a table buffer.
pub const TABLE_ROOM: usize = 4_096;

/// What the request fixes of words and expressions. Only wrong readers have others.
#[derive(Clone, Copy, Debug)]
pub struct Rules {
    /// "Spaces and line ends."
    pub blanks: &'static [u8],
    /// The words that are no names.
    pub reserved: &'static [&'static [u8]],
    /// The most letters and digits of a name.
    pub name_limit: usize,
    /// The most brackets that are open at once.
    pub nesting_limit: usize,
    /// Whether `a+b+c` is `(a+b)+c`.
    pub is_left_first: bool,
}

pub const REQUEST: Rules = Rules {
    blanks: b" \n\r",
    reserved: &[b"in", b"out"],
    name_limit: 16,
    nesting_limit: 32,
    is_left_first: true,
};

/// The bytes of a text's gate table, given so much room for them; or the first of its refusals.
pub fn compile(text: &[u8], k: u64, room: usize) -> Result<Vec<u8>, Refused> {
    compile_by(REQUEST, text, k, room)
}

/// The same by other rules.
pub fn compile_by(rules: Rules, text: &[u8], k: u64, room: usize) -> Result<Vec<u8>, Refused> {
    let system = read(rules, text)?;
    if let Some(place) = misnamed(&system) {
        return Err((NAME, place));
    }
    if !is_in_numbers(&system, k) {
        return Err((NUMBERS, 0));
    }
    let table = table(&system, k);
    if let Some(gate) = lowest_loop(&table) {
        return Err((LOOP, gate));
    }
    match room < TABLE_ROOM {
        true => Err((ROOM, TABLE_ROOM)),
        false => Ok(table.bytes()),
    }
}

/// The statements of a text, or the first refusal.
pub fn read(rules: Rules, text: &[u8]) -> Result<System<'_>, Refused> {
    if text.len() > TEXT_LIMIT {
        return Err((TEXT, TEXT_LIMIT));
    }
    let system = System::read(rules, text);
    system.ok_or_else(|| (TEXT, beginnings::longest(rules, text)))
}

/// The earliest place of a name that is used but nowhere defined, or defined again.
pub fn misnamed(system: &System) -> Option<usize> {
    undefined(system).into_iter().chain(again(system)).min()
}

/// The places of names that are used but nowhere defined.
pub fn undefined(system: &System) -> Vec<usize> {
    let defined: HashSet<&[u8]> = system.definitions().iter().map(|name| name.text).collect();
    let uses = system.uses().into_iter();
    uses.filter(|name| !defined.contains(name.text)).map(|name| name.place).collect()
}

/// The places of definitions of names that are defined before.
pub fn again(system: &System) -> Vec<usize> {
    let mut defined = HashSet::new();
    let definitions = system.definitions().into_iter();
    definitions.filter(|name| !defined.insert(name.text)).map(|name| name.place).collect()
}

/// Whether K, inputs, nodes and outputs are within the numbers of document 01.
pub fn is_in_numbers(system: &System, k: u64) -> bool {
    // An equation with no operator has one gate, as if it had one.
    let gates: usize = system.equations.iter().map(|equation| equation.operators().max(1)).sum();
    (2..=FANIN_LIMIT as u64).contains(&k)
        && system.inputs.len() <= INPUT_LIMIT
        && system.inputs.len() + gates <= NODE_LIMIT
        && system.outputs.len() <= OUTPUT_LIMIT
}

/// What a gate reads: a name, whose node may not be known yet, or a gate before it.
enum Fanin<'a> {
    Named(Token<'a>),
    Node(usize),
}

/// The gate table of a system whose names are right and whose numbers are small enough.
pub fn table(system: &System, k: u64) -> Table {
    let inputs = system.inputs.len();
    let mut gates: Vec<(Vec<Fanin>, u64)> = Vec::new();
    let mut nodes: HashMap<&[u8], usize> =
        system.inputs.iter().enumerate().map(|(input, name)| (name.text, input)).collect();
    for equation in &system.equations {
        let mut operands = Vec::new();
        for step in &equation.steps {
            match *step {
                Step::Name(name) => operands.push(Fanin::Named(name)),
                Step::Sign(sign) => {
                    let fanins = operands.split_off(operands.len() - sign.operands());
                    operands.push(Fanin::Node(inputs + gates.len()));
                    gates.push((fanins, sign.rows()));
                }
            }
        }
        // With no operator the name alone is left, for a gate that passes its value on.
        if equation.operators() == 0 {
            gates.push((operands, 0x2));
        }
        nodes.insert(equation.name.text, inputs + gates.len() - 1);
    }
    let node = |fanin: &Fanin| match fanin {
        Fanin::Named(name) => nodes[name.text],
        Fanin::Node(node) => *node,
    };
    let gate = |(fanins, rows): &(Vec<Fanin>, u64)| Gate {
        fanins: fanins.iter().map(node).collect(),
        rows: *rows,
    };
    Table {
        k: k as usize,
        inputs,
        gates: gates.iter().map(gate).collect(),
        outputs: system.outputs.iter().map(|name| nodes[name.text]).collect(),
    }
}

#[cfg(test)]
mod tests {
    use super::*;
    use crate::drawings::named;
    use crate::random::texts::{text, Names};
    use crate::random::Random;
    use crate::table;

    fn compiled(text: &str) -> Result<Vec<u8>, Refused> {
        compile(text.as_bytes(), 3, TABLE_ROOM)
    }

    /// Each gate's table and fanins, and the outputs.
    fn drawn(text: &str) -> (Vec<(u64, Vec<usize>)>, Vec<usize>) {
        let table = table::read(&compiled(text).unwrap()).table().unwrap();
        let gates = table.gates.into_iter().map(|gate| (gate.rows, gate.fanins));
        (gates.collect(), table.outputs)
    }

    fn gates(text: &str) -> Vec<(u64, Vec<usize>)> {
        drawn(text).0
    }

    /// The gates of one expression over the inputs a b c d.
    fn expression(text: &str) -> Vec<(u64, Vec<usize>)> {
        gates(&format!("in a b c d;f={text};out f;"))
    }

    #[test]
    fn the_papers_drawings() {
        let p1 = "in a b c d;\nf = a*b + c*d;\nout f;\n";
        assert_eq!(compile(p1.as_bytes(), 3, TABLE_ROOM), Ok(named("P1").bytes()));
        assert_eq!(compile(p1.as_bytes(), 4, TABLE_ROOM), Ok(named("P2").bytes()));
        let others = [
            ("P3", "in a b;f=a+a*b;out f;"),
            ("P4", "in a b c d; p = a*b; q = c*d; r = !p; s = !q; f = !(r*s); out f;"),
            ("P5 at K 2", "in a b c;f=a*b*c;out f;"),
            ("P6", "in a;f=a*a;out f;"),
            ("P7", "in a;out a;"),
        ];
        // P3's OR comes behind its AND, whose operand a stands on the left.
        for (name, text) in others {
            assert_eq!(compile(text.as_bytes(), 2, TABLE_ROOM), Ok(named(name).bytes()), "{name}");
        }
        assert_eq!(compiled("in a;f=a*f;out f;"), Err((7, 1)));
        assert_eq!(compiled("in a;f=!h;g=!h;h=!g;out h;"), Err((7, 2)));
    }

    #[test]
    fn gates_in_order() {
        assert_eq!(expression("a+b*c"), [(8, vec![1, 2]), (14, vec![0, 4])]);
        assert_eq!(expression("a*b+c"), [(8, vec![0, 1]), (14, vec![4, 2])]);
        assert_eq!(expression("a+b+c"), [(14, vec![0, 1]), (14, vec![4, 2])]);
        assert_eq!(expression("a+(b+c)"), [(14, vec![1, 2]), (14, vec![0, 4])]);
        assert_eq!(expression("!(a*b)+c"), [(8, vec![0, 1]), (1, vec![4]), (14, vec![5, 2])]);
        assert_eq!(expression("!!a"), [(1, vec![0]), (1, vec![4])]);
        assert_eq!(expression("!a*b"), [(1, vec![0]), (8, vec![4, 1])]);
        assert_eq!(expression("a*!b"), [(1, vec![1]), (8, vec![0, 4])]);
        assert_eq!(expression("b*a"), [(8, vec![1, 0])]);
        assert_eq!(expression("a*a"), [(8, vec![0, 0])]);
    }

    #[test]
    fn an_equation_with_no_operator_is_a_gate() {
        assert_eq!(expression("a"), [(2, vec![0])]);
        assert_eq!(expression("((d))"), [(2, vec![3])]);
        assert_eq!(
            drawn("in a;f=g;g=a;out g f g a;"),
            (vec![(2, vec![2]), (2, vec![0])], vec![2, 1, 2, 0])
        );
    }

    #[test]
    fn names_before_they_are_defined() {
        let text = "in a b;f=g+h;g=a*b;h=!a;out f;";
        assert_eq!(gates(text), [(14, vec![3, 4]), (8, vec![0, 1]), (1, vec![0])]);
    }

    #[test]
    fn refusals_of_the_grammar() {
        let cases = [
            ("", 0),
            ("#", 0),
            ("in", 2),
            ("inx a;", 2),
            ("in a;out a", 10),
            ("in a;out a;b", 11),
            ("in in;", 5),
            ("in inx;f=in;", 11),
            ("in a;in a;", 7),
            ("in a;out;", 8),
            ("in a;out out;", 12),
            ("in a;f=a b;", 9),
            ("in a;f=);", 7),
            ("in a;f=(a;", 9),
            ("in a;f=a);", 8),
            ("in a;\tout a;", 5),
            ("in a,b;", 4),
            ("in a;f=1;", 7),
        ];
        for (text, place) in cases {
            assert_eq!(compiled(text), Err((TEXT, place)), "{text}");
        }
    }

    #[test]
    fn limits_of_words_brackets_and_bytes() {
        let name = "abcdefghijklmno1";
        assert!(compiled(&format!("in {name};out {name};")).is_ok());
        assert_eq!(compiled(&format!("in {name}2;out {name}2;")), Err((TEXT, 3 + 16)));
        let nested = |count: usize| {
            let (open, close) = ("(".repeat(count), ")".repeat(count));
            compiled(&format!("in a;f={open}a{close};out f;"))
        };
        assert!(nested(32).is_ok());
        assert_eq!(nested(33), Err((TEXT, 7 + 32)));
        let long = |count: usize| format!("{}in a;out a;", " ".repeat(count - 11));
        assert!(compiled(&long(8_192)).is_ok());
        assert_eq!(compiled(&long(8_193)), Err((TEXT, 8_192)));
        assert_eq!(compiled(&"#".repeat(8_193)), Err((TEXT, 8_192)));
        assert_eq!(compiled(&"#".repeat(8_192)), Err((TEXT, 0)));
    }

    #[test]
    fn refusals_of_names() {
        let cases = [
            ("in a a;out b;", 5),
            ("in a;a=a;out a;", 5),
            ("in a;f=a;f=a;out f;", 9),
            ("in a;f=b;f=a;out f;", 7),
            ("in a;out a b a b;", 11),
            ("in a A;out b;", 11),
        ];
        for (text, place) in cases {
            assert_eq!(compiled(text), Err((NAME, place)), "{text}");
        }
    }

    #[test]
    fn refusals_of_numbers() {
        let listed = |count: usize| {
            let names: Vec<String> = (0..count).map(|name| format!("a{name}")).collect();
            names.join(" ")
        };
        let inputs = |count: usize| compiled(&format!("in {};out a0;", listed(count)));
        assert!(inputs(64).is_ok());
        assert_eq!(inputs(65), Err((NUMBERS, 0)));
        let outputs = |count: usize| compiled(&format!("in a;out{};", " a".repeat(count)));
        assert!(outputs(64).is_ok());
        assert_eq!(outputs(65), Err((NUMBERS, 0)));
        let gates = |count: usize| compiled(&format!("in a;f={}a;out f;", "!".repeat(count)));
        assert!(gates(191).is_ok());
        assert_eq!(gates(192), Err((NUMBERS, 0)));
        let k = |k: u64| compile(b"in a;out a;", k, TABLE_ROOM);
        assert!((2..=6).all(|small| k(small).is_ok()));
        for other in [0, 1, 7, 258, (1 << 32) + 2, u64::MAX] {
            assert_eq!(k(other), Err((NUMBERS, 0)));
        }
    }

    #[test]
    fn refusals_in_their_order() {
        let all = |text: &str, k: u64| compile(text.as_bytes(), k, 0);
        assert_eq!(all("in a;f=b", 9), Err((TEXT, 8)));
        assert_eq!(all("in a;f=b*f;out f;", 9), Err((NAME, 7)));
        assert_eq!(all("in a;f=a*f;out f;", 9), Err((NUMBERS, 0)));
        assert_eq!(all("in a;f=a*f;out a;", 3), Err((LOOP, 1)));
        assert_eq!(all("in a;f=a*a;out f;", 3), Err((ROOM, 4_096)));
        assert_eq!(compile(b"in a;out a;", 3, 4_095), Err((ROOM, 4_096)));
    }

    /// What is compiled is a table that a reading takes, gate by gate with an operator's fanins.
    #[test]
    fn tables_are_read_back() {
        let mut random = Random::seeded(31);
        let mut taken = 0;
        for _ in 0..2_000 {
            let text = text(&mut random, Names::Right);
            if let Ok(bytes) = compile(&text, 4, TABLE_ROOM) {
                let table = table::read(&bytes).table().unwrap();
                assert_eq!(table.bytes(), bytes);
                assert!(bytes.len() <= 7 + 14 * 191 + 4 * 64);
                taken += 1;
            }
        }
        assert!(taken > 1_500, "{taken}");
    }
}
