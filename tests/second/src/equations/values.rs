//! What equations mean, without gates: the value of every name for 64 settings of the inputs at
//! once. Bit s of a word is the value in setting s.

use super::system::{Equation, System};
use super::tokens::Token;
use std::collections::HashMap;

/// The words of the outputs, for these words of the inputs. Equations are worked out as soon as all
/// their names have words, in sweeps until one finds nothing new; nothing if an output is left.
pub fn outputs(system: &System, input_words: &[u64]) -> Option<Vec<u64>> {
    let inputs = system.inputs.iter().map(|name| name.text);
    let mut words: HashMap<&[u8], u64> = inputs.zip(input_words.iter().copied()).collect();
    let mut left: Vec<&Equation> = system.equations.iter().collect();
    loop {
        let count = left.len();
        left.retain(|equation| match word(&equation.side, &words) {
            Some(word) => {
                words.insert(equation.name.text, word);
                false
            }
            None => true,
        });
        if left.len() == count {
            return system.outputs.iter().map(|name| words.get(name.text).copied()).collect();
        }
    }
}

/// The word of an expression: cut at every `+` that stands in no bracket, else at every `*`, else
/// its signs `!` taken off, else its brackets.
fn word(side: &[Token], words: &HashMap<&[u8], u64>) -> Option<u64> {
    let parts = |sign: &str| -> Option<Vec<u64>> {
        cut(side, sign).into_iter().map(|part| word(part, words)).collect()
    };
    if cut(side, "+").len() > 1 {
        return Some(parts("+")?.into_iter().fold(0, |result, part| result | part));
    }
    if cut(side, "*").len() > 1 {
        return Some(parts("*")?.into_iter().fold(u64::MAX, |result, part| result & part));
    }
    let signs = side.iter().take_while(|token| token.is("!")).count();
    let bare = match &side[signs..] {
        [name] => words.get(name.text).copied()?,
        [_, inner @ .., _] => word(inner, words)?,
        [] => unreachable!("a sign has its operand"),
    };
    Some(if signs % 2 == 0 { bare } else { !bare })
}

/// The parts of an expression between these signs, as far as they stand in no bracket.
fn cut<'a, 'b>(side: &'b [Token<'a>], sign: &str) -> Vec<&'b [Token<'a>]> {
    let mut open = 0;
    let is_cut = |token: &Token| {
        open += i32::from(token.is("(")) - i32::from(token.is(")"));
        open == 0 && token.is(sign)
    };
    side.split(is_cut).collect()
}

#[cfg(test)]
mod tests {
    use super::super::{compile, REQUEST, TABLE_ROOM};
    use super::*;
    use crate::graph::Graph;
    use crate::mapping::gate_words;
    use crate::random::texts::{text, Names};
    use crate::random::Random;

    const A: u64 = 0b1010;
    const B: u64 = 0b1100;

    fn value(text: &str) -> Option<Vec<u64>> {
        outputs(&System::read(REQUEST, text.as_bytes()).unwrap(), &[A, B])
    }

    #[test]
    fn values_by_hand() {
        let of = |expression: &str| value(&format!("in a b;f={expression};out f;")).unwrap()[0];
        assert_eq!(of("a*b"), 0b1000);
        assert_eq!(of("a+b"), 0b1110);
        assert_eq!(of("!a"), !A);
        assert_eq!(of("!!!a"), !A);
        assert_eq!(of("!a*b"), 0b0100);
        assert_eq!(of("!(a*b)"), !0b1000);
        assert_eq!(of("a+b*!a"), 0b1110);
        assert_eq!(of("(a+b)*!a"), 0b0100);
        assert_eq!(of("(a)*(b)"), 0b1000);
        assert_eq!(of("!(a)+(b)"), !A | B);
    }

    #[test]
    fn names_in_any_order_and_loops() {
        assert_eq!(value("in a b;f=g*h;g=!h;h=b;out h g f a;"), Some(vec![B, !B, 0, A]));
        assert_eq!(value("in a b;f=f;g=a;out g;"), Some(vec![A]));
        assert_eq!(value("in a b;f=g;g=a*f;out a g;"), None);
    }

    /// Gates and equations give the outputs the same values.
    #[test]
    fn gates_have_the_values_of_equations() {
        let mut random = Random::seeded(34);
        let mut taken = 0;
        for _ in 0..2_000 {
            let text = text(&mut random, Names::Right);
            if let Ok(bytes) = compile(&text, 2, TABLE_ROOM) {
                let graph = Graph::read(&bytes).unwrap();
                let system = System::read(REQUEST, &text).unwrap();
                let inputs: Vec<u64> = system.inputs.iter().map(|_| random.word()).collect();
                let by_gates = gate_words(&graph, &inputs);
                let by_gates = graph.table.outputs.iter().map(|&node| by_gates[node]);
                assert_eq!(outputs(&system, &inputs), Some(by_gates.collect()));
                taken += 1;
            }
        }
        assert!(taken > 1_500, "{taken}");
    }
}
