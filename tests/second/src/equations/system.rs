//! Statements: the inputs, the equations and the outputs of a text in the grammar.

use super::tokens::{tokens, Token};
use super::yard::{steps, Step};
use super::Rules;

/// A name, and what it is: the tokens behind the `=`, and their steps in the order of gates.
#[derive(Clone, Debug)]
pub struct Equation<'a> {
    pub name: Token<'a>,
    pub side: Vec<Token<'a>>,
    pub steps: Vec<Step<'a>>,
}

impl<'a> Equation<'a> {
    fn read(rules: Rules, statement: &[Token<'a>]) -> Option<Equation<'a>> {
        match statement {
            [name, equals, side @ ..] if name.is_name(rules) && equals.is("=") => {
                let steps = steps(rules, side)?;
                Some(Equation { name: *name, side: side.to_vec(), steps })
            }
            _ => None,
        }
    }

    pub fn operators(&self) -> usize {
        self.steps.iter().filter(|step| matches!(step, Step::Sign(_))).count()
    }
}

/// A text in the grammar, all in the order of the text.
#[derive(Clone, Debug)]
pub struct System<'a> {
    pub inputs: Vec<Token<'a>>,
    pub equations: Vec<Equation<'a>>,
    pub outputs: Vec<Token<'a>>,
}

impl<'a> System<'a> {
    /// Nothing if the text is not in the grammar.
    pub fn read(rules: Rules, text: &'a [u8]) -> Option<System<'a>> {
        let tokens = tokens(rules, text);
        let mut statements: Vec<&[Token]> = tokens.split(|token| token.is(";")).collect();
        // Behind the last `;` stands nothing.
        let is_ended = statements.pop().map_or(false, <[Token]>::is_empty);
        match statements[..] {
            [first, ref between @ .., last] if is_ended => {
                let equations = between.iter().map(|statement| Equation::read(rules, statement));
                Some(System {
                    inputs: names(rules, "in", first)?,
                    outputs: names(rules, "out", last)?,
                    equations: equations.collect::<Option<_>>()?,
                })
            }
            _ => None,
        }
    }

    /// The names that are defined.
    pub fn definitions(&self) -> Vec<Token<'a>> {
        let equations = self.equations.iter().map(|equation| equation.name);
        self.inputs.iter().copied().chain(equations).collect()
    }

    /// The names that are used, in expressions and as outputs.
    pub fn uses(&self) -> Vec<Token<'a>> {
        let in_expressions = self.equations.iter().flat_map(|equation| &equation.steps);
        let in_expressions = in_expressions.filter_map(|step| match step {
            Step::Name(name) => Some(*name),
            Step::Sign(_) => None,
        });
        in_expressions.chain(self.outputs.iter().copied()).collect()
    }
}

/// The names behind this word: "both name at least one".
fn names<'a>(rules: Rules, word: &str, statement: &[Token<'a>]) -> Option<Vec<Token<'a>>> {
    match statement {
        [first, names @ ..] if first.is(word) && !names.is_empty() => {
            names.iter().all(|name| name.is_name(rules)).then_some(names.to_vec())
        }
        _ => None,
    }
}

#[cfg(test)]
mod tests {
    use super::super::REQUEST;
    use super::*;

    #[test]
    fn the_parts_of_a_text() {
        let text = b"in a b;f = a*(g);\n g=!b;out g f;";
        let system = System::read(REQUEST, text).unwrap();
        let places = |names: Vec<Token>| names.iter().map(|name| name.place).collect::<Vec<_>>();
        assert_eq!(places(system.definitions()), [3, 5, 7, 19]);
        assert_eq!(places(system.uses()), [11, 14, 22, 28, 30]);
        let operators: Vec<usize> = system.equations.iter().map(Equation::operators).collect();
        assert_eq!(operators, [1, 1]);
    }

    #[test]
    fn texts_that_are_none() {
        let is_text = |text: &&str| System::read(REQUEST, text.as_bytes()).is_some();
        let without_ends =
            ["", ";", "in a;", "out a;", "in a;out a", "in a;out a;;", "out a;in a;"];
        assert!(!without_ends.iter().any(is_text));
        let statements = ["", "a", "=a", "a=", "in=a", "a=out", "a==a", "a=a=a", "in a", "out a"];
        for statement in statements {
            assert!(!is_text(&&*format!("in a;{statement};out a;")), "{statement}");
        }
        assert!(!is_text(&"in;out a;") && !is_text(&"in a;out;") && is_text(&"in a;out a;"));
    }
}
