//! Expressions by an operator stack: signs wait on it for their operands, until one that binds no
//! tighter, a bracket or the end takes them off.

use super::tokens::Token;
use super::Rules;

/// A sign, in the order of how tightly they bind.
#[derive(Clone, Copy, Debug, PartialEq, Eq, PartialOrd, Ord)]
pub enum Sign {
    Or,
    And,
    Not,
}

impl Sign {
    /// How many operands it has.
    pub fn operands(self) -> usize {
        match self {
            Sign::Not => 1,
            Sign::And | Sign::Or => 2,
        }
    }

    /// The function table of its gate.
    pub fn rows(self) -> u64 {
        match self {
            Sign::Not => 0x1,
            Sign::And => 0x8,
            Sign::Or => 0xE,
        }
    }
}

/// An operand, or a sign behind its operands.
#[derive(Clone, Copy, Debug, PartialEq, Eq)]
pub enum Step<'a> {
    Name(Token<'a>),
    Sign(Sign),
}

#[derive(Clone, Copy, PartialEq, Eq)]
enum Waiting {
    Bracket,
    Sign(Sign),
}

/// What was read so far of an expression.
struct Yard<'a> {
    steps: Vec<Step<'a>>,
    stack: Vec<Waiting>,
    wants_operand: bool,
}

impl<'a> Yard<'a> {
    fn open(&self) -> usize {
        self.stack.iter().filter(|&&waiting| waiting == Waiting::Bracket).count()
    }

    /// Takes signs off the stack, as long as they are such, down to the last bracket at most.
    fn take_off(&mut self, is_such: impl Fn(Sign) -> bool) {
        while let Some(&Waiting::Sign(sign)) = self.stack.last() {
            if !is_such(sign) {
                break;
            }
            self.stack.pop();
            self.steps.push(Step::Sign(sign));
        }
    }

    /// A sign between two operands.
    fn between(&mut self, rules: Rules, sign: Sign) {
        match rules.is_left_first {
            true => self.take_off(|before| before >= sign),
            false => self.take_off(|before| before > sign),
        }
        self.stack.push(Waiting::Sign(sign));
        self.wants_operand = true;
    }

    /// Whether the token may stand here.
    fn take(&mut self, rules: Rules, token: Token<'a>) -> bool {
        match (token.text, self.wants_operand) {
            (b"!", true) => self.stack.push(Waiting::Sign(Sign::Not)),
            (b"(", true) => {
                self.stack.push(Waiting::Bracket);
                return self.open() <= rules.nesting_limit;
            }
            (b"*", false) => self.between(rules, Sign::And),
            (b"+", false) => self.between(rules, Sign::Or),
            (b")", false) => {
                self.take_off(|_| true);
                return self.stack.pop().is_some();
            }
            (_, true) if token.is_name(rules) => {
                self.steps.push(Step::Name(token));
                self.wants_operand = false;
            }
            _ => return false,
        }
        true
    }
}

/// An expression with each sign behind its operands, which is the order of gates. Nothing if the
/// tokens are no expression.
pub fn steps<'a>(rules: Rules, side: &[Token<'a>]) -> Option<Vec<Step<'a>>> {
    let mut yard = Yard { steps: Vec::new(), stack: Vec::new(), wants_operand: true };
    if !side.iter().all(|&token| yard.take(rules, token)) {
        return None;
    }
    yard.take_off(|_| true);
    (!yard.wants_operand && yard.stack.is_empty()).then_some(yard.steps)
}

#[cfg(test)]
mod tests {
    use super::super::tokens::tokens;
    use super::super::REQUEST;
    use super::*;

    fn order(rules: Rules, text: &str) -> Option<String> {
        let tokens = tokens(rules, text.as_bytes());
        let letter = |step: &Step| match step {
            Step::Name(name) => String::from_utf8_lossy(name.text).into_owned(),
            Step::Sign(Sign::Not) => "!".to_string(),
            Step::Sign(Sign::And) => "*".to_string(),
            Step::Sign(Sign::Or) => "+".to_string(),
        };
        Some(steps(rules, &tokens)?.iter().map(letter).collect())
    }

    #[test]
    fn signs_behind_their_operands() {
        let cases = [
            ("a", "a"),
            ("((a))", "a"),
            ("a+b*c", "abc*+"),
            ("a*b+c", "ab*c+"),
            ("a+b+c", "ab+c+"),
            ("a*b*c", "ab*c*"),
            ("a*(b+c)", "abc+*"),
            ("!a*b", "a!b*"),
            ("!!a", "a!!"),
            ("!(a+!b)*c", "ab!+!c*"),
            ("a+b*!c*d+e", "abc!*d*+e+"),
        ];
        for (text, due) in cases {
            assert_eq!(order(REQUEST, text).as_deref(), Some(due), "{text}");
        }
        let right = Rules { is_left_first: false, ..REQUEST };
        assert_eq!(order(right, "a+b+c*d*e").as_deref(), Some("abcde**++"));
    }

    /// Whether a text of one-letter names is an expression: a name is one, and what the request
    /// puts together of expressions is one again, put in its place until nothing changes.
    fn shrinks_to_one(text: &str) -> bool {
        let mut text = text.replace(['a', 'b'], "E");
        loop {
            let before = text.clone();
            for rule in ["!E", "(E)", "E*E", "E+E"] {
                text = text.replace(rule, "E");
            }
            if text == before {
                return text == "E";
            }
        }
    }

    #[test]
    fn every_short_text_is_an_expression_or_not() {
        let letters = ['a', 'b', '!', '*', '+', '(', ')'];
        let mut texts = vec![String::new()];
        let mut taken = 0;
        for _ in 0..6 {
            let longer = |text: &String| letters.map(|letter| format!("{text}{letter}"));
            texts = texts.iter().flat_map(longer).collect();
            for text in texts.iter().filter(|text| !has_words(text)) {
                let found = order(REQUEST, text);
                assert_eq!(found.is_some(), shrinks_to_one(text), "{text}");
                taken += usize::from(found.is_some());
            }
        }
        assert!(taken > 300, "{taken}");
    }

    /// Two letters side by side are one word.
    fn has_words(text: &str) -> bool {
        text.as_bytes().windows(2).any(|pair| pair.iter().all(u8::is_ascii_alphabetic))
    }

    #[test]
    fn brackets_open_at_once() {
        let nested = |count: usize| format!("{}a{}", "(!".repeat(count), ")".repeat(count));
        assert!(order(REQUEST, &nested(32)).is_some());
        assert!(order(REQUEST, &nested(33)).is_none());
        assert!(order(REQUEST, &format!("{}+{}", nested(32), nested(32))).is_some());
        assert!(order(REQUEST, &format!("{}a", "!".repeat(8_000))).is_some());
    }
}
