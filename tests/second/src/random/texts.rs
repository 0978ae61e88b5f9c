//! Texts of equations, all in the grammar.

use super::Random;

/// What names a text uses and defines.
#[derive(Clone, Copy, Debug, PartialEq, Eq)]
pub enum Names {
    /// Each is defined once, and no equation leads back to itself.
    Right,
    /// Each is defined once, and any equation uses any.
    Looped,
    /// Any of a few: often one is not defined, or defined again.
    Any,
}

pub const NAMES: [Names; 3] = [Names::Right, Names::Looped, Names::Any];

/// Names that are nearly other words, or as long as may be.
const TELLING: [&str; 16] = [
    "i",
    "n",
    "o",
    "ou",
    "inx",
    "in1",
    "ins",
    "outer",
    "out0",
    "IN",
    "Out",
    "OUT",
    "a",
    "A",
    "sixteenletters16",
    "sixteenletters17",
];

/// The most brackets that are open at once.
const NESTING: usize = 32;

/// How many of each there are, and how many signs an expression may have.
struct Form {
    inputs: usize,
    equations: usize,
    outputs: usize,
    signs: usize,
}

impl Form {
    /// Most are small; some are near the limits of a table, below or above.
    fn drawn(random: &mut Random) -> Form {
        let (inputs, equations, outputs, signs) = match random.below(40) {
            0 => (random.between(60, 67), random.between(0, 50), random.between(1, 4), 4),
            1 => (random.between(1, 9), random.between(30, 80), random.between(1, 67), 8),
            2 => (random.between(1, 3), random.between(1, 3), random.between(1, 3), 150),
            _ => (random.between(1, 5), random.below(6), random.between(1, 3), 8),
        };
        Form { inputs, equations, outputs, signs }
    }
}

/// How blanks are set where they may stand.
#[derive(Clone, Copy)]
enum Blanks {
    Least,
    Spaces,
    Any,
}

/// A text that is being written.
struct Pen<'a> {
    text: Vec<u8>,
    blanks: Blanks,
    random: &'a mut Random,
}

impl Pen<'_> {
    /// Blanks where they may stand and need not.
    fn gap(&mut self) {
        match self.blanks {
            Blanks::Least => {}
            Blanks::Spaces => self.text.push(b' '),
            Blanks::Any => {
                for _ in 0..self.random.below(8).saturating_sub(4) {
                    let blank: &[u8] = *self.random.pick(&[&b" "[..], b"\n", b"\r\n", b"\r"]);
                    self.text.extend(blank);
                }
            }
        }
    }

    fn sign(&mut self, sign: u8) {
        self.gap();
        self.text.push(sign);
        self.gap();
    }

    /// A word behind another.
    fn next_word(&mut self, word: &str) {
        self.gap();
        self.text.push(*self.random.pick(b" \n\r  "));
        self.gap();
        self.text.extend(word.as_bytes());
    }

    fn list(&mut self, word: &str, names: &[String]) {
        self.text.extend(word.as_bytes());
        names.iter().for_each(|name| self.next_word(name));
        self.sign(b';');
    }

    /// One of these names, seldom in as many brackets as may be.
    fn name(&mut self, names: &[String], deep: usize) {
        let brackets = if self.random.one_in(40) { deep } else { 0 };
        (0..brackets).for_each(|_| self.sign(b'('));
        let name = self.random.pick(names).clone();
        self.text.extend(name.as_bytes());
        (0..brackets).for_each(|_| self.sign(b')'));
    }

    /// An expression of at most so many signs and brackets, at most so deep, over these names.
    fn expression(&mut self, names: &[String], signs: usize, deep: usize) {
        let mut left = signs;
        while left > 0 && self.random.one_in(4) {
            self.sign(b'!');
            left -= 1;
        }
        match self.random.below(3) {
            0 if left > 1 && deep > 0 => {
                let inner = self.random.below(left);
                self.sign(b'(');
                self.expression(names, inner, deep - 1);
                self.sign(b')');
                left -= inner + 1;
            }
            _ => self.name(names, deep),
        }
        if left > 0 && !self.random.one_in(4) {
            let sign = *self.random.pick(b"*+");
            self.sign(sign);
            self.expression(names, left - 1, deep);
        }
    }
}

/// A text, with blanks before and behind.
pub fn text(random: &mut Random, names: Names) -> Vec<u8> {
    let form = Form::drawn(random);
    let known = distinct(random, form.inputs + form.equations);
    let blanks = *random.pick(&[Blanks::Least, Blanks::Spaces, Blanks::Any, Blanks::Any]);
    // The rank of an equation: it may use those of lower rank, wherever they stand.
    let ranks = random.order(form.equations);
    let mut pen = Pen { text: Vec::new(), blanks, random };
    pen.gap();
    pen.list("in", &known[..form.inputs]);
    for (at, name) in known[form.inputs..].iter().enumerate() {
        let is_usable = |&other: &usize| names == Names::Looped || ranks[other] < ranks[at];
        let lower = (0..form.equations).filter(is_usable);
        let lower = lower.map(|other| known[form.inputs + other].clone());
        let mut usable: Vec<String> = known[..form.inputs].iter().cloned().chain(lower).collect();
        let mut name = name.clone();
        if names == Names::Any && pen.random.one_in(6) {
            name = pen.random.pick(&known).clone();
            usable = known.clone();
            usable.extend(TELLING.map(String::from));
        }
        pen.text.extend(name.as_bytes());
        pen.sign(b'=');
        let signs = pen.random.between(0, form.signs);
        pen.expression(&usable, signs, NESTING);
        pen.sign(b';');
    }
    let mut outputs: Vec<String> =
        (0..form.outputs).map(|_| pen.random.pick(&known).clone()).collect();
    if names == Names::Any && pen.random.one_in(6) {
        let at = pen.random.below(outputs.len());
        outputs[at] = pen.random.pick(&TELLING).to_string();
    }
    pen.list("out", &outputs);
    pen.gap();
    pen.text
}

/// So many names, no two alike. Names are often a letter, and often alike but for their ends.
fn distinct(random: &mut Random, count: usize) -> Vec<String> {
    let mut names: Vec<String> = Vec::new();
    while names.len() < count {
        let name = match random.below(6) {
            0 => random.pick(&TELLING).to_string(),
            1 => word(random, 16),
            2 => match names.last() {
                Some(last) if last.len() < 16 => format!("{last}{}", letter(random)),
                _ => word(random, 2),
            },
            _ => word(random, 2),
        };
        if !names.contains(&name) && name != "in" && name != "out" {
            names.push(name);
        }
    }
    names
}

/// A name of at most so many letters and digits.
fn word(random: &mut Random, most: usize) -> String {
    let length = random.between(1, most);
    let mut word = char::from(*random.pick(b"abcinoutxyzABZ")).to_string();
    while word.len() < length {
        word.push(letter(random));
    }
    word
}

fn letter(random: &mut Random) -> char {
    char::from(*random.pick(b"abcinoutxyzABZ0123456789"))
}

#[cfg(test)]
mod tests {
    use super::*;
    use crate::equations::{compile, TABLE_ROOM};

    #[test]
    fn right_names_are_taken_and_others_often_not() {
        let mut random = Random::seeded(35);
        let mut replies = [0; 44];
        for turn in 0..3_000 {
            let names = NAMES[turn % NAMES.len()];
            let number = match compile(&text(&mut random, names), 5, TABLE_ROOM) {
                Ok(_) => 0,
                Err((number, _)) => number as usize,
            };
            let may_be: &[usize] = match names {
                Names::Right => &[0, 43],
                Names::Looped => &[0, 7, 43],
                Names::Any => &[0, 7, 42, 43],
            };
            assert!(may_be.contains(&number), "{number}");
            replies[number] += 1;
        }
        assert!([0, 7, 42, 43].iter().all(|&number| replies[number] > 10), "{replies:?}");
    }
}
