//! Equations: `plover_equations` against the second reader, in groups of cases.

pub mod comparison;
mod damage;
pub mod edges;
mod examples;

use crate::library::LINKED;
use crate::mapping::buffer::LONGEST;
use crate::Size;
use comparison::Comparison;
use damage::{any_byte, damaged};
use second::equations::{TABLE_ROOM, TEXT_LIMIT};
use second::random::texts::{text, Names, NAMES};
use second::ROOM;

/// What a text is tried with in the place of a byte, or at its end.
const BYTES: &[u8; 16] = b"ainout1;=!*+()# ";

/// Beginnings of texts, of which each wants something else next.
const BEGINNINGS: [&str; 14] = [
    "",
    "in ",
    "in a",
    "in a ",
    "in a b;",
    "in a;f",
    "in a;f ",
    "in a;f=",
    "in a;f=a",
    "in a;f=(a ",
    "in a b;f=!(a*b)+",
    "in a;out ",
    "in a;f=a;out f",
    "in a;out a;",
];

pub fn compare(size: Size, seed: u64) -> Result<(), String> {
    let mut comparison = Comparison::new(LINKED, seed);
    by_hand(&mut comparison)?;
    examples(&mut comparison)?;
    ends(&mut comparison, size.of(3, 4))?;
    single_bytes(&mut comparison, size.of(12, 100))?;
    whole_texts(&mut comparison, size.of(10_000, 100_000))?;
    damaged_texts(&mut comparison, size.of(20_000, 100_000))?;
    full_length(&mut comparison, size.of(60, 1_000))?;
    of_no_form(&mut comparison, size.of(2_000, 40_000))?;
    let tables = comparison.tally.due(0);
    println!("equations: {tables} tables with the values of the equations, each mapped");
    comparison.tally.report("equations", &[0, 7, 8, 41, 42, 43])
}

/// Texts with their replies, written down; with buffers that are long enough and too short.
pub fn by_hand(comparison: &mut Comparison) -> Result<(), String> {
    comparison.tally.begin("by hand");
    for edge in edges::all() {
        let named = |difference| format!("'{}': {difference}", edge.name);
        for length in [0, 1, TABLE_ROOM - 1, TABLE_ROOM, TABLE_ROOM + 1, LONGEST] {
            let outcome = comparison.check(&edge.text, edge.k, length).map_err(named)?;
            let due = match &edge.due {
                Ok(_) if length < TABLE_ROOM => Err((ROOM, TABLE_ROOM)),
                due => due.clone(),
            };
            if outcome != due {
                return Err(named(format!("by hand {due:?}, both readers {outcome:?}")));
            }
        }
    }
    Ok(())
}

/// The texts in the folder `examples`.
fn examples(comparison: &mut Comparison) -> Result<(), String> {
    comparison.tally.begin("examples");
    for example in examples::all()? {
        let named = |difference| format!("{}: {difference}", example.file);
        let outcome = comparison.check(&example.text, example.k, TABLE_ROOM).map_err(named)?;
        if outcome != example.due {
            let due = &example.due;
            return Err(named(format!("by hand {due:?}, both readers {outcome:?}")));
        }
    }
    Ok(())
}

/// Every text of so many bytes at most, behind each of the beginnings.
pub fn ends(comparison: &mut Comparison, most: usize) -> Result<(), String> {
    comparison.tally.begin("ends behind a beginning");
    let mut texts: Vec<Vec<u8>> = BEGINNINGS.map(|text| text.as_bytes().to_vec()).to_vec();
    for length in 0..=most {
        for text in &texts {
            comparison.check_text(text)?;
        }
        if length < most {
            let longer = |text: &Vec<u8>| BYTES.map(|byte| [text, &[byte][..]].concat());
            texts = texts.iter().flat_map(longer).collect();
        }
    }
    Ok(())
}

/// So many texts with each byte in turn changed to each of some, left out and doubled.
pub fn single_bytes(comparison: &mut Comparison, count: usize) -> Result<(), String> {
    comparison.tally.begin("with one byte changed");
    for turn in 0..count {
        let text = drawn(comparison, turn, 160);
        for at in 0..text.len() {
            let (before, behind) = (&text[..at], &text[at + 1..]);
            for byte in BYTES {
                comparison.check_text(&[before, &[*byte], behind].concat())?;
            }
            comparison.check_text(&[before, behind].concat())?;
            comparison.check_text(&[before, &[text[at], text[at]], behind].concat())?;
        }
    }
    Ok(())
}

/// A text in the grammar of so many bytes at most.
fn drawn(comparison: &mut Comparison, turn: usize, most: usize) -> Vec<u8> {
    let names = NAMES[turn % NAMES.len()];
    loop {
        let text = text(&mut comparison.random, names);
        if text.len() <= most {
            return text;
        }
    }
}

/// Texts in the grammar, most of them with right names.
pub fn whole_texts(comparison: &mut Comparison, count: usize) -> Result<(), String> {
    comparison.tally.begin("whole texts");
    for turn in 0..count {
        let names = if turn % 2 == 0 { Names::Right } else { NAMES[turn / 2 % NAMES.len()] };
        let text = text(&mut comparison.random, names);
        comparison.check_text(&text)?;
    }
    Ok(())
}

/// Texts with up to three bytes or spans damaged.
pub fn damaged_texts(comparison: &mut Comparison, count: usize) -> Result<(), String> {
    comparison.tally.begin("damaged texts");
    for turn in 0..count {
        let text = drawn(comparison, turn, if turn % 20 == 0 { TEXT_LIMIT } else { 400 });
        let text = damaged(&mut comparison.random, text);
        comparison.check_text(&text)?;
    }
    Ok(())
}

/// Texts of 8,191 to 8,194 bytes: blanks, names or equations make one longer, and then it is whole
/// or damaged.
pub fn full_length(comparison: &mut Comparison, count: usize) -> Result<(), String> {
    comparison.tally.begin("of full length");
    for turn in 0..count {
        let length = comparison.random.between(TEXT_LIMIT - 1, TEXT_LIMIT + 2);
        let start: &[u8] = if turn % 4 == 0 { b"" } else { b"in a;" };
        let filling: &[u8] = [&b"\r\n"[..], b"f=!!(a);", b"f=a+((a*b));", b"x=a*f "][turn % 4];
        let mut text = start.to_vec();
        text.extend(filling.iter().cycle().take(length - start.len() - 20));
        text.resize(length - 11, b' ');
        text.extend(b"in a;out a;".iter().skip(start.len()));
        text.resize(length, b' ');
        if turn % 3 != 0 {
            let at = comparison.random.below(length);
            text[at] = any_byte(&mut comparison.random);
        }
        comparison.check_text(&text)?;
    }
    Ok(())
}

/// Bytes of no form, evenly drawn or drawn from those that mean something.
pub fn of_no_form(comparison: &mut Comparison, count: usize) -> Result<(), String> {
    comparison.tally.begin("of no form");
    for turn in 0..count {
        let random = &mut comparison.random;
        let length = random.below(60);
        let byte = |_| match turn % 2 {
            0 => random.word() as u8,
            _ => any_byte(random),
        };
        let bytes: Vec<u8> = (0..length).map(byte).collect();
        let start = *comparison.random.pick(&BEGINNINGS);
        comparison.check_text(&[start.as_bytes(), &bytes].concat())?;
    }
    Ok(())
}
