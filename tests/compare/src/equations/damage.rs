//! Damage to texts, byte by byte and span by span.

use second::random::Random;

/// Bytes that mean something in a text, or nearly do.
const TELLING: &[u8] = b"ainout1;=!*+()# \r\n\tAIZz09_,.-/:@[`{|~\x00\x0B\x0C\x7F\x80\xA0\xFF";

/// A byte that is mostly a telling one.
pub fn any_byte(random: &mut Random) -> u8 {
    match random.one_in(16) {
        true => random.word() as u8,
        false => *random.pick(TELLING),
    }
}

/// The text with up to three bytes or spans damaged.
pub fn damaged(random: &mut Random, mut text: Vec<u8>) -> Vec<u8> {
    for _ in 0..random.between(1, 3) {
        damage(random, &mut text);
    }
    text
}

fn damage(random: &mut Random, text: &mut Vec<u8>) {
    let at = random.between(0, text.len());
    match random.below(10) {
        0 => text.truncate(at),
        1 | 2 => text.insert(at, any_byte(random)),
        3 => {
            let (word, count): (&[u8], usize) = match random.below(5) {
                0 => (b"in", 1),
                1 => (b" out ", 1),
                2 => (b"(", random.between(1, 34)),
                3 => (b")", random.between(1, 34)),
                _ => (b"a", random.between(1, 17)),
            };
            drop(text.splice(at..at, word.repeat(count)));
        }
        4 => {
            let behind = text.len().min(at + random.below(12));
            let span = text[at..behind].to_vec();
            let other = random.between(0, text.len());
            drop(text.splice(other..other, span));
        }
        5 => drop(text.drain(at..text.len().min(at + random.below(12)))),
        kind if at < text.len() => match kind {
            6 => drop(text.remove(at)),
            7 => text[at] ^= 1 << random.below(8),
            _ => text[at] = any_byte(random),
        },
        _ => text.push(any_byte(random)),
    }
}
