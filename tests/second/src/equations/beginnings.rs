//! The longest beginning of a text "that some well-formed text of any length shares".
//!
//! What is tried behind a beginning is a small family. It is enough: whatever a text in the grammar
//! is cut behind, one of the family goes on from there, with as many brackets as are open.

use super::system::System;
use super::Rules;

/// What may follow a beginning: this, the brackets that close those that are open, and this.
const COMPLETIONS: [(&str, &str); 12] = [
    // Nothing is due.
    ("", ""),
    // The outputs may end; one is due, or a word begins that is no name yet; so is a blank.
    ("", ";"),
    ("a", ";"),
    (" a", ";"),
    // The same of inputs and expressions.
    ("", ";out a;"),
    ("a", ";out a;"),
    (" a", ";out a;"),
    // The first word is due, or the rest of it.
    ("in a", ";out a;"),
    ("n a", ";out a;"),
    // A statement is due, or the rest of an equation whose name begins or stands.
    ("out a", ";"),
    ("=a", ";out a;"),
    ("a=a", ";out a;"),
];

/// Whether some text in the grammar begins with these bytes.
pub fn is_beginning(rules: Rules, bytes: &[u8]) -> bool {
    let count = |sign: u8| bytes.iter().filter(|&&byte| byte == sign).count();
    // Statements that are over have as many of the one as of the other.
    let close = ")".repeat(count(b'(').saturating_sub(count(b')')));
    COMPLETIONS.iter().any(|(before, behind)| {
        let text = [bytes, before.as_bytes(), close.as_bytes(), behind.as_bytes()].concat();
        System::read(rules, &text).is_some()
    })
}

/// How many bytes of a text some text in the grammar begins with. Of a beginning every shorter one
/// is shared as well, so that the least that is not can be found by halves.
pub fn longest(rules: Rules, text: &[u8]) -> usize {
    let (mut shared, mut not) = (0, text.len() + 1);
    while not - shared > 1 {
        let middle = (shared + not) / 2;
        match is_beginning(rules, &text[..middle]) {
            true => shared = middle,
            false => not = middle,
        }
    }
    shared
}

#[cfg(test)]
mod tests {
    use super::super::REQUEST;
    use super::*;
    use crate::random::texts::{text, Names, NAMES};
    use crate::random::Random;

    /// The family is enough: every beginning of a text in the grammar has one that completes it.
    #[test]
    fn all_beginnings_of_texts_are_completed() {
        let mut random = Random::seeded(32);
        for turn in 0..600 {
            let mut text = text(&mut random, NAMES[turn % NAMES.len()]);
            assert!(System::read(REQUEST, &text).is_some());
            text.truncate(600);
            for length in 0..=text.len() {
                let shown = String::from_utf8_lossy(&text[..length]);
                assert!(is_beginning(REQUEST, &text[..length]), "{shown}");
            }
        }
    }

    /// Searching by halves finds what searching byte by byte finds.
    #[test]
    fn halves_and_bytes_agree() {
        let mut random = Random::seeded(33);
        for _ in 0..600 {
            let mut text = text(&mut random, Names::Any);
            text.truncate(60);
            for _ in 0..random.between(1, 3) {
                let at = random.below(text.len());
                text[at] = *random.pick(b"ainout1;=!*+()# ");
            }
            let first = (0..=text.len()).find(|&length| !is_beginning(REQUEST, &text[..length]));
            let by_bytes = first.map_or(text.len(), |length| length - 1);
            assert_eq!(longest(REQUEST, &text), by_bytes);
        }
    }

    #[test]
    fn a_keyword_may_go_on_as_a_name() {
        for text in ["in in", "in a;in", "in a;f=out", "in a;out in", "in a;o", "in a;f=((in"] {
            assert_eq!(longest(REQUEST, text.as_bytes()), text.len(), "{text}");
        }
    }
}
