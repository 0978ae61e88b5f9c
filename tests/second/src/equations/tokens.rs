//! Words and signs.

use super::Rules;

/// A run of letters and digits as long as it goes, or any other byte that is no blank.
#[derive(Clone, Copy, Debug, PartialEq, Eq)]
pub struct Token<'a> {
    pub place: usize,
    pub text: &'a [u8],
}

impl Token<'_> {
    pub fn is(self, text: &str) -> bool {
        self.text == text.as_bytes()
    }

    /// "Names of 1 to 16 letters and digits starting with a letter"; "`in` and `out` are no names".
    pub fn is_name(self, rules: Rules) -> bool {
        self.text[0].is_ascii_alphabetic()
            && self.text.len() <= rules.name_limit
            && !rules.reserved.contains(&self.text)
    }
}

/// A text without its blanks.
pub fn tokens(rules: Rules, text: &[u8]) -> Vec<Token<'_>> {
    let mut tokens = Vec::new();
    let mut place = 0;
    while place < text.len() {
        let word = text[place..].iter().take_while(|byte| byte.is_ascii_alphanumeric()).count();
        let length = word.max(1);
        if !rules.blanks.contains(&text[place]) {
            tokens.push(Token { place, text: &text[place..place + length] });
        }
        place += length;
    }
    tokens
}

#[cfg(test)]
mod tests {
    use super::super::REQUEST;
    use super::*;

    #[test]
    fn words_and_signs_of_a_text() {
        let found: Vec<(usize, &[u8])> = tokens(REQUEST, b" in a1\r\nb;\t=(\xE4")
            .into_iter()
            .map(|token| (token.place, token.text))
            .collect();
        let by_hand: [(usize, &[u8]); 8] = [
            (1, b"in"),
            (4, b"a1"),
            (8, b"b"),
            (9, b";"),
            (10, b"\t"),
            (11, b"="),
            (12, b"("),
            (13, b"\xE4"),
        ];
        assert_eq!(found, by_hand);
    }

    #[test]
    fn which_words_are_names() {
        let is_name = |text: &str| Token { place: 0, text: text.as_bytes() }.is_name(REQUEST);
        for name in ["a", "Z9", "inx", "outer", "IN", "Out", "i", "ou", "a234567890123456"] {
            assert!(is_name(name), "{name}");
        }
        for other in ["in", "out", "1", "1a", "_", "a2345678901234567", "\u{e4}"] {
            assert!(!is_name(other), "{other}");
        }
    }
}
