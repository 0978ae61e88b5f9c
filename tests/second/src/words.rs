//! Function tables worked out for 64 settings at once: bit s of a node's word is its value in
//! setting s.

use crate::table::FANIN_LIMIT;

/// The words of up to six leaves when setting r stands for row r: bit r of word i is bit i of r.
pub const ROW_WORDS: [u64; FANIN_LIMIT] = [
    0xAAAA_AAAA_AAAA_AAAA,
    0xCCCC_CCCC_CCCC_CCCC,
    0xF0F0_F0F0_F0F0_F0F0,
    0xFF00_FF00_FF00_FF00,
    0xFFFF_0000_FFFF_0000,
    0xFFFF_FFFF_0000_0000,
];

/// The word of a function table whose fanins have these words.
pub fn apply(rows: u64, fanin_words: &[u64]) -> u64 {
    let row_count = 1 << fanin_words.len();
    (0..row_count)
        .filter(|&row| bit(rows, row))
        .fold(0, |result, row| result | settings_of_row(row, fanin_words))
}

/// The settings in which the fanins' values make this row.
fn settings_of_row(row: usize, fanin_words: &[u64]) -> u64 {
    fanin_words.iter().enumerate().fold(u64::MAX, |settings, (i, &word)| {
        let fanin_is_set = row >> i & 1 == 1;
        settings & if fanin_is_set { word } else { !word }
    })
}

/// Bit number `at` of a word.
pub fn bit(word: u64, at: usize) -> bool {
    word >> at & 1 == 1
}

#[cfg(test)]
mod tests {
    use super::*;

    #[test]
    fn a_row_word_has_the_rows_bits() {
        for (i, &word) in ROW_WORDS.iter().enumerate() {
            for row in 0..64 {
                assert_eq!(bit(word, row), row >> i & 1 == 1);
            }
        }
    }

    #[test]
    fn a_table_applied_to_the_rows_is_itself() {
        for rows in [0x8, 0xE, 0x1234_5678_9ABC_DEF0, u64::MAX] {
            assert_eq!(apply(rows, &ROW_WORDS), rows);
        }
        assert_eq!(apply(0xD8, &ROW_WORDS[..3]) & 0xFF, 0xD8);
    }

    #[test]
    fn a_fanin_may_stand_twice() {
        let word = 0x0123_4567_89AB_CDEF;
        assert_eq!(apply(0x8, &[word, word]), word);
        assert_eq!(apply(0x6, &[word, word]), 0);
        assert_eq!(apply(0x1, &[word]), !word);
    }
}
