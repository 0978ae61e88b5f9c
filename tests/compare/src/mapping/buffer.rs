//! The buffer that a function is lent, for a sheet or a table. It is a part of a longer one, and a
//! random pattern stands in all of that before the call, so that every byte is seen to stay that
//! should.

use second::random::Random;
use std::ops::Range;

/// The longest buffer that is lent.
pub const LONGEST: usize = 65_536;
/// What stands in front of the lent part, and behind it.
const MARGIN: usize = 128;

pub struct Buffer {
    /// Random bytes, of which each call has some as its pattern.
    pattern: Vec<u8>,
    bytes: Vec<u8>,
    /// Where in the pattern the bytes before the call begin.
    begin: usize,
    length: usize,
}

impl Buffer {
    pub fn new(random: &mut Random) -> Buffer {
        let size = LONGEST + 2 * MARGIN;
        let pattern = (0..2 * size).map(|_| random.word() as u8).collect();
        Buffer { pattern, bytes: vec![0; size], begin: 0, length: 0 }
    }

    /// So many bytes, with a new pattern in them and around them.
    pub fn lend(&mut self, length: usize, random: &mut Random) -> &mut [u8] {
        self.begin = random.below(self.bytes.len());
        self.length = length;
        let used = length + 2 * MARGIN;
        self.bytes[..used].copy_from_slice(&self.pattern[self.begin..self.begin + used]);
        &mut self.bytes[MARGIN..MARGIN + length]
    }

    pub fn lent(&self) -> &[u8] {
        &self.bytes[MARGIN..MARGIN + self.length]
    }

    /// All is as before the call but for the first so many bytes of what was lent.
    pub fn as_before_from(&self, written: usize) -> Result<(), String> {
        self.as_before(0..MARGIN)?;
        self.as_before(MARGIN + written..self.length + 2 * MARGIN)
    }

    fn as_before(&self, range: Range<usize>) -> Result<(), String> {
        let found = &self.bytes[range.clone()];
        let before = &self.pattern[self.begin + range.start..self.begin + range.end];
        if found == before {
            return Ok(());
        }
        let first = (0..found.len()).find(|&at| found[at] != before[at]).unwrap_or(0);
        let place = (range.start + first) as isize - MARGIN as isize;
        Err(format!("buffer: byte {place} was {}, is {}", before[first], found[first]))
    }
}
