//! The mapper, the inspector and the reader of equations of Ploverdrift, behind a safe face. What
//! they promise is proved for all bytes (docs/PROMISES.md, plover); that they are declared here as
//! they are is not. The tests outside Rattle call the library through this package too, so that
//! these declarations are compared along with it.

use std::fmt;

/// Bytes of a sheet buffer that is long enough for every table.
pub const ROOM: usize = 49_152;
/// Bytes of a table buffer that is long enough for every text of equations.
pub const TABLE_ROOM: usize = 4_096;

// A slice crosses as its pointer and its length.
extern "C" {
    fn plover_map(
        table: *const u8,
        table_length: usize,
        sheet: *mut u8,
        sheet_length: usize,
    ) -> u64;

    fn plover_inspect(
        table: *const u8,
        table_length: usize,
        sheet: *const u8,
        sheet_length: usize,
    ) -> u64;

    fn plover_equations(
        text: *const u8,
        text_length: usize,
        k: u64,
        table: *mut u8,
        table_length: usize,
    ) -> u64;
}

/// What a table, a buffer, a sheet or a text is refused for: the paper's number, and the place it
/// names.
#[derive(Clone, Copy, Debug, PartialEq, Eq)]
pub struct Refusal {
    pub number: u32,
    pub place: u32,
}

impl fmt::Display for Refusal {
    fn fmt(&self, f: &mut fmt::Formatter) -> fmt::Result {
        write!(f, "refused {} at {}", self.number, self.place)
    }
}

/// The mapper's reply.
#[derive(Clone, Copy, Debug, PartialEq, Eq)]
pub enum Mapping {
    /// The sheet's length: it stands at the front of the buffer.
    Mapped(usize),
    Refused(Refusal),
}

impl Mapping {
    /// The sheet's length, for a caller who hands refusals on.
    pub fn length(self) -> Result<usize, Refusal> {
        match self {
            Mapping::Mapped(length) => Ok(length),
            Mapping::Refused(refusal) => Err(refusal),
        }
    }
}

/// The inspector's reply.
#[derive(Clone, Copy, Debug, PartialEq, Eq)]
pub enum Inspection {
    /// The sheet's depth.
    Accepted(u32),
    Refused(Refusal),
}

impl Inspection {
    /// The sheet's depth, for a caller who hands refusals on.
    pub fn depth(self) -> Result<u32, Refusal> {
        match self {
            Inspection::Accepted(depth) => Ok(depth),
            Inspection::Refused(refusal) => Err(refusal),
        }
    }
}

/// The reply to a text of equations.
#[derive(Clone, Copy, Debug, PartialEq, Eq)]
pub enum Compiling {
    /// The gate table's length: it stands at the front of the buffer.
    Compiled(usize),
    Refused(Refusal),
}

impl Compiling {
    /// The gate table's length, for a caller who hands refusals on.
    pub fn length(self) -> Result<usize, Refusal> {
        match self {
            Compiling::Compiled(length) => Ok(length),
            Compiling::Refused(refusal) => Err(refusal),
        }
    }
}

/// The number in the upper half of a word, and the place in the lower.
fn halves(word: u64) -> Refusal {
    let number = (word >> 32) as u32;
    let place = word as u32;
    Refusal { number, place }
}

/// Maps a gate table into the sheet buffer. A refusal leaves the buffer as it was, and so does
/// success from the sheet's length on.
pub fn map(table: &[u8], sheet: &mut [u8]) -> Mapping {
    // Sound: the function reads the table, reads and writes the buffer, and keeps neither pointer.
    let word = unsafe { plover_map(table.as_ptr(), table.len(), sheet.as_mut_ptr(), sheet.len()) };
    let reply = halves(word);
    match reply.number {
        0 => Mapping::Mapped(reply.place as usize),
        _ => Mapping::Refused(reply),
    }
}

/// Judges anybody's sheet of a gate table.
pub fn inspect(table: &[u8], sheet: &[u8]) -> Inspection {
    // Sound: the function reads both slices, and keeps neither pointer.
    let word = unsafe { plover_inspect(table.as_ptr(), table.len(), sheet.as_ptr(), sheet.len()) };
    let reply = halves(word);
    match reply.number {
        0 => Inspection::Accepted(reply.place),
        _ => Inspection::Refused(reply),
    }
}

/// Turns a text of equations, with the user's K, into a gate table in the buffer. Refused are, in
/// this order: 41 a text of more than 8,192 bytes or not in the grammar, 42 a name that is nowhere
/// defined or defined again, 43 numbers that no table has, 7 a loop, 8 a buffer below 4,096 bytes
/// (`TABLE_ROOM`). A refusal leaves the buffer as it was, and so does success from the table's
/// length on; `map` takes every table that is written.
pub fn equations(text: &[u8], k: u64, table: &mut [u8]) -> Compiling {
    let (start, room) = (table.as_mut_ptr(), table.len());
    // Sound: the function reads the text, reads and writes the buffer, and keeps neither pointer.
    let word = unsafe { plover_equations(text.as_ptr(), text.len(), k, start, room) };
    let reply = halves(word);
    match reply.number {
        0 => Compiling::Compiled(reply.place as usize),
        _ => Compiling::Refused(reply),
    }
}

#[cfg(test)]
mod tests {
    use super::*;

    fn refusal(number: u32, place: u32) -> Refusal {
        Refusal { number, place }
    }

    #[test]
    fn a_word_is_number_and_place() {
        assert_eq!(halves(83), refusal(0, 83));
        assert_eq!(halves(7 << 32 | 2), refusal(7, 2));
        assert_eq!(halves(u64::MAX), refusal(u32::MAX, u32::MAX));
    }

    #[test]
    fn no_bytes_are_torn() {
        assert_eq!(map(&[], &mut []), Mapping::Refused(refusal(1, 0)));
        assert_eq!(inspect(&[], &[]).depth(), Err(refusal(1, 0)));
    }

    #[test]
    fn a_text_and_its_table() {
        let table = &mut [0xFF; TABLE_ROOM];
        assert_eq!(equations(&[], 3, table), Compiling::Refused(refusal(41, 0)));
        assert_eq!(equations(b"in a;out b;", 3, table), Compiling::Refused(refusal(42, 9)));
        assert_eq!(equations(b"in a;out a;", 1 << 32, table).length(), Err(refusal(43, 0)));
        assert_eq!(equations(b"in a;out a;", 3, &mut []).length(), Err(refusal(8, 4_096)));
        assert!(table.iter().all(|&byte| byte == 0xFF));
        assert_eq!(equations(b"in a;out a;", 3, table), Compiling::Compiled(11));
        assert_eq!(table[..12], [1, 0, 4, 1, 3, 1, 0, 3, 0, 1, 0, 0xFF]);
    }
}
