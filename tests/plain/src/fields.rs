//! Fields of a gate table or a sheet: a tag, a length of two bytes, a value.

use crate::Refusal;

/// A fault of a field, with its number in a gate table.
#[derive(Clone, Copy)]
pub enum Fault {
    Torn = 1,
    Tag = 2,
    Length = 3,
    Range = 4,
    Rows = 5,
    Outputs = 6,
}

/// Bytes that are read field by field. The place stays at a field's start until it is passed,
/// since every refusal of the field names it.
pub struct Fields<'a> {
    pub bytes: &'a [u8],
    pub place: usize,
    /// What a fault's number is above that in a gate table.
    pub above: u8,
}

impl<'a> Fields<'a> {
    pub fn refusal(&self, fault: Fault) -> Refusal {
        Refusal { number: self.above + fault as u8, place: self.place }
    }

    /// Refuses the field unless the test holds.
    pub fn demand(&self, test: bool, fault: Fault) -> Result<(), Refusal> {
        if test {
            Ok(())
        } else {
            Err(self.refusal(fault))
        }
    }

    /// Whether all bytes are read.
    pub fn is_over(&self) -> bool {
        self.place == self.bytes.len()
    }

    /// The value of the field, which must have this tag. `surplus`: it would be a 65th output.
    pub fn value(&self, tag: u8, surplus: bool) -> Result<&'a [u8], Refusal> {
        let (start, rest) = match self.bytes[self.place..] {
            [first, high, low, ref rest @ ..] => ([first, high, low], rest),
            _ => return Err(self.refusal(Fault::Torn)),
        };
        self.demand(start[0] == tag, Fault::Tag)?;
        self.demand(!surplus, Fault::Outputs)?;
        let length = usize::from(u16::from_be_bytes([start[1], start[2]]));
        rest.get(..length).ok_or_else(|| self.refusal(Fault::Torn))
    }

    /// Goes on behind the field of this value.
    pub fn pass(&mut self, value: &[u8]) {
        self.place += 3 + value.len();
    }
}

/// The number that eight bytes make, high byte first.
pub fn word(bytes: &[u8]) -> u64 {
    bytes.iter().fold(0, |word, &byte| word << 8 | u64::from(byte))
}
