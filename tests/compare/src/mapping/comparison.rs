//! One mapping by both sides: the reply, the sheet and every byte of the buffer are compared, and
//! each inspector is given the sheets of both mappers.

use super::buffer::{Buffer, LONGEST};
use super::labels::Labels;
use super::sheet;
use crate::hexadecimal;
use crate::library::Library;
use crate::mapped::Mapped;
use crate::reply::{described, Reply};
use crate::tally::Tally;
use second::graph::Graph;
use second::inspect::inspect;
use second::random::Random;
use second::sheet::BUFFER_LIMIT;
use second::table::Table;
use second::{Refused, ROOM};

/// The ruling on a sheet of no bytes: its head is due.
const NO_SHEET: Refused = (21, 0);

/// What both mappers do: the sheet that the library wrote, or the refusal.
pub type Outcome = Result<Vec<u8>, Refused>;

pub struct Comparison<'a> {
    library: Library<'a>,
    pub random: Random,
    pub tally: Tally,
    pub labels: Labels,
    buffer: Buffer,
}

impl<'a> Comparison<'a> {
    pub fn new(library: Library<'a>, seed: u64) -> Comparison<'a> {
        let mut random = Random::seeded(seed);
        let buffer = Buffer::new(&mut random);
        Comparison { library, random, tally: Tally::default(), labels: Labels::default(), buffer }
    }

    /// A length that is enough, just so or more.
    pub fn enough(&mut self) -> usize {
        match self.random.one_in(2) {
            true => BUFFER_LIMIT,
            false => self.random.between(BUFFER_LIMIT, LONGEST),
        }
    }

    /// A length that is not enough, often by one byte.
    pub fn too_little(&mut self) -> usize {
        match self.random.below(4) {
            0 => 0,
            1 => self.random.below(BUFFER_LIMIT),
            _ => BUFFER_LIMIT - 1,
        }
    }

    /// A table with a buffer that is long enough, and once in so many times with one that is not.
    pub fn check_table(&mut self, table: &Table, short_once_in: usize) -> Result<(), String> {
        let bytes = table.bytes();
        self.check_bytes(&bytes, short_once_in)
    }

    pub fn check_bytes(&mut self, table: &[u8], short_once_in: usize) -> Result<(), String> {
        let length = match self.random.one_in(short_once_in) {
            true => self.too_little(),
            false => self.enough(),
        };
        self.check(table, length).map(drop)
    }

    /// Both readings of a table, and no mapping: too short a buffer shows that it is taken, and so
    /// does a sheet of no bytes. A table that is refused is refused whatever the buffer.
    pub fn check_reading(&mut self, table: &[u8]) -> Result<(), String> {
        let read = Graph::read(table);
        let length = match read.is_err() && self.random.one_in(2) {
            true => self.enough(),
            false => self.too_little(),
        };
        let due = Err(read.as_ref().err().copied().unwrap_or(NO_SHEET));
        let found = (self.library.inspect)(table, &[]);
        if found != due {
            let (table, found, due) = (hexadecimal(table), described(found), described(due));
            return Err(format!("table: {table}\nno sheet\nruling: {found}, due {due}"));
        }
        self.check_read(table, read, length).map(drop)
    }

    /// Both mappers on a table and a buffer of so many bytes.
    pub fn check(&mut self, table: &[u8], length: usize) -> Result<Outcome, String> {
        self.check_read(table, Graph::read(table), length)
    }

    /// The same for a table that the second reader has read.
    fn check_read(
        &mut self,
        table: &[u8],
        read: Result<Graph, Refused>,
        length: usize,
    ) -> Result<Outcome, String> {
        // Room comes last.
        let due = read.and_then(|graph| match length < BUFFER_LIMIT {
            true => Err((ROOM, BUFFER_LIMIT)),
            false => Ok(graph),
        });
        let lent = self.buffer.lend(length, &mut self.random);
        let found = (self.library.map)(table, lent);
        self.tally.count(due.as_ref().map(|_| 0).map_err(|&refused| refused));
        let outcome = match due {
            Ok(graph) => self.check_mapped(graph, found).map(Ok),
            Err(refused) => self.check_refused(refused, found).map(|()| Err(refused)),
        };
        outcome.map_err(|difference| {
            format!("table: {}\nbuffer of {length} bytes\n{difference}", hexadecimal(table))
        })
    }

    fn check_refused(&self, due: Refused, found: Reply) -> Result<(), String> {
        if found != Err(due) {
            return Err(format!("reply: {}, due {}", described(found), described(Err(due))));
        }
        self.buffer.as_before_from(0)
    }

    fn check_mapped(&mut self, graph: Graph, found: Reply) -> Result<Vec<u8>, String> {
        let length = match found {
            Ok(length) if length <= self.buffer.lent().len() => length,
            _ => return Err(format!("reply: {}, due a sheet", described(found))),
        };
        self.buffer.as_before_from(length)?;
        let bytes = self.buffer.lent()[..length].to_vec();
        let mapped = Mapped::of(graph);
        sheet::check(&mapped, &bytes, &mut self.random)?;
        self.labels.count(&mapped);
        self.check_exchange(&mapped, &bytes).map(|()| bytes)
    }

    /// Each inspector accepts the sheet of each mapper.
    fn check_exchange(&self, mapped: &Mapped, bytes: &[u8]) -> Result<(), String> {
        let others = mapped.sheet.bytes();
        let by_library = |sheet: &[u8]| (self.library.inspect)(&mapped.bytes, sheet);
        let replies = [
            ("the library's sheet by the library", by_library(bytes)),
            ("the library's sheet by the second", inspect(&mapped.bytes, bytes)),
            ("the second's sheet by the library", by_library(&others)),
            ("the second's sheet by the second", inspect(&mapped.bytes, &others)),
        ];
        match replies.iter().find(|(_, reply)| *reply != Ok(mapped.sheet.depth)) {
            Some((what, reply)) => Err(format!("exchange: {what}: {}", described(*reply))),
            None => Ok(()),
        }
    }
}
