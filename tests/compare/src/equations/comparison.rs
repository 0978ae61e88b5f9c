//! One text by both sides: the reply, the table and every byte of the buffer are compared; then the
//! table's values with those of the equations, and the mapper is given the table.

use crate::library::Library;
use crate::mapping::buffer::{Buffer, LONGEST};
use crate::mapping::sheet::settings;
use crate::reply::{described, Reply};
use crate::tally::Tally;
use second::equations::system::System;
use second::equations::{compile, values, REQUEST, TABLE_ROOM};
use second::graph::Graph;
use second::mapping::gate_words;
use second::random::Random;
use second::sheet::BUFFER_LIMIT;
use second::Refused;

/// With so many inputs every setting is tried.
const FEW_INPUTS: usize = 8;
/// With more, so many times 64 settings.
const BLOCKS: usize = 4;

/// The numbers that K is taken for if it is cut to 8 or to 32 bits, and others that are no K.
const NO_K: [u64; 9] = [0, 1, 7, 8, 255, 256 + 3, (1 << 32) + 3, u64::MAX - 252, u64::MAX];

/// What both readers do: the table, or the refusal.
pub type Outcome = Result<Vec<u8>, Refused>;

pub struct Comparison<'a> {
    library: Library<'a>,
    pub random: Random,
    pub tally: Tally,
    buffer: Buffer,
    sheet: Vec<u8>,
}

impl<'a> Comparison<'a> {
    pub fn new(library: Library<'a>, seed: u64) -> Comparison<'a> {
        let mut random = Random::seeded(seed);
        let buffer = Buffer::new(&mut random);
        let sheet = vec![0; BUFFER_LIMIT];
        Comparison { library, random, tally: Tally::default(), buffer, sheet }
    }

    /// A text with a K that is mostly good, and a buffer that mostly is long enough.
    pub fn check_text(&mut self, text: &[u8]) -> Result<(), String> {
        let k = match self.random.one_in(24) {
            true => *self.random.pick(&NO_K),
            false => self.random.between(2, 6) as u64,
        };
        let length = match self.random.below(48) {
            0 => 0,
            1 => TABLE_ROOM - 1,
            2 => self.random.below(TABLE_ROOM),
            3 => self.random.between(TABLE_ROOM, LONGEST),
            _ => TABLE_ROOM,
        };
        self.check(text, k, length).map(drop)
    }

    /// Both readers on a text, a K and a buffer of so many bytes.
    pub fn check(&mut self, text: &[u8], k: u64, length: usize) -> Result<Outcome, String> {
        let due = compile(text, k, length);
        let lent = self.buffer.lend(length, &mut self.random);
        let found = (self.library.equations)(text, k, lent);
        self.tally.count(due.as_ref().map(Vec::len).map_err(|&refused| refused));
        let checked = match &due {
            Ok(table) => self.check_table(text, table, found),
            Err(refused) => self.check_refused(*refused, found),
        };
        let shown = text.escape_ascii();
        let told = |difference| format!("text: {shown}\nK {k}, buffer of {length}\n{difference}");
        checked.map_err(told).map(|()| due)
    }

    fn check_refused(&self, due: Refused, found: Reply) -> Result<(), String> {
        if found != Err(due) {
            return Err(format!("reply: {}, due {}", described(found), described(Err(due))));
        }
        self.buffer.as_before_from(0)
    }

    fn check_table(&mut self, text: &[u8], due: &[u8], found: Reply) -> Result<(), String> {
        if found != Ok(due.len()) {
            return Err(format!("reply: {}, due {}", described(found), described(Ok(due.len()))));
        }
        self.buffer.as_before_from(due.len())?;
        let table = &self.buffer.lent()[..due.len()];
        if table != due {
            return Err(format!("table: {table:?}\ndue {due:?}"));
        }
        same_values(text, table, &mut self.random)?;
        match (self.library.map)(table, &mut self.sheet) {
            Ok(_) => Ok(()),
            refused => Err(format!("map: the table is {}", described(refused))),
        }
    }
}

/// The gates give each output the value that the equations give it.
pub fn same_values(text: &[u8], table: &[u8], random: &mut Random) -> Result<(), String> {
    let system = System::read(REQUEST, text).ok_or("values: no text")?;
    let graph = Graph::read(table).map_err(|refused| format!("values: no table: {refused:?}"))?;
    for words in settings(system.inputs.len(), FEW_INPUTS, BLOCKS, random) {
        let by_gates = gate_words(&graph, &words);
        let by_gates = graph.table.outputs.iter().map(|&node| by_gates[node]).collect();
        if values::outputs(&system, &words) != Some(by_gates) {
            return Err(format!("values: with inputs {words:x?}"));
        }
    }
    Ok(())
}
