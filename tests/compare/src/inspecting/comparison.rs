//! One ruling by both sides.

use crate::hexadecimal;
use crate::library::Library;
use crate::mapped::Mapped;
use crate::reply::{described, Reply};
use crate::tally::Tally;
use second::graph::Graph;
use second::inspect::{inspect, judge};
use second::random::Random;
use second::sheet::read;

pub struct Comparison<'a> {
    library: Library<'a>,
    pub random: Random,
    pub tally: Tally,
}

impl<'a> Comparison<'a> {
    pub fn new(library: Library<'a>, seed: u64) -> Comparison<'a> {
        Comparison { library, random: Random::seeded(seed), tally: Tally::default() }
    }

    pub fn check(&mut self, mapped: &Mapped, sheet: &[u8]) -> Result<(), String> {
        self.ruling(mapped, sheet).map(drop)
    }

    /// Both rulings on a sheet for a drawing. One that is accepted has the drawing's least depth.
    pub fn ruling(&mut self, mapped: &Mapped, sheet: &[u8]) -> Result<Reply, String> {
        let due = second_ruling(&mapped.graph, sheet);
        self.check_due(&mapped.bytes, sheet, due)?;
        match due {
            Ok(depth) if depth != mapped.sheet.depth => {
                let (table, sheet) = (hexadecimal(&mapped.bytes), hexadecimal(sheet));
                Err(format!("table: {table}\nsheet: {sheet}\nnot least: {depth} was accepted"))
            }
            _ => Ok(due),
        }
    }

    /// A sheet and bytes that may be no table.
    pub fn check_bytes(&mut self, table: &[u8], sheet: &[u8]) -> Result<(), String> {
        self.check_due(table, sheet, inspect(table, sheet))
    }

    /// A sheet with the ruling that is due to it.
    pub fn check_due(&mut self, table: &[u8], sheet: &[u8], due: Reply) -> Result<(), String> {
        let found = (self.library.inspect)(table, sheet);
        self.tally.count(due);
        if found == due {
            return Ok(());
        }
        let (table, sheet) = (hexadecimal(table), hexadecimal(sheet));
        let (found, due) = (described(found), described(due));
        Err(format!("table: {table}\nsheet: {sheet}\nruling: {found}, due {due}"))
    }
}

/// The second inspector's ruling on a drawing that it need not read again.
fn second_ruling(graph: &Graph, bytes: &[u8]) -> Reply {
    let sheet = read(&graph.table, bytes)?;
    judge(graph, &sheet)?;
    Ok(sheet.depth)
}
