//! The library, through the package that Rust programs call it by.

use crate::reply::Reply;
use second::Refused;

/// A mapper, an inspector and a reader of equations with the library's faces. Tests put wrong ones
/// in its place, to see that they are noticed.
#[derive(Clone, Copy)]
pub struct Library<'a> {
    pub map: &'a dyn Fn(&[u8], &mut [u8]) -> Reply,
    pub inspect: &'a dyn Fn(&[u8], &[u8]) -> Reply,
    /// A text, K and the buffer for the table.
    pub equations: &'a dyn Fn(&[u8], u64, &mut [u8]) -> Reply,
}

/// The library itself.
pub const LINKED: Library = Library { map: &map, inspect: &inspect, equations: &equations };

fn map(table: &[u8], sheet: &mut [u8]) -> Reply {
    plover::map(table, sheet).length().map_err(refused)
}

fn inspect(table: &[u8], sheet: &[u8]) -> Reply {
    plover::inspect(table, sheet).depth().map(|depth| depth as usize).map_err(refused)
}

fn equations(text: &[u8], k: u64, table: &mut [u8]) -> Reply {
    plover::equations(text, k, table).length().map_err(refused)
}

fn refused(refusal: plover::Refusal) -> Refused {
    (refusal.number, refusal.place as usize)
}
