//! The proved crates' algorithm as an ordinary Rust program, to measure them against. The steps
//! are theirs (order by sweeps, one pass back for a walk, flow by pull and sweep, cone tables row
//! by row, evidence found again where it is written), the form is what one would write in Rust.
//!
//! `table` reads a gate table into a `drawing` of any size. `order`, `walk`, `area`, `flow` and
//! `label` give labels and the mapper's cuts; `cone` and `cover` give LUTs; `mapping` writes the
//! sheet and `inspect` judges one. `worklist` has other searches for the flow, and `shapes`
//! drawings for measurements. Every part takes a counter of its steps (`count`).

pub mod area;
pub mod cone;
pub mod count;
pub mod cover;
pub mod drawing;
mod fields;
pub mod flow;
mod ids;
pub mod inspect;
pub mod label;
pub mod mapping;
pub mod order;
pub mod shapes;
pub mod table;
pub mod walk;
pub mod worklist;

pub use count::{Count, Silent, Step, Steps};
pub use drawing::Drawing;
pub use ids::Ids;

/// A refusal: document 01's number and place.
#[derive(Clone, Copy, Debug, PartialEq, Eq)]
pub struct Refusal {
    pub number: u8,
    pub place: usize,
}

/// Maps a gate table into the sheet buffer, and answers the sheet's length.
pub fn map(table: &[u8], sheet: &mut [u8]) -> Result<usize, Refusal> {
    mapping::map(table, sheet, &mut Silent)
}

/// Judges a sheet for a gate table, and answers the depth of one that is accepted.
pub fn inspect(table: &[u8], sheet: &[u8]) -> Result<usize, Refusal> {
    inspect::inspect(table, sheet, &mut Silent)
}
