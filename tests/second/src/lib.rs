//! A second implementation of document 01, written from the document alone. It shares nothing
//! with the proved crates, so that a misreading on either side shows as a difference.
//!
//! `table` reads and writes gate tables, `graph` is the drawing without its bytes. `cuts`,
//! `labels` (with `flow` under it), `evidence` and `mapping` are the paper's section on cuts,
//! covers and labels. `sheet` has the mapping sheet and the mapper, `inspect` the inspector,
//! `listing` what the programs print. `random` draws drawings and sheets, true and damaged,
//! and `checks` says what must hold of each, with the help of `opinion`.
//!
//! `equations` is the front end of the first change request, written from the request and the points
//! that were settled about it.

pub mod checks;
pub mod cuts;
pub mod drawings;
pub mod equations;
pub mod evidence;
pub mod flow;
pub mod graph;
pub mod inspect;
pub mod labels;
pub mod listing;
pub mod mapping;
pub mod nodes;
pub mod opinion;
pub mod random;
pub mod sheet;
pub mod table;
pub mod words;

/// A refusal: the paper's number and the place.
pub type Refused = (u32, usize);

/// The number of the refusal of a drawing in which some gate reaches itself.
pub const LOOP: u32 = 7;
/// The number of the refusal of a buffer that is too short.
pub const ROOM: u32 = 8;
