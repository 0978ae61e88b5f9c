//! Sheets with their rulings written down by hand from document 01: each rule at each of its
//! conditions, and lies.

mod lies;
mod rules;
mod shape;

use crate::reply::Reply;
use second::sheet::Sheet;
use second::table::Table;
use second::Refused;

pub struct Edge {
    pub name: String,
    pub table: Table,
    pub sheet: Vec<u8>,
    pub reply: Reply,
}

pub fn all() -> Vec<Edge> {
    let mut edges = Edges(Vec::new());
    shape::add(&mut edges);
    rules::add(&mut edges);
    lies::add(&mut edges);
    edges.0
}

struct Edges(Vec<Edge>);

impl Edges {
    fn add(&mut self, name: &str, table: &Table, sheet: Vec<u8>, reply: Reply) {
        self.0.push(Edge { name: name.to_string(), table: table.clone(), sheet, reply });
    }

    fn refused(&mut self, name: &str, table: &Table, sheet: &Sheet, refused: Refused) {
        self.add(name, table, sheet.bytes(), Err(refused));
    }

    fn accepted(&mut self, name: &str, table: &Table, sheet: &Sheet) {
        self.add(name, table, sheet.bytes(), Ok(sheet.depth));
    }
}
