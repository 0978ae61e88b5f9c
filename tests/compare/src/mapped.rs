//! A drawing with what the second mapper makes of it.

use second::graph::Graph;
use second::labels::{labelled, Labelled};
use second::sheet::{mapped_with, Sheet};
use second::table::Table;

pub struct Mapped {
    pub graph: Graph,
    /// The gate table.
    pub bytes: Vec<u8>,
    pub labelled: Labelled,
    pub sheet: Sheet,
}

impl Mapped {
    pub fn of(graph: Graph) -> Mapped {
        let labelled = labelled(&graph);
        let sheet = mapped_with(&graph, &labelled);
        Mapped { bytes: graph.table.bytes(), graph, labelled, sheet }
    }

    /// Nothing for a drawing with a loop.
    pub fn of_table(table: Table) -> Option<Mapped> {
        Graph::new(table).ok().map(Mapped::of)
    }
}
