//! How many gates were labelled, by what their labels are: a sheet has the label and the mapper's
//! cut of each, and the two ways to a label are told apart by p.

use crate::mapped::Mapped;
use second::labels::p;

#[derive(Default)]
pub struct Labels {
    over_inputs: usize,
    at_peak: usize,
    above_peak: usize,
}

impl Labels {
    pub fn count(&mut self, mapped: &Mapped) {
        let (graph, labels) = (&mapped.graph, &mapped.labelled.labels);
        for gate in graph.gates() {
            match p(graph, labels, gate) {
                0 => self.over_inputs += 1,
                p if p == labels[gate] => self.at_peak += 1,
                _ => self.above_peak += 1,
            }
        }
    }

    /// Prints the counts. A kind of gate that was never drawn was never compared.
    pub fn report(&self) -> Result<(), String> {
        let Labels { over_inputs, at_peak, above_peak } = *self;
        println!(
            "mapping: labels of {over_inputs} gates over inputs, {at_peak} with label p, \
             {above_peak} with label p + 1"
        );
        match [over_inputs, at_peak, above_peak].contains(&0) {
            true => Err("a kind of gate was never drawn".to_string()),
            false => Ok(()),
        }
    }
}
