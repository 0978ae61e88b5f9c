//! How many cases of each kind ran, and how often each reply was due.

use crate::reply::Reply;

/// No refusal has a number as large as this.
const NUMBERS: usize = 44;

pub struct Tally {
    kinds: Vec<(&'static str, usize)>,
    /// By the paper's number, 0 standing for what is done.
    replies: [usize; NUMBERS],
}

impl Default for Tally {
    fn default() -> Tally {
        Tally { kinds: Vec::new(), replies: [0; NUMBERS] }
    }
}

impl Tally {
    /// Cases are of this kind from now on.
    pub fn begin(&mut self, kind: &'static str) {
        self.kinds.push((kind, 0));
    }

    /// One more case, to which this reply is due.
    pub fn count(&mut self, due: Reply) {
        if let Some((_, cases)) = self.kinds.last_mut() {
            *cases += 1;
        }
        self.replies[due.map_or_else(|(number, _)| number as usize, |_| 0)] += 1;
    }

    /// How many cases this reply was due to, by the paper's number, or 0 for those done.
    pub fn due(&self, number: usize) -> usize {
        self.replies[number]
    }

    /// Prints the counts. A reply that was never due was never compared, and a kind without cases
    /// never ran: each counts as a failure.
    pub fn report(&self, subject: &str, numbers: &[usize]) -> Result<(), String> {
        let kinds = self.kinds.iter().map(|(kind, cases)| format!("{cases} {kind}"));
        println!("{subject}: {}", joined(kinds));
        let replies = numbers.iter().map(|&number| match number {
            0 => format!("done {}", self.replies[0]),
            _ => format!("{number}: {}", self.replies[number]),
        });
        println!("{subject}: replies {}", joined(replies));
        let cases: usize = self.kinds.iter().map(|&(_, cases)| cases).sum();
        println!("{subject}: {cases} cases, no difference");
        if let Some((kind, _)) = self.kinds.iter().find(|&&(_, cases)| cases == 0) {
            return Err(format!("no case of the kind '{kind}'"));
        }
        match numbers.iter().find(|&&number| self.replies[number] == 0) {
            Some(number) => Err(format!("no case has the reply {number}")),
            None => Ok(()),
        }
    }
}

fn joined(parts: impl Iterator<Item = String>) -> String {
    parts.collect::<Vec<_>>().join(", ")
}
