//! Tools from outside, where they are installed: Yosys with its pass `flowmap`, and ABC.

use crate::process;
use std::path::Path;
use std::process::Command;
use std::time::{Duration, Instant};

const LIMIT: Duration = Duration::from_secs(300);

/// A pass is repeated so often when it is timed, and the least of so many times is taken.
const REPEATS: usize = 5;
const TIMES: usize = 3;

#[derive(Clone, Copy, Debug, PartialEq, Eq)]
pub enum Tool {
    Yosys,
    Abc,
}

/// What Yosys makes of a network: cells before mapping, LUTs and their depth after it.
#[derive(Clone, Copy, Debug, PartialEq, Eq)]
pub struct Flowmapped {
    pub cells: usize,
    pub luts: usize,
    pub depth: usize,
}

/// What ABC makes of a network: nodes of its graph of ANDs before mapping, and the depth after it.
#[derive(Clone, Copy, Debug, PartialEq, Eq)]
pub struct Mapped {
    pub ands: usize,
    pub depth: usize,
}

impl Tool {
    /// The tool's own word on its version, if it is installed.
    pub fn version(self) -> Option<String> {
        let (printed, word) = match self {
            Tool::Yosys => (process::run(Command::new("yosys").arg("-V"), LIMIT), "Yosys"),
            Tool::Abc => (self.run("version"), "UC Berkeley, ABC"),
        };
        let printed = printed.ok()?;
        printed.lines().find(|line| line.starts_with(word)).map(String::from)
    }

    /// Runs a script and answers what it printed.
    fn run(self, script: &str) -> Result<String, String> {
        let mut command = match self {
            Tool::Yosys => Command::new("yosys"),
            Tool::Abc => Command::new("berkeley-abc"),
        };
        command.args([if self == Tool::Yosys { "-p" } else { "-c" }, script]);
        process::run(&mut command, LIMIT)
    }

    /// The milliseconds of mapping a network: a script that maps it some times, less the same
    /// script without the mapping.
    pub fn milliseconds(self, gates: &Path, k: usize) -> Result<f64, String> {
        let gates = gates.display();
        let (read, pass) = match self {
            Tool::Yosys => (format!("read_blif {gates}; "), flowmap(k)),
            Tool::Abc => (format!("read_blif {gates}; strash; "), format!("if -K {k}; ")),
        };
        let reset = if self == Tool::Yosys { "design -reset; " } else { "" };
        let with = self.seconds(&format!("{read}{pass}{reset}").repeat(REPEATS))?;
        let without = self.seconds(&format!("{read}{reset}").repeat(REPEATS))?;
        Ok((with - without) * 1e3 / REPEATS as f64)
    }

    fn seconds(self, script: &str) -> Result<f64, String> {
        let time = |_| {
            let start = Instant::now();
            self.run(script).map(|_| start.elapsed().as_secs_f64())
        };
        let times: Result<Vec<f64>, String> = (0..TIMES).map(time).collect();
        Ok(times?.into_iter().fold(f64::INFINITY, f64::min))
    }
}

/// BLIF's gates are cells `$lut` in Yosys, of any function, which `flowmap` takes if told to.
fn flowmap(k: usize) -> String {
    format!("flowmap -cells $lut -maxlut {k}; ")
}

/// Yosys' `flowmap` of a network that has gates.
pub fn flowmapped(gates: &Path, k: usize) -> Result<Flowmapped, String> {
    let printed =
        Tool::Yosys.run(&format!("read_blif {}; stat; {}", gates.display(), flowmap(k)))?;
    let found = || {
        Some(Flowmapped {
            cells: number_after(&printed, "Number of cells:")?,
            luts: number_after(&printed, "Mapped to ")?,
            depth: number_after(&printed, "with maximum depth ")?,
        })
    };
    found().ok_or_else(|| format!("Yosys said something else:\n{printed}"))
}

/// ABC's `if` of a network, with so many cuts kept at a node.
pub fn mapped_by_abc(gates: &Path, k: usize, cuts: usize) -> Result<Mapped, String> {
    let script = format!(
        "read_blif {}; strash; print_stats; if -K {k} -C {cuts}; print_stats",
        gates.display()
    );
    let printed = Tool::Abc.run(&script)?;
    let found = || {
        let ands = number_after(&printed, " and =")?;
        let after = printed.rsplit(" nd =").next()?;
        Some(Mapped { ands, depth: number_after(after, "lev =")? })
    };
    found().ok_or_else(|| format!("ABC said something else:\n{printed}"))
}

/// Whether ABC's `cec` finds two networks equal.
pub fn are_equal(one: &Path, other: &Path) -> Result<bool, String> {
    let printed = Tool::Abc.run(&format!("cec {} {}", one.display(), other.display()))?;
    match (printed.contains("are equivalent"), printed.contains("NOT EQUIVALENT")) {
        (true, false) => Ok(true),
        (false, true) => Ok(false),
        _ => Err(format!("ABC said something else:\n{printed}")),
    }
}

/// The number that follows the first of these words in a text.
fn number_after(text: &str, words: &str) -> Option<usize> {
    let after = text.split(words).nth(1)?.trim_start();
    let digits = after.split(|letter: char| !letter.is_ascii_digit()).next()?;
    digits.parse().ok()
}

#[cfg(test)]
mod tests {
    use super::*;

    #[test]
    fn numbers_are_found() {
        let printed = "Mapped to 3 LUTs with maximum depth 12.\n";
        assert_eq!(number_after(printed, "Mapped to "), Some(3));
        assert_eq!(number_after(printed, "with maximum depth "), Some(12));
        assert_eq!(number_after("lat =    0  nd =     3", "nd ="), Some(3));
        assert_eq!(number_after(printed, "Number of cells:"), None);
    }
}
