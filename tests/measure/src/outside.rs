//! Asks Yosys and ABC about the library's sheets: the depth, and whether the LUTs are the gates.
//! They are given BLIF of the gates that an output needs, and of the sheet's LUTs.
//!
//! Yosys' `flowmap` must find our depth: gates become cells `$lut`, which it takes as they are, and
//! it knows no rewriting. Three things would spoil it, and are kept out (blif.rs): it counts gates
//! that no output needs; its reader drops a gate that only repeats its fanin, so such a gate is
//! written as an AND of the fanin with itself; it takes a gate without rows for unknown, so a
//! constant is written row by row. Its number of LUTs is noted and not demanded: nothing says that
//! its cut is the one with the largest cone.
//!
//! ABC's `cec` must find the LUTs equal to the gates, on every drawing.
//!
//! ABC's `if` works on a graph of two-input ANDs that it makes first. On drawings of such ANDs with
//! inverters at their pins, of which no two read the same pair, that graph has one node a gate.
//! There its depth can't be less than ours, and with enough cuts must be equal; with the usual 8 it
//! may miss the best cut and be greater. On other gates its depth is noted only. It may be less: a
//! LUT may end inside a gate that was taken apart, and functions are simplified (AND(x,x) goes). It
//! may be greater: 8 cuts are too few; or a node's complement stands at two outputs beside the node
//! itself, and the second is made a buffer of the first and counted as a level.

use crate::ands::{drawing, Form};
use crate::blif;
use crate::drawings::all;
use crate::scratch::Scratch;
use crate::subject::sheet_of;
use crate::tools::{are_equal, flowmapped, mapped_by_abc, Tool};
use second::random::{shapes, Random};
use second::sheet::Sheet;
use second::table::{read, Table, NODE_LIMIT};
use std::cmp::Ordering;

/// How many drawings are drawn at random, of any shape and of ANDs alone.
#[derive(Clone, Copy)]
pub struct Size {
    pub any: usize,
    pub ands: usize,
    /// Whether those of full size are asked about too.
    pub full: bool,
}

/// ABC keeps 8 cuts at a node, which may miss the best one. So many miss none that matters here.
const USUAL_CUTS: usize = 8;
const MANY_CUTS: usize = 1_000;

/// How often ABC's depth was less than ours, equal and greater.
#[derive(Default)]
struct Depths {
    less: usize,
    equal: usize,
    greater: usize,
}

impl Depths {
    fn add(&mut self, theirs: usize, ours: usize) {
        match theirs.cmp(&ours) {
            Ordering::Less => self.less += 1,
            Ordering::Equal => self.equal += 1,
            Ordering::Greater => self.greater += 1,
        }
    }

    fn text(&self) -> String {
        format!("{} less, {} equal, {} greater", self.less, self.equal, self.greater)
    }
}

/// What the tools said so far.
#[derive(Default)]
struct Said {
    flowmap_equal: usize,
    flowmap_luts: Depths,
    gateless: usize,
    networks_equal: usize,
    inputs_out: usize,
    any: Depths,
    ands_usual: Depths,
    ands_many: Depths,
}

/// A drawing, its name, and the library's sheet of it.
struct Asked {
    name: String,
    table: Table,
    sheet: Sheet,
}

/// Checks what the installed tools can check, and prints how much that was.
pub fn check(size: Size, seed: u64) -> Result<(), String> {
    let [yosys, abc] = [Tool::Yosys, Tool::Abc].map(Tool::version);
    let shown =
        |version: &Option<String>| version.clone().unwrap_or_else(|| "not installed".into());
    println!("outside: seed {seed}; yosys: {}; berkeley-abc: {}", shown(&yosys), shown(&abc));
    if yosys.is_none() && abc.is_none() {
        println!("outside: nothing checked");
        return Ok(());
    }
    let (scratch, mut said) = (Scratch::new()?, Said::default());
    let mut random = Random::seeded(seed);
    for asked in paper_and_full(size.full)?.into_iter().chain(any_shapes(size.any, &mut random)?) {
        write_networks(&scratch, &asked)?;
        ask_flowmap(yosys.is_some(), &scratch, &asked, &mut said)?;
        ask_abc(abc.is_some(), &scratch, &asked, &mut said)?;
    }
    for asked in only_ands(size.ands, &mut random)? {
        write_networks(&scratch, &asked)?;
        ask_flowmap(yosys.is_some(), &scratch, &asked, &mut said)?;
        ask_abc_of_ands(abc.is_some(), &scratch, &asked, &mut said)?;
    }
    print(&said, yosys.is_some(), abc.is_some());
    Ok(())
}

fn print(said: &Said, yosys: bool, abc: bool) {
    if yosys {
        println!("outside: Yosys' flowmap: {} depths equal to ours", said.flowmap_equal);
        println!("outside: its number of LUTs: {}", said.flowmap_luts.text());
        println!("outside: {} drawings without needed gates not asked about", said.gateless);
    }
    if abc {
        println!("outside: ABC's cec: {} LUT networks equal to their gates", said.networks_equal);
        println!("outside: ABC's if, any gates, depth: {}", said.any.text());
        println!("outside: {} drawings with an input as output not asked about", said.inputs_out);
        println!("outside: ABC's if, only ANDs, {USUAL_CUTS} cuts: {}", said.ands_usual.text());
        println!("outside: ABC's if, only ANDs, {MANY_CUTS} cuts: {}", said.ands_many.text());
    }
}

/// The drawing with its sheet; none for a table that the library refuses.
fn asked(name: String, table: Table) -> Result<Option<Asked>, String> {
    let bytes = match sheet_of(&table.bytes()) {
        Ok(bytes) => bytes,
        // Loops are drawn at random too.
        Err(refusal) if refusal.number == 7 => return Ok(None),
        Err(refusal) => return Err(format!("{name}: {refusal}")),
    };
    let sheet = second::sheet::read(&table, &bytes);
    let sheet = sheet.map_err(|refused| format!("{name}: its sheet is refused: {refused:?}"))?;
    Ok(Some(Asked { name, table, sheet }))
}

/// P1 to P7, and the drawings of full size that are measured.
fn paper_and_full(full: bool) -> Result<Vec<Asked>, String> {
    let paper = second::drawings::paper().into_iter().map(|one| (one.name.to_string(), one.table));
    let full = all().into_iter().filter(|_| full).map(|one| {
        let table = read(&one.bytes).table().expect("what is measured is a table");
        (one.name, table)
    });
    paper.chain(full).filter_map(|(name, table)| asked(name, table).transpose()).collect()
}

fn any_shapes(count: usize, random: &mut Random) -> Result<Vec<Asked>, String> {
    let draw = |at: usize| {
        let nodes = random.between(2, if at % 8 == 0 { NODE_LIMIT } else { 60 });
        asked(format!("random drawing {at}"), shapes::any(nodes, random)).transpose()
    };
    (0..count).filter_map(draw).collect()
}

fn only_ands(count: usize, random: &mut Random) -> Result<Vec<Asked>, String> {
    let draw = |at: usize| {
        let nodes = random.between(12, if at % 8 == 0 { NODE_LIMIT } else { 80 });
        let (k, inputs) = (random.between(2, 6), random.between(4, 10));
        let reach = random.between(4, 16);
        let table = drawing(Form { k, nodes, inputs, reach }, random);
        asked(format!("drawing of ANDs {at}"), table).transpose()
    };
    (0..count).filter_map(draw).collect()
}

fn write_networks(scratch: &Scratch, asked: &Asked) -> Result<(), String> {
    scratch.write(&scratch.gates(), &blif::gates(&asked.table))?;
    scratch.write(&scratch.luts(), &blif::luts(&asked.table, &asked.sheet.luts))
}

/// Yosys sees the gates that an output needs, and finds our depth. Its number of LUTs is noted.
fn ask_flowmap(
    installed: bool,
    scratch: &Scratch,
    asked: &Asked,
    said: &mut Said,
) -> Result<(), String> {
    if !installed {
        return Ok(());
    }
    let gates = blif::needed(&asked.table).len();
    if gates == 0 {
        said.gateless += 1;
        return Ok(());
    }
    let theirs = flowmapped(&scratch.gates(), asked.table.k)?;
    if (theirs.cells, theirs.depth) != (gates, asked.sheet.depth) {
        let ours = asked.sheet.depth;
        return Err(differs(asked, &format!("{theirs:?}; our depth {ours} over {gates} gates")));
    }
    said.flowmap_equal += 1;
    said.flowmap_luts.add(theirs.luts, asked.sheet.luts.len());
    Ok(())
}

/// ABC finds the LUTs equal to the gates. Its depth is over another structure, and is noted, but
/// for an output that is an input, where it counts a buffer as a level.
fn ask_abc(
    installed: bool,
    scratch: &Scratch,
    asked: &Asked,
    said: &mut Said,
) -> Result<(), String> {
    if !installed {
        return Ok(());
    }
    if !are_equal(&scratch.gates(), &scratch.luts())? {
        return Err(differs(asked, "ABC finds the LUTs unequal to the gates"));
    }
    said.networks_equal += 1;
    if asked.table.outputs.iter().any(|&output| output < asked.table.inputs) {
        said.inputs_out += 1;
        return Ok(());
    }
    let theirs = mapped_by_abc(&scratch.gates(), asked.table.k, USUAL_CUTS)?;
    said.any.add(theirs.depth, asked.sheet.depth);
    Ok(())
}

/// Where ABC's graph is ours node for node, its depth is never less, and with many cuts no greater.
fn ask_abc_of_ands(
    installed: bool,
    scratch: &Scratch,
    asked: &Asked,
    said: &mut Said,
) -> Result<(), String> {
    if !installed {
        return Ok(());
    }
    if !are_equal(&scratch.gates(), &scratch.luts())? {
        return Err(differs(asked, "ABC finds the LUTs unequal to the gates"));
    }
    said.networks_equal += 1;
    let (gates, ours) = (blif::needed(&asked.table).len(), asked.sheet.depth);
    let usual = mapped_by_abc(&scratch.gates(), asked.table.k, USUAL_CUTS)?;
    let many = mapped_by_abc(&scratch.gates(), asked.table.k, MANY_CUTS)?;
    if usual.ands != gates || usual.depth < ours || many.depth != ours {
        let text = format!("{usual:?}, {many:?}; our depth {ours} over {gates} gates");
        return Err(differs(asked, &text));
    }
    said.ands_usual.add(usual.depth, ours);
    said.ands_many.add(many.depth, ours);
    Ok(())
}

fn differs(asked: &Asked, what: &str) -> String {
    format!("{}: {what}\n{}", asked.name, blif::gates(&asked.table))
}

#[cfg(test)]
mod tests {
    use super::*;
    use second::drawings::named;

    fn planted(name: &str, plant: impl FnOnce(&mut Asked)) -> (Scratch, Asked) {
        let mut asked = asked(name.to_string(), named(name)).unwrap().unwrap();
        plant(&mut asked);
        // A folder for each test, which run at once.
        let scratch = Scratch::named(&format!("test-{name}-{}", asked.sheet.depth)).unwrap();
        write_networks(&scratch, &asked).unwrap();
        (scratch, asked)
    }

    /// Where the tools are not installed there is nothing to see.
    #[test]
    fn a_wrong_depth_is_noticed() {
        if Tool::Yosys.version().is_some() {
            let (scratch, asked) = planted("P1", |_| ());
            assert_eq!(ask_flowmap(true, &scratch, &asked, &mut Said::default()), Ok(()));
            let (scratch, asked) = planted("P1", |asked| asked.sheet.depth += 1);
            assert!(ask_flowmap(true, &scratch, &asked, &mut Said::default()).is_err());
        }
        if Tool::Abc.version().is_some() {
            let (scratch, asked) = planted("P5 at K 2", |_| ());
            assert_eq!(ask_abc_of_ands(true, &scratch, &asked, &mut Said::default()), Ok(()));
            for depth in [1, 3] {
                let (scratch, asked) = planted("P5 at K 2", |asked| asked.sheet.depth = depth);
                assert!(ask_abc_of_ands(true, &scratch, &asked, &mut Said::default()).is_err());
            }
        }
    }

    #[test]
    fn a_wrong_table_is_noticed() {
        if Tool::Abc.version().is_some() {
            let (scratch, asked) = planted("P4", |_| ());
            assert_eq!(ask_abc(true, &scratch, &asked, &mut Said::default()), Ok(()));
            let (scratch, asked) = planted("P4", |asked| asked.sheet.luts[0].rows ^= 1);
            assert!(ask_abc(true, &scratch, &asked, &mut Said::default()).is_err());
        }
    }
}
