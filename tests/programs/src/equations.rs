//! The program that reads equations.

use crate::machine::{same, Folder};
use second::equations::TEXT_LIMIT;
use second::listing::equations_listing;
use second::random::texts::{text, NAMES};
use second::random::Random;
use std::fs;
use std::path::Path;

const EXAMPLES: &str = concat!(env!("CARGO_MANIFEST_DIR"), "/../../examples");

/// The file of the second argument.
const FILE: &str = "made";
/// What stands in it beforehand, where something does.
const BEFORE: &[u8] =
    b"as it was before, and longer than a table of a few gates would be: 0123456789";

const MUX: &str = "in a b s;\nf = a*!s + b*s;\nout f;\n";
const MUX_LISTED: &str = "\
K 3 inputs 3 gates 4 luts 1 depth 1
lut 6 depth 1 leaves 0 1 2 table 00000000000000CA
output 6 depth 1
";

/// A text, the first argument, and what is printed.
type Case = (Vec<u8>, Option<&'static str>, String);

/// What is due by hand, and the examples; how many.
pub fn by_hand(folder: &Folder) -> usize {
    let (known, examples) = (known(), examples());
    for (text, k, due) in &known {
        same("what is due", &[text], equations_listing(text, *k).0.as_str(), due);
        run(folder, text, *k, None);
        run(folder, text, *k, Some(BEFORE));
    }
    for (at, (text, k)) in examples.iter().enumerate() {
        run(folder, text, Some(*k), (at % 2 == 0).then_some(BEFORE));
    }
    without_a_file(folder);
    2 * known.len() + examples.len() + 1
}

fn known() -> Vec<Case> {
    let case = |text: &str, k, due: &str| (text.as_bytes().to_vec(), k, due.to_string());
    let mut cases = vec![
        case(MUX, Some("3"), MUX_LISTED),
        case("in a;out a;", Some("2"), "K 2 inputs 1 gates 0 luts 0 depth 0\noutput 0 depth 0\n"),
        case("", Some("3"), "refused 41 at 0\n"),
        case("", None, "refused 41 at 0\n"),
        case("in a;out b;", Some("3"), "refused 42 at 9\n"),
        case("in a;out b;", None, "refused 42 at 9\n"),
        case("in a;f=a*f;out f;", Some("3"), "refused 7 at 1\n"),
        case("in a;f=a*f;out f;", Some("7"), "refused 43 at 0\n"),
    ];
    // K is one decimal digit; all else is 0.
    for k in ["", "0", "1", "7", "9", "x", "03", "33", "3 ", " 3", "+3", "-3", "3x", ":", "/", "K"]
    {
        cases.push(case(MUX, Some(k), "refused 43 at 0\n"));
    }
    cases.push(case(MUX, None, "refused 43 at 0\n"));
    // The 8,193rd byte is read, so that it is noticed, and no more.
    let filled = |length: usize| format!("{MUX}{}", "\n".repeat(length - MUX.len()));
    cases.push(case(&filled(TEXT_LIMIT), Some("3"), MUX_LISTED));
    for length in [TEXT_LIMIT + 1, TEXT_LIMIT + 2, 100_000] {
        cases.push(case(&filled(length), Some("3"), "refused 41 at 8192\n"));
        cases.push(case(&filled(length), None, "refused 41 at 8192\n"));
        cases.push(case(&"#".repeat(length), Some("3"), "refused 41 at 8192\n"));
    }
    cases.push(case(&"#".repeat(TEXT_LIMIT), Some("3"), "refused 41 at 0\n"));
    cases.push((vec![0; 100], Some("3"), "refused 41 at 0\n".to_string()));
    cases.push((b"in \xE4;out \xE4;".to_vec(), Some("3"), "refused 41 at 3\n".to_string()));
    cases
}

/// The texts of the folder `examples`, each at every K.
fn examples() -> Vec<(Vec<u8>, &'static str)> {
    let files = fs::read_dir(Path::new(EXAMPLES)).expect("the folder is there");
    let paths = files.map(|file| file.expect("it can be listed").path());
    let texts = paths.filter(|path| path.extension().map_or(false, |end| end == "eq"));
    let texts: Vec<Vec<u8>> = texts.map(|path| fs::read(path).expect("it is a file")).collect();
    assert!(texts.len() >= 15, "examples are missing");
    let every_k = ["2", "3", "4", "5", "6"];
    texts.iter().flat_map(|text| every_k.map(|k| (text.clone(), k))).collect()
}

/// No file is written without a second argument.
fn without_a_file(folder: &Folder) {
    folder.set(FILE, None);
    let printed = folder.run_with("equations", &["3"], MUX.as_bytes());
    same("the listing", &[MUX.as_bytes()], printed.as_str(), MUX_LISTED);
    same("the file", &[MUX.as_bytes()], &folder.get(FILE), &None);
}

/// Texts at random; how many.
pub fn drawn(folder: &Folder, rounds: usize, random: &mut Random) -> usize {
    for round in 0..rounds {
        let mut text = text(random, NAMES[round % NAMES.len()]);
        if round % 3 == 0 {
            let at = random.below(text.len());
            text[at] = *random.pick(b"ainout1;=!*+()# \t\r\n\xFF");
        }
        let every = [Some("2"), Some("3"), Some("4"), Some("5"), Some("6"), Some("8"), None];
        run(folder, &text, *random.pick(&every), (round % 2 == 0).then_some(BEFORE));
    }
    rounds
}

/// What is printed is due. The file then has the table's bytes and no others, of which the lister
/// makes the same listing; or it is as it was before, and not there if it was not.
fn run(folder: &Folder, text: &[u8], k: Option<&str>, before: Option<&[u8]>) {
    let (due, table) = equations_listing(text, k);
    let arguments: Vec<&str> = k.map_or(Vec::new(), |k| vec![k, FILE]);
    folder.set(FILE, before);
    let printed = folder.run_with("equations", &arguments, text);
    same("the listing", &[text], printed.as_str(), &due);
    let written = folder.get(FILE);
    match &table {
        Some(table) => {
            same("the file", &[text], &written.as_ref(), &Some(table));
            same("the file's listing", &[text], folder.run("lister", table).as_str(), &due);
        }
        None => same("the file", &[text], &written.as_deref(), &before),
    }
    folder.set(FILE, None);
}
