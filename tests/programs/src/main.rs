//! Runs the lister, the mapper, the inspector and the reader of equations as programs, in a folder
//! of their own, and compares what they write with what the second implementation says that they
//! write; the mapper's sheet with that of the library.
//!
//! `programs quick [SEED]` or `programs long [SEED]`; ends with 1 at the first difference.

mod equations;
mod inspecting;
mod listing;
mod machine;
mod mapping;

use machine::Folder;
use second::random::Random;

const SEED: u64 = 20_231_117;

fn main() {
    let words: Vec<String> = std::env::args().skip(1).collect();
    let rounds = match words.first().map(String::as_str) {
        Some("quick") => 200,
        Some("long") => 5_000,
        _ => usage(),
    };
    let seed = words.get(1).map_or(SEED, |word| word.parse().unwrap_or_else(|_| usage()));
    let folder = Folder::new();
    let mut random = Random::seeded(seed);
    let listed = listing::by_hand(&folder) + listing::drawn(&folder, rounds, &mut random);
    let judged = inspecting::by_hand(&folder) + inspecting::drawn(&folder, rounds, &mut random);
    let mapped = mapping::by_hand(&folder) + mapping::drawn(&folder, rounds, &mut random);
    let compiled = equations::by_hand(&folder) + equations::drawn(&folder, rounds, &mut random);
    println!(
        "programs: {listed} runs of the lister, {judged} of the inspector, {mapped} of the mapper, \
         {compiled} of equations, no difference (seed {seed})"
    );
}

fn usage() -> ! {
    eprintln!("usage: programs quick|long [SEED]");
    std::process::exit(2)
}
