//! Links the static library: in a release that of its folder `lib`, else the one that `./make plover`
//! makes. PLOVER_FOLDER names another folder that holds a `libplover.a`.

use std::env;
use std::path::Path;

fn main() {
    let folder = env::var("PLOVER_FOLDER").unwrap_or_else(|_| at_hand());
    println!("cargo:rustc-link-search=native={folder}");
    println!("cargo:rustc-link-lib=static=plover");
    println!("cargo:rerun-if-changed={folder}/libplover.a");
    println!("cargo:rerun-if-env-changed=PLOVER_FOLDER");
}

fn at_hand() -> String {
    let at = |folder: &str| format!("{}/../../{folder}", env!("CARGO_MANIFEST_DIR"));
    let released = at("lib");
    if Path::new(&released).join("libplover.a").exists() {
        released
    } else {
        at("crates/plover/out")
    }
}
