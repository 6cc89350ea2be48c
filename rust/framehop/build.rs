//! Links libframehop.a: from the folder that FRAMEHOP_LIB_DIR names, else from beside this crate.

use std::env;
use std::path::PathBuf;

const FILE: &str = "libframehop.a";

/// Where the library is looked for if no folder is named: in the crate, and in the folder that scripts/c-library writes.
const BESIDE: [&str; 4] = [".", "..", "../lib", "../../lib"];

fn folder() -> Option<PathBuf> {
    if let Some(named) = env::var_os("FRAMEHOP_LIB_DIR") {
        return Some(named.into());
    }
    let here = PathBuf::from(env::var_os("CARGO_MANIFEST_DIR")?);
    BESIDE.iter().map(|it| here.join(it)).find(|it| it.join(FILE).is_file())
}

fn main() {
    println!("cargo::rerun-if-env-changed=FRAMEHOP_LIB_DIR");
    let Some(folder) = folder().filter(|it| it.join(FILE).is_file()) else {
        println!("cargo::error=there is no {FILE}: FRAMEHOP_LIB_DIR names the folder that has it, and scripts/c-library makes it");
        return;
    };
    let folder = folder.display();
    println!("cargo::rerun-if-changed={folder}/{FILE}");
    println!("cargo::rustc-link-search=native={folder}");
    println!("cargo::rustc-link-lib=static=framehop");
}
