//! Links target/staticlib/libapi.a, which `tools/build api` writes, or the one
//! in the folder that `STAGE2_LIBRARY` names.

use std::env;
use std::path::{Path, PathBuf};

fn main() {
    println!("cargo:rerun-if-env-changed=STAGE2_LIBRARY");
    let usual = || Path::new(&env::var("CARGO_MANIFEST_DIR").unwrap()).join("../target/staticlib");
    let folder = env::var("STAGE2_LIBRARY").map_or_else(|_| usual(), PathBuf::from);
    let archive = folder.join("libapi.a");
    assert!(archive.is_file(), "there is no {}: run `tools/build api` first", archive.display());
    println!("cargo:rerun-if-changed={}", archive.display());
    println!("cargo:rustc-link-search=native={}", folder.display());
    println!("cargo:rustc-link-lib=static=api");
}
