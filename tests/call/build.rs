//! Links the proved library, which `rt lib` leaves in crates/weekplan_c/out, and where it is asked for that of another revision,
//! which bench/run leaves in target/before.

use std::env;
use std::path::Path;

fn main() {
    link("crates/weekplan_c/out", "weekplan_c");
    if env::var_os("CARGO_FEATURE_BEFORE").is_some() {
        link("target/before", "weekplan_c_before");
    }
    println!("cargo:rerun-if-changed=build.rs");
}

/// A library in a folder of the repository.
fn link(folder: &str, name: &str) {
    let top = Path::new(env!("CARGO_MANIFEST_DIR")).join("../..");
    let folder = top.join(folder);
    println!("cargo:rustc-link-search=native={}", folder.display());
    println!("cargo:rustc-link-lib=static={name}");
    let archive = folder.join(format!("lib{name}.a"));
    println!("cargo:rerun-if-changed={}", archive.display());
}
