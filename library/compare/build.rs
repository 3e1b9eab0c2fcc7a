//! Links the static library that `rt lib` in crates/pdl writes, from that crate's folder `out` or from PDL_LIBRARY.

use std::env;
use std::path::PathBuf;

const DIRECTORY: &str = "PDL_LIBRARY";

fn main() {
    let here = PathBuf::from(env::var_os("CARGO_MANIFEST_DIR").expect("cargo names the package"));
    let usual = here.join("../../crates/pdl/out");
    let directory = env::var_os(DIRECTORY).map_or(usual, PathBuf::from);
    let library = directory.join("libpdl.a");
    println!("cargo:rerun-if-env-changed={DIRECTORY}");
    println!("cargo:rerun-if-changed={}", library.display());
    assert!(library.exists(), "{}: `rt lib` in crates/pdl makes it", library.display());
    println!("cargo:rustc-link-search=native={}", directory.display());
    println!("cargo:rustc-link-lib=static=pdl");
}
