//! Finds libcore_c.a, and with the feature `bench` libbench_c.a: in HALZUQEEN_LIB, or where `tools/staticlib` writes them.

use std::env;
use std::path::PathBuf;

fn main() {
    let here = PathBuf::from(env::var("CARGO_MANIFEST_DIR").expect("cargo sets it"));
    let folder = match env::var_os("HALZUQEEN_LIB") {
        Some(folder) => PathBuf::from(folder),
        None => here.join("../../target/staticlib"),
    };
    println!("cargo:rerun-if-env-changed=HALZUQEEN_LIB");
    println!("cargo:rerun-if-changed={}", folder.join("libcore_c.a").display());
    println!("cargo:rustc-link-search=native={}", folder.display());
    println!("cargo:rustc-link-lib=static=core_c");
}
