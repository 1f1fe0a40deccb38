//! Finds libsootlark.a: in the folder that SOOTLARK_LIB names, else in this repository's target/staticlib.

use std::env;
use std::path::PathBuf;

fn main() {
    println!("cargo::rerun-if-env-changed=SOOTLARK_LIB");
    let folder = match env::var_os("SOOTLARK_LIB") {
        Some(named) => PathBuf::from(named),
        None => PathBuf::from(env::var_os("CARGO_MANIFEST_DIR").unwrap_or_default()).join("../../target/staticlib"),
    };
    let archive = folder.join("libsootlark.a");
    println!("cargo::rerun-if-changed={}", archive.display());
    if archive.is_file() {
        println!("cargo::rustc-link-search=native={}", folder.display());
        println!("cargo::rustc-link-lib=static=sootlark");
    } else {
        println!(
            "cargo::error=there is no {}: run .ci/bindings in the repository of Sootlark to make it, \
             or set SOOTLARK_LIB to the folder that holds libsootlark.a",
            archive.display()
        );
    }
}
