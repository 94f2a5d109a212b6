//! Tells where libtulvekas.a stands. Only the tests name it with `#[link]`, so the library `reference` is built without it.

use std::{env, path::PathBuf};

fn main() {
    let package = PathBuf::from(env::var_os("CARGO_MANIFEST_DIR").unwrap());
    let directory = match env::var_os("TULVEKAS_LIB_DIR") {
        Some(directory) => PathBuf::from(directory),
        None => package.join("../../target/staticlib"),
    };
    println!("cargo:rerun-if-changed=build.rs");
    println!("cargo:rerun-if-env-changed=TULVEKAS_LIB_DIR");
    println!("cargo:rerun-if-changed={}", directory.join("libtulvekas.a").display());
    println!("cargo:rustc-link-search=native={}", directory.display());
}
