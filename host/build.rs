//! Fails where the proved static library, which the crate `sys` looks for and links, is not there, and says what to do.

use std::env;

fn main() {
    println!("cargo::rerun-if-changed=build.rs");
    let archive = env::var("DEP_SORBRUDDER_ARCHIVE").expect("sys names the archive");
    let found = env::var("DEP_SORBRUDDER_FOUND").expect("sys says whether it is there");
    let advice = env::var("DEP_SORBRUDDER_ADVICE").expect("sys says what to do");
    // For the test that links the archive into a C program.
    println!("cargo::rustc-env=SORBRUDDER_ARCHIVE={archive}");
    if found != "true" {
        println!("cargo::error={advice}");
    }
}
