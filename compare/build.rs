//! What there is to compare. With the static library at hand, which the crate `sys` finds and links, the cfg `library` is set; without
//! it the models are built and tested alone. The cfg `rust_source` says whether the crate `oracle` finds the Rust source, and a cfg of each
//! program's name whether that program is built; without them the tests that need them are ignored. The cfg `before` says that a second
//! library is linked, the one before, for `bench`.

use std::env;
use std::path::PathBuf;

/// The programs that are run.
const PROGRAMS: [&str; 5] = ["treelist", "everylist", "liftcount", "liftlists", "lines"];

fn main() {
    find_library();
    find_source();
    PROGRAMS.into_iter().for_each(find_program);
}

/// By the rule of oracle/build.rs.
fn find_source() {
    println!("cargo::rustc-check-cfg=cfg(rust_source)");
    println!("cargo::rerun-if-env-changed=MOLANGX_SRC");
    let folder = match env::var_os("MOLANGX_SRC") {
        Some(folder) => PathBuf::from(folder),
        None => PathBuf::from(env!("CARGO_MANIFEST_DIR")).join("../../shared/docs/src"),
    };
    let file = folder.join("src/compile/parse/mod.rs");
    println!("cargo::rerun-if-changed={}", file.display());
    // Where it is not, the build of `oracle` says so.
    if file.is_file() {
        println!("cargo::rustc-cfg=rust_source");
    }
}

/// As the crate `sys` says, which links it.
fn find_library() {
    println!("cargo::rustc-check-cfg=cfg(library)");
    let archive = env::var("DEP_SORBRUDDER_ARCHIVE").expect("sys names the archive");
    let found = env::var("DEP_SORBRUDDER_FOUND").expect("sys says whether it is there");
    if found == "true" {
        println!("cargo::rustc-cfg=library");
    } else {
        println!("cargo::warning=no {archive}: the library is not compared");
    }
    println!("cargo::rustc-check-cfg=cfg(before)");
    let before = env::var("DEP_SORBRUDDER_BEFORE").expect("sys says whether there is one before");
    if before == "true" {
        println!("cargo::rustc-cfg=before");
    }
}

/// At the environment variable of its name in capitals, or where `make programs` puts it.
fn find_program(name: &str) {
    let named = name.to_uppercase();
    println!("cargo::rustc-check-cfg=cfg({name})");
    println!("cargo::rerun-if-env-changed={named}");
    let program = match env::var_os(&named) {
        Some(path) => PathBuf::from(path),
        None => PathBuf::from(env!("CARGO_MANIFEST_DIR"))
            .join("../target/bin")
            .join(name),
    };
    println!("cargo::rerun-if-changed={}", program.display());
    if program.is_file() {
        println!("cargo::rustc-cfg={name}");
    } else {
        println!("cargo::warning=no {}: {name} is not run", program.display());
    }
}
