//! Finds the proved static library and links it where it is there: in the folder that `SORBRUDDER_LIB` names; else where `make
//! library` puts it, or the prebuilt one for this target. The build scripts of the crates above read the archive's path as
//! `DEP_SORBRUDDER_ARCHIVE`, whether it is there as `DEP_SORBRUDDER_FOUND` (`true` or `false`), and what to do where it is not as
//! `DEP_SORBRUDDER_ADVICE`, since each has its own answer to a library that is not built yet. A second archive, in the folder that
//! `SORBRUDDER_BEFORE` names, is linked with its entries renamed, and `DEP_SORBRUDDER_BEFORE` says so; one of which it is not known what
//! its entries take is refused.

use std::env;
use std::fs::{self, File};
use std::path::{Path, PathBuf};
use std::process::Command;
use std::time::SystemTime;

const NAME: &str = "libsorbrudder.a";

fn main() {
    println!("cargo::rerun-if-changed=build.rs");
    link_library();
    link_before();
}

fn link_library() {
    println!("cargo::rerun-if-env-changed=SORBRUDDER_LIB");
    let (folder, advice) = match env::var_os("SORBRUDDER_LIB") {
        Some(named) => named_folder(PathBuf::from(named)),
        None => own_folder(),
    };
    let archive = folder.join(NAME);
    let found = archive.is_file();
    println!("cargo::rerun-if-changed={}", archive.display());
    println!("cargo::metadata=ARCHIVE={}", archive.display());
    println!("cargo::metadata=FOUND={found}");
    println!("cargo::metadata=ADVICE={advice}");
    if found {
        println!("cargo::rustc-link-search=native={}", folder.display());
        println!("cargo::rustc-link-lib=static=sorbrudder");
    }
}

/// The folder that the environment names, and nothing else: a wrong name is told.
fn named_folder(folder: PathBuf) -> (PathBuf, String) {
    let advice = format!(
        "SORBRUDDER_LIB names {}, where there is no {NAME}; name the folder that has it, or unset SORBRUDDER_LIB",
        folder.display()
    );
    (folder, advice)
}

/// Where the proofs put the library, or the prebuilt one.
fn own_folder() -> (PathBuf, String) {
    let root = Path::new(env!("CARGO_MANIFEST_DIR")).join("..");
    let built = root.join("target/staticlib");
    let target = |part: &str| env::var(format!("CARGO_CFG_TARGET_{part}")).unwrap_or_default();
    let system = format!("{}-{}", target("ARCH"), target("OS"));
    let prebuilt = root.join("prebuilt").join(&system);
    let advice = format!(
        "the proved library is not built yet, and there is no prebuilt one for {system}; run `make library`, which needs `rt`"
    );
    if built.join(NAME).is_file() || !prebuilt.join(NAME).is_file() {
        return (built, advice);
    }
    watch(&built);
    (prebuilt, advice)
}

/// Has cargo look again where a library comes to be in a folder. A path that is not there counts as changed at each build, and so would all
/// that is built above it: so the folder is made, and is older than this build. Where it cannot be made, no library comes to be there.
fn watch(folder: &Path) {
    if !folder.is_dir() && fs::create_dir_all(folder).is_ok() {
        let _ = File::open(folder).and_then(|folder| folder.set_modified(SystemTime::UNIX_EPOCH));
    }
    if folder.is_dir() {
        println!("cargo::rerun-if-changed={}", folder.display());
    }
}

fn link_before() {
    println!("cargo::rustc-check-cfg=cfg(before)");
    println!("cargo::rustc-check-cfg=cfg(before_without_limit)");
    println!("cargo::rerun-if-env-changed=SORBRUDDER_BEFORE");
    let folder = env::var_os("SORBRUDDER_BEFORE");
    println!("cargo::metadata=BEFORE={}", folder.is_some());
    let Some(folder) = folder else {
        return;
    };
    let folder = PathBuf::from(folder);
    let (archive, header) = (folder.join(NAME), folder.join("sorbrudder.h"));
    println!("cargo::rerun-if-changed={}", archive.display());
    // A header may come to lie beside it.
    println!("cargo::rerun-if-changed={}", folder.display());
    match takes_limit(&archive, &header) {
        Ok(true) => {}
        Ok(false) => println!("cargo::rustc-cfg=before_without_limit"),
        Err(why) => panic!("SORBRUDDER_BEFORE names {}: {why}", folder.display()),
    }
    let out = PathBuf::from(env::var_os("OUT_DIR").expect("cargo names a folder"));
    rename_entries(&archive, &out.join("libsorbrudder_before.a"));
    println!("cargo::rustc-link-search=native={}", out.display());
    println!("cargo::rustc-link-lib=static=sorbrudder_before");
    println!("cargo::rustc-cfg=before");
}

/// The entry that came after `sorbrudder_parse` took a nesting limit: an archive that has it takes one.
const SINCE_LIMIT: &str = "sorbrudder_parse_rules";

/// Whether the parse entry of another archive takes a nesting limit, as this library's does; all else that its parse and write entries take
/// is the same. An archive does not say what its entries take. So what its other entries say counts, else a header beside it, and an archive
/// of which neither says it is refused: it would be called by another signature than its own. Where the entries come to take something else
/// again, this is the place to tell the archives apart.
fn takes_limit(archive: &Path, header: &Path) -> Result<bool, String> {
    if !archive.is_file() {
        return Err(format!("there is no {NAME}"));
    }
    let entries = exported(archive)?;
    let has = |entry: &str| entries.iter().any(|exported| exported == entry);
    for entry in ["sorbrudder_parse", "sorbrudder_write"] {
        if !has(entry) {
            return Err(format!("its {NAME} exports no {entry}"));
        }
    }
    if has(SINCE_LIMIT) {
        return Ok(true);
    }
    let declared = fs::read_to_string(header).ok();
    declared.and_then(|header| is_declared_with_limit(&header)).ok_or_else(|| {
        format!(
            "its {NAME} exports no {SINCE_LIMIT}, so it is not known whether its sorbrudder_parse takes a nesting limit, and it is not \
             called by another signature than its own; put the sorbrudder.h of its time beside it"
        )
    })
}

/// Whether a header declares `sorbrudder_parse` with a nesting limit as its last parameter; none where it does not declare it.
fn is_declared_with_limit(header: &str) -> Option<bool> {
    let (_, declared) = header.split_once("uint64_t sorbrudder_parse(")?;
    let (parameters, _) = declared.split_once(");")?;
    let last = parameters.rsplit(',').next()?.trim();
    match last {
        "uint32_t limit" => Some(true),
        "uint64_t used_high" => Some(false),
        _ => None,
    }
}

/// The names that an archive exports.
fn exported(archive: &Path) -> Result<Vec<String>, String> {
    let listed = Command::new("nm")
        .args(["-g", "--defined-only", "-P"])
        .arg(archive)
        .output()
        .map_err(|why| format!("nm, which lists the entries of {NAME}: {why}"))?;
    if !listed.status.success() {
        return Err(format!("its {NAME} is no archive that nm reads"));
    }
    let names = String::from_utf8_lossy(&listed.stdout);
    let names = names.lines().filter_map(|line| line.split(' ').next());
    Ok(names.map(String::from).collect())
}

/// All that an archive exports; one from before card 14 has only the first two, one from before card 5 lacks `parse_rules`, one from before
/// card 11 the last four, and what it lacks is not looked for.
const ENTRIES: [&str; 9] = [
    "parse",
    "write",
    "export",
    "import",
    "parse_rules",
    "open",
    "ask",
    "commit",
    "adopt",
];

fn rename_entries(archive: &Path, renamed: &Path) {
    let done = Command::new("objcopy")
        .args(
            ENTRIES
                .map(|name| format!("--redefine-sym=sorbrudder_{name}=sorbrudder_before_{name}")),
        )
        .args([archive, renamed])
        .status()
        .expect("objcopy, which renames the entries of the library before");
    assert!(done.success(), "objcopy: {}", archive.display());
}
