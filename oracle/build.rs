//! Finds the Rust source and says to the crate how to build it.
//!
//! The folder is `MOLANGX_SRC`, or `../shared/docs/src` beside the repository. With the source at
//! hand the cfg `molangx` is set and these files are written to the build folder:
//!
//! - `compile.rs`, which names the Rust's tree and pass files where they stand;
//! - `ops.rs`, which names op.rs and set.rs where they stand, and `table.rs`, a stand-in for the
//!   operator table that is not published: a row's names are its operator number;
//! - `version/`, the version files byte for byte, since the unpublished `engine.rs` has to stand
//!   beside them;
//! - `slips/`, copies of the tree and pass files with one planted slip each, for the tests;
//! - `marked/`, a copy of them in which a node is marked by the pass that first gave it children.
//!
//! Without it nothing is written and the crate is built without the comparison, which a warning says.
//! A folder that has some of the files and not others stops the build, and so does a slip or a mark
//! that finds no place.

use std::fmt::Write as _;
use std::path::{Path, PathBuf};
use std::{env, fs};

/// The Rust files that are built as they stand.
const UNCHANGED: [&str; 15] = [
    "compile/ast.rs",
    "compile/parse/binary.rs",
    "compile/parse/calls.rs",
    "compile/parse/conditional.rs",
    "compile/parse/driver.rs",
    "compile/parse/mod.rs",
    "compile/parse/sections.rs",
    "compile/parse/statements.rs",
    "compile/parse/unary.rs",
    "diag.rs",
    "hash.rs",
    "ops/op.rs",
    "ops/set.rs",
    "version/experiment.rs",
    "version/mod.rs",
];

/// One planted slip: a file, what is replaced in it, and by what.
struct Slip {
    name: &'static str,
    file: &'static str,
    edits: &'static [(&'static str, &'static str)],
}

const SLIPS: [Slip; 4] = [
    Slip {
        name: "equal_rank",
        file: "compile/parse/mod.rs",
        edits: &[("&[Op::Div]", "&[Op::Div, Op::Mul]")],
    },
    Slip {
        name: "pointer_stops",
        file: "compile/parse/mod.rs",
        edits: &[
            ("let _ = binary(", "binary("),
            ("&[Op::Pointer]);", "&[Op::Pointer])?;"),
        ],
    },
    Slip {
        name: "no_second_walk",
        file: "compile/parse/binary.rs",
        edits: &[("if left_unfolded {", "if false {")],
    },
    Slip {
        name: "semicolons_everywhere",
        file: "compile/parse/statements.rs",
        edits: &[("{ .. } => matches!(", "{ .. } => true || matches!(")],
    },
];

/// The marks: a node has one more field, 0 as it is made.
const MARK_FIELD: [(&str, &str); 2] = [
    (
        "    pub(super) below: TokenClasses,\n}",
        "    pub(super) below: TokenClasses,\n    pub(crate) rule: u8,\n}",
    ),
    (
        "children: Vec::new(),\n            span,\n            below: TokenClasses::ALL,",
        "children: Vec::new(),\n            span,\n            below: TokenClasses::ALL,\n            rule: 0,",
    ),
];

/// Each place that runs a pass, and the pass's number by card 5: behind it the nodes are marked. Where
/// the pointer pass fails no node is left.
const MARKS: [(&str, u8); 24] = [
    ("member_accessors(cx, list)?;", 1),
    ("sections(cx, list)?;", 2),
    (" calls(cx, list)?;", 3),
    ("semicolons(cx, list)?;", 4),
    ("arrays(cx, list)?;", 5),
    ("let _ = binary(cx, list, &[Op::Pointer]);", 6),
    ("math_functions(cx, list)?;", 7),
    ("unary_minus_and_not(cx, list)?;", 8),
    ("binary(cx, list, &[Op::Div])?;", 9),
    ("binary(cx, list, &[Op::Mul])?;", 10),
    ("binary(cx, list, &[Op::Add])?;", 11),
    // One comparison or equality at a time below version 6, the four comparisons together from 6 on.
    ("binary(cx, list, &[op])?;", 12),
    ("Op::GreaterThan,\n                ],\n            )?;", 12),
    (
        "binary(cx, list, &[Op::LogicalEqual, Op::LogicalNotEqual])?;",
        13,
    ),
    ("binary(cx, list, &[Op::LogicalAnd])?;", 14),
    (
        "if version <= 5 && u(Op::LogicalOr) {\n        binary(cx, list, &[Op::LogicalOr])?;",
        15,
    ),
    (
        "if version >= 6 && u(Op::LogicalOr) {\n        binary(cx, list, &[Op::LogicalOr])?;",
        15,
    ),
    ("ternary(cx, list)?;", 16),
    ("binary(cx, list, &[Op::ConditionalElse])?;", 16),
    ("binary(cx, list, &[Op::Conditional])?;", 16),
    ("binary(cx, list, &[Op::NullCoalescing])?;", 17),
    ("binary(cx, list, &[Op::Comma])?;", 18),
    ("binary(cx, list, &[Op::Assignment])?;", 19),
    ("prefix(cx, list, Op::Return)?;", 20),
];

/// Lints that are the Rust source's own affair: most of what it offers is not called here.
const ALLOW: &str = "#[allow(dead_code, unused, unexpected_cfgs, clippy::all)]";

fn main() {
    println!("cargo::rustc-check-cfg=cfg(molangx)");
    println!("cargo::rustc-check-cfg=cfg(feature, values(\"facet\", \"fuzz\"))");
    println!("cargo::rerun-if-changed=build.rs");
    println!("cargo::rerun-if-changed=src/shim");
    println!("cargo::rerun-if-env-changed=MOLANGX_SRC");
    let crate_folder = PathBuf::from(env::var_os("CARGO_MANIFEST_DIR").expect("cargo sets it"));
    let out = PathBuf::from(env::var_os("OUT_DIR").expect("cargo sets it"));
    let folder = match env::var_os("MOLANGX_SRC") {
        Some(named) => PathBuf::from(named),
        None => crate_folder.join("../../shared/docs/src"),
    };
    let source = folder.join("src");
    for file in UNCHANGED {
        println!("cargo::rerun-if-changed={}", source.join(file).display());
    }
    let missing: Vec<_> = UNCHANGED
        .iter()
        .filter(|file| !source.join(file).is_file())
        .collect();
    if missing.is_empty() {
        let source = source.canonicalize().expect("the source folder is there");
        println!("cargo::rustc-cfg=molangx");
        write_modules(&source, &out);
        write_table(&source, &out);
        copy_version(&source, &crate_folder, &out);
        for slip in &SLIPS {
            plant(slip, &source, &crate_folder, &out);
        }
        mark(&source, &crate_folder, &out);
    } else if missing.len() < UNCHANGED.len() {
        // Half a source is a mistake, not a source that is not at hand.
        panic!("{} has no {missing:?}", source.display());
    } else {
        println!(
            "cargo::warning=the Rust source is not at hand (MOLANGX_SRC): nothing is compared with it"
        );
    }
}

/// A module declaration for the file at `path`.
fn module(visibility: &str, name: &str, path: &Path) -> String {
    format!("{ALLOW}\n#[path = {path:?}]\n{visibility}mod {name};\n")
}

fn write_modules(source: &Path, out: &Path) {
    let compile = module("pub(crate) ", "ast", &source.join("compile/ast.rs"))
        + &module("", "parse", &source.join("compile/parse/mod.rs"));
    write(&out.join("compile.rs"), &compile);
    let ops = module("pub(crate) ", "op", &source.join("ops/op.rs"))
        + &module("pub(crate) ", "set", &source.join("ops/set.rs"));
    write(&out.join("ops.rs"), &ops);
    let plain = module("pub(crate) ", "diag", &source.join("diag.rs"))
        + &module("pub(crate) ", "hash", &source.join("hash.rs"))
        + &module("pub(crate) ", "version", &out.join("version/mod.rs"));
    write(&out.join("plain.rs"), &plain);
}

/// The rows of the operator table, from the variants of op.rs (`Name = number,`).
fn write_table(source: &Path, out: &Path) {
    let text = read(&source.join("ops/op.rs"));
    let mut rows = String::from("pub(crate) const OP_META: [OpMeta; 111] = [\n");
    let mut count = 0;
    for line in text.lines() {
        let Some((name, number)) = line.trim().trim_end_matches(',').split_once(" = ") else {
            continue;
        };
        let named = name.chars().all(|c| c.is_ascii_alphanumeric());
        let (true, Ok(number)) = (named && !name.is_empty(), number.parse::<usize>()) else {
            continue;
        };
        assert_eq!(number, count, "op.rs: {name} is out of order");
        let _ = writeln!(rows, "    row(ExpressionOp::{name}, \"{number}\"),");
        count += 1;
    }
    assert_eq!(count, 111, "op.rs: not 111 operators");
    rows.push_str("];\n");
    write(&out.join("table.rs"), &rows);
}

fn copy_version(source: &Path, crate_folder: &Path, out: &Path) {
    for file in ["mod.rs", "experiment.rs"] {
        let text = read(&source.join("version").join(file));
        write(&out.join("version").join(file), &text);
    }
    let engine = read(&crate_folder.join("src/shim/engine.rs"));
    write(&out.join("version/engine.rs"), &engine);
}

/// Copies the tree and pass files with the slip in its file.
fn plant(slip: &Slip, source: &Path, crate_folder: &Path, out: &Path) {
    let changed = |file: &str, text: String| match file == slip.file {
        true => {
            let edits = slip.edits.iter();
            edits.fold(text, |text, (old, new)| replaced(file, text, old, new))
        }
        false => text,
    };
    let home = format!("slips::{}", slip.name);
    copy_changed(&home, changed, source, crate_folder, out);
}

/// Copies the tree and pass files with the marks.
fn mark(source: &Path, crate_folder: &Path, out: &Path) {
    let changed = |file: &str, text: String| match file {
        "compile/ast.rs" => {
            let edits = MARK_FIELD.iter();
            edits.fold(text, |text, (old, new)| replaced(file, text, old, new))
        }
        "compile/parse/mod.rs" => MARKS.iter().fold(text, |text, (pass, rule)| {
            let marked = format!("{pass} crate::marked::mark(list, {rule});");
            replaced(file, text, pass, &marked)
        }),
        _ => text,
    };
    copy_changed("marked", changed, source, crate_folder, out);
}

/// A file's text with one place of it replaced.
fn replaced(file: &str, text: String, old: &str, new: &str) -> String {
    let found = text.matches(old).count();
    assert_eq!(found, 1, "`{old}` in {file}");
    text.replace(old, new)
}

/// Copies the tree and pass files, each changed, with the paths moved to the module `home`.
fn copy_changed(
    home: &str,
    changed: impl Fn(&str, String) -> String,
    source: &Path,
    crate_folder: &Path,
    out: &Path,
) {
    let folder = out.join(home.replace("::", "/"));
    let home = format!("crate::{home}::compile");
    for file in UNCHANGED.iter().filter(|f| f.starts_with("compile/")) {
        let text = changed(file, read(&source.join(file)));
        write(&folder.join(file), &text.replace("crate::compile", &home));
    }
    let compile = module("pub(crate) ", "ast", &folder.join("compile/ast.rs"))
        + &module("", "parse", &folder.join("compile/parse/mod.rs"))
        + &module("", "cx", &crate_folder.join("src/shim/cx.rs"));
    write(&folder.join("compile.rs"), &compile);
}

fn read(path: &Path) -> String {
    fs::read_to_string(path).unwrap_or_else(|why| panic!("{}: {why}", path.display()))
}

fn write(path: &Path, text: &str) {
    let folder = path.parent().expect("a file stands in a folder");
    fs::create_dir_all(folder).unwrap_or_else(|why| panic!("{}: {why}", folder.display()));
    fs::write(path, text).unwrap_or_else(|why| panic!("{}: {why}", path.display()));
}
