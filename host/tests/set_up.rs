//! Setting up: `make` alone, `make library` with and without rt, prebuilt libraries, installing, and what the build scripts advise. The
//! Makefile runs in a folder of the test's own, with an rt that only notes that it was called.

mod common;

use common::command::folder;
use sorbrudder::archive::{Format, ListsWriter};
use std::io::Write as _;
use std::os::unix::fs::PermissionsExt as _;
use std::path::{Path, PathBuf};
use std::process::{Command, Output, Stdio};

fn root() -> PathBuf {
    Path::new(env!("CARGO_MANIFEST_DIR")).join("..")
}

/// What make and the tools of the project call.
const TOOLS: &str = "make sh bash env find uname tr sha256sum dirname touch mkdir cp cmp wc cat sed head install echo rm chmod grep";

/// Where a program is.
fn found(tool: &str) -> Option<PathBuf> {
    let paths = std::env::var_os("PATH").unwrap_or_default();
    let mut paths = std::env::split_paths(&paths).map(|folder| folder.join(tool));
    paths.find(|path| path.is_file())
}

/// A project with the Makefile and the tools of this one, a crate, and programs to run them by.
struct Project {
    folder: PathBuf,
}

impl Project {
    fn new(name: &str) -> Self {
        let project = Self {
            folder: folder(name),
        };
        let copy = |path: &str| {
            let target = project.folder.join(path);
            std::fs::create_dir_all(target.parent().expect("a folder")).expect("a folder");
            std::fs::copy(root().join(path), target).expect("a file");
        };
        for path in ["Makefile", "include/sorbrudder.h", "host/Cargo.toml"] {
            copy(path);
        }
        for tool in [
            "library.sh",
            "programs.sh",
            "prebuilt.sh",
            "install.sh",
            "definition-check.mk",
        ] {
            copy(&format!("tools/{tool}"));
        }
        project.write("crates.txt", "one\n");
        project.write("crates/one/src/lib.rt", "");
        // What `make library` and `make programs` build, with what each program reads and prints.
        project.write("crates/sorbrudder/src/lib.rt", "");
        for program in ["everylist", "liftcount", "liftlists", "treelist"] {
            project.write(&format!("crates/{program}/stdin"), "read\n");
            project.write(&format!("crates/{program}/stdout"), "read\n");
        }
        // What make and the tools call, and nothing else.
        std::fs::create_dir(project.folder.join("bin")).expect("a folder");
        for tool in TOOLS.split(' ') {
            let link = project.folder.join("bin").join(tool);
            if let Some(path) = found(tool) {
                std::os::unix::fs::symlink(path, link).expect("a link");
            }
        }
        project
    }

    fn write(&self, path: &str, text: &str) {
        let path = self.folder.join(path);
        std::fs::create_dir_all(path.parent().expect("a folder")).expect("a folder");
        std::fs::write(path, text).expect("a file");
    }

    /// A script of the shell.
    fn script(&self, path: &str, text: &str) {
        self.write(path, &format!("#!/bin/sh\n{text}"));
        let executable = std::fs::Permissions::from_mode(0o755);
        std::fs::set_permissions(self.folder.join(path), executable).expect("a file");
    }

    /// An rt that notes each call, and writes the library or the program of the crate that it is called in, which it then runs.
    fn with_rt(&self) {
        let script = "\
echo \"$*\" >> ../../rt.log
mkdir -p out
if [ \"$1\" = run ]; then
    echo \"proved ${PWD##*/}\" > \"out/${PWD##*/}\"
    exec cat
fi
echo proved > out/libsorbrudder.a
";
        self.script("bin/rt", script);
    }

    fn calls(&self) -> usize {
        let log = std::fs::read_to_string(self.folder.join("rt.log")).unwrap_or_default();
        log.lines().count()
    }

    fn run(&self, program: &str, words: &[&str]) -> Output {
        let mut command = Command::new(program);
        command
            .current_dir(&self.folder)
            .args(words)
            .env("PATH", self.folder.join("bin"));
        command
            .env_remove("MAKEFLAGS")
            .env_remove("MAKELEVEL")
            .env_remove("MFLAGS");
        command.env_remove("CARGO_TARGET_DIR");
        command.output().expect("it runs")
    }

    fn make(&self, words: &[&str]) -> Output {
        self.run("bin/make", words)
    }
}

fn told(output: &Output) -> String {
    let text = |bytes: &[u8]| String::from_utf8_lossy(bytes).into_owned();
    text(&output.stdout) + &text(&output.stderr)
}

#[test]
fn make_alone_lists_the_commands_and_does_nothing() {
    let project = Project::new("make_alone");
    project.with_rt();
    let listed = project.make(&[]);
    assert!(listed.status.success(), "{}", told(&listed));
    let makefile = std::fs::read_to_string(root().join("Makefile")).expect("a file");
    let phony = makefile
        .lines()
        .find_map(|line| line.strip_prefix(".PHONY: help "));
    for target in phony.expect("the targets").split(' ') {
        assert!(
            told(&listed).contains(&format!("make {target} ")),
            "{target}"
        );
    }
    assert_eq!(project.calls(), 0);
    assert!(!project.folder.join("target").exists());
}

#[test]
fn make_library_builds_where_something_changed_and_says_what_is_missing() {
    let project = Project::new("make_library");
    let missing = project.make(&["library"]);
    assert!(!missing.status.success());
    assert!(told(&missing).contains("rt, which proves and builds the library, is not on the PATH"));
    project.with_rt();
    assert!(project.make(&["library"]).status.success());
    assert_eq!(project.calls(), 1);
    let again = project.make(&["library"]);
    assert!(
        again.status.success() && project.calls() == 1,
        "nothing changed: {}",
        told(&again)
    );
    std::thread::sleep(std::time::Duration::from_millis(20));
    project.write("crates/one/src/lib.rt", "changed");
    assert!(project.make(&["library"]).status.success());
    assert_eq!(project.calls(), 2);
}

#[test]
fn a_prebuilt_library_is_used_without_rt_and_compared_with_it() {
    let project = Project::new("make_prebuilt");
    project.with_rt();
    assert!(project.make(&["prebuilt"]).status.success());
    let check = |project: &Project| {
        project
            .run("tools/prebuilt.sh", &["--check"])
            .status
            .success()
    };
    assert!(check(&project));
    // Another library, or another prebuilt one, is found out.
    let library = project.folder.join("target/staticlib/libsorbrudder.a");
    std::fs::write(&library, "proveD\n").expect("a file");
    assert!(!check(&project));
    std::fs::write(&library, "proved\n").expect("a file");
    assert!(check(&project));
    // And so is another program, one that is not there, and one without its checksum.
    let folder = std::fs::read_dir(project.folder.join("prebuilt")).expect("a folder");
    let folder = folder.map(|entry| entry.expect("an entry").path()).next();
    let folder = folder.expect("the system's folder");
    for name in ["everylist", "liftcount", "treelist"] {
        let prebuilt = folder.join(name);
        let text = std::fs::read_to_string(&prebuilt).expect("a program");
        assert_eq!(text, format!("proved {name}\n"));
        let proved = project.folder.join("target/bin").join(name);
        std::fs::write(&proved, "proved otherwise\n").expect("a file");
        assert!(!check(&project), "{name}");
        std::fs::write(&proved, &text).expect("a file");
        std::fs::remove_file(&prebuilt).expect("a file");
        assert!(!check(&project), "{name}");
        std::fs::write(&prebuilt, &text).expect("a file");
        let sums = folder.join("SHA256SUMS");
        let all = std::fs::read_to_string(&sums).expect("the checksums");
        let others = all.lines().filter(|line| !line.ends_with(name));
        let others: String = others.map(|line| format!("{line}\n")).collect();
        std::fs::write(&sums, others).expect("a file");
        assert!(!check(&project), "{name}");
        std::fs::write(&sums, all).expect("a file");
        assert!(check(&project));
    }
    std::fs::remove_file(project.folder.join("bin/rt")).expect("a file");
    std::fs::remove_dir_all(project.folder.join("target")).expect("a folder");
    let without = project.make(&["library"]);
    assert!(without.status.success(), "{}", told(&without));
    assert!(
        told(&without).contains("libsorbrudder.a is used"),
        "{}",
        told(&without)
    );
}

/// The files under a folder, by name.
fn files(folder: &Path) -> Vec<PathBuf> {
    let mut files = Vec::new();
    for entry in std::fs::read_dir(folder).into_iter().flatten() {
        let path = entry.expect("an entry").path();
        match path.is_dir() {
            true => files.extend(self::files(&path)),
            false => files.push(path),
        }
    }
    files.sort();
    files
}

#[test]
fn installing_puts_everything_under_the_prefix_and_uninstalling_takes_it_away() {
    let project = Project::new("install");
    project.with_rt();
    assert!(project.make(&["library", "programs"]).status.success());
    project.script("host/target/release/sorbrudder", "echo \"says $*\"\n");
    let staged = project.folder.join("stage");
    let words = [staged.to_str().expect("text"), "/opt/sorb"];
    let installed = project.run("tools/install.sh", &words);
    assert!(installed.status.success(), "{}", told(&installed));
    let to = staged.join("opt/sorb");
    let at = |path: &str| std::fs::read_to_string(to.join(path)).unwrap_or_default();
    assert!(at("bin/sorbrudder").contains("echo \"says $*\""));
    assert_eq!(at("bin/treelist"), "proved treelist\n");
    assert_eq!(at("lib/libsorbrudder.a"), "proved\n");
    assert!(at("include/sorbrudder.h").contains("sorbrudder_parse"));
    assert_eq!(at("share/man/man1/sorbrudder.1"), "says man\n");
    for (path, shell) in [
        ("share/bash-completion/completions/sorbrudder", "bash"),
        ("share/zsh/site-functions/_sorbrudder", "zsh"),
        ("share/fish/vendor_completions.d/sorbrudder.fish", "fish"),
    ] {
        assert_eq!(at(path), format!("says completions {shell}\n"));
    }
    let package = at("lib/pkgconfig/sorbrudder.pc");
    assert!(package.starts_with("prefix=/opt/sorb\n"), "{package}");
    assert!(
        package.contains(&format!("\nVersion: {}\n", env!("CARGO_PKG_VERSION"))),
        "{package}"
    );
    let mode = |path: &str| {
        std::fs::metadata(to.join(path))
            .expect("a file")
            .permissions()
            .mode()
            & 0o777
    };
    assert_eq!(
        (mode("bin/everylist"), mode("share/man/man1/sorbrudder.1")),
        (0o755, 0o644)
    );
    // All that is there was told, and all of it is taken away again, and nothing else.
    let there = files(&to);
    assert_eq!(there.len(), 11, "{there:?}");
    for file in &there {
        let file = file.strip_prefix(&to).expect("under it").display();
        assert!(told(&installed).contains(&format!(" {file}")), "{file}");
    }
    let own = to.join("bin/other");
    std::fs::write(&own, "another's").expect("a file");
    let words = [
        "uninstall",
        &format!("DESTDIR={}", words[0]),
        "PREFIX=/opt/sorb",
    ];
    let removed = project.make(&words);
    assert!(removed.status.success(), "{}", told(&removed));
    assert_eq!(files(&to), [own]);
}

#[test]
fn installing_without_rt_takes_what_is_prebuilt() {
    let project = Project::new("install_prebuilt");
    project.with_rt();
    assert!(project.make(&["prebuilt"]).status.success());
    std::fs::remove_file(project.folder.join("bin/rt")).expect("a file");
    std::fs::remove_dir_all(project.folder.join("target")).expect("a folder");
    project.script("host/target/release/sorbrudder", "echo \"says $*\"\n");
    let staged = project.folder.join("stage");
    let words = [staged.to_str().expect("text"), "/usr"];
    let installed = project.run("tools/install.sh", &words);
    assert!(installed.status.success(), "{}", told(&installed));
    for name in ["everylist", "liftcount", "treelist"] {
        let text = std::fs::read_to_string(staged.join("usr/bin").join(name));
        assert_eq!(text.expect("a program"), format!("proved {name}\n"));
    }
}

#[test]
fn liftlists_is_built_and_prebuilt_and_not_installed() {
    let project = Project::new("liftlists");
    project.with_rt();
    assert!(project.make(&["prebuilt"]).status.success());
    let text = |path: &Path| std::fs::read_to_string(path).unwrap_or_default();
    let built = project.folder.join("target/bin/liftlists");
    assert_eq!(text(&built), "proved liftlists\n");
    let prebuilt = files(&project.folder.join("prebuilt"));
    let prebuilt = prebuilt.iter().find(|file| file.ends_with("liftlists"));
    assert_eq!(text(prebuilt.expect("a program")), "proved liftlists\n");
    let check = || project.run("tools/prebuilt.sh", &["--check"]).status;
    assert!(check().success());
    std::fs::write(&built, "proved otherwise\n").expect("a file");
    assert!(!check().success());
    project.script("host/target/release/sorbrudder", "echo \"says $*\"\n");
    let staged = project.folder.join("stage");
    let words = [staged.to_str().expect("text"), "/usr"];
    let installed = project.run("tools/install.sh", &words);
    assert!(installed.status.success(), "{}", told(&installed));
    assert!(staged.join("usr/bin/liftcount").exists());
    assert!(!staged.join("usr/bin/liftlists").exists());
}

/// The programs of `prebuilt/`, run as README.md runs them.
#[test]
fn the_prebuilt_programs_run_without_rt() {
    let system = format!("{}-{}", std::env::consts::ARCH, std::env::consts::OS);
    let prebuilt = root().join("prebuilt").join(system);
    if !prebuilt.is_dir() {
        return;
    }
    let sums = Command::new("sha256sum")
        .args(["--check", "--quiet", "SHA256SUMS"])
        .current_dir(&prebuilt)
        .output()
        .expect("it runs");
    assert!(sums.status.success(), "{}", told(&sums));
    let words = |words: &[u32]| {
        words
            .iter()
            .flat_map(|word| word.to_le_bytes())
            .collect::<Vec<u8>>()
    };
    let write = |name: &str, input: &[u8]| {
        let mut child = Command::new(prebuilt.join(name))
            .stdin(Stdio::piped())
            .stdout(Stdio::piped())
            .spawn()
            .expect("it runs");
        let mut stdin = child.stdin.take().expect("a pipe");
        stdin.write_all(input).expect("it reads");
        drop(stdin);
        child.wait_with_output().expect("it ends").stdout
    };
    let run = |name: &str, input: &[u8]| String::from_utf8(write(name, input)).expect("text");
    let five = run("everylist", &words(&[5, 5, 61, 56, 57]));
    let six = run("everylist", &words(&[6, 5, 61, 56, 57]));
    assert!(five.starts_with("list") && five != six, "{five}");
    let list = |version: i16, text: &str| {
        (
            version,
            text.parse::<sorbrudder::Tokens>().expect("the notation"),
        )
    };
    let lists = [
        list(4, "a ? b : c ? d : e"),
        list(4, "a + b"),
        list(4, "a b"),
    ];
    let mut writer = ListsWriter::new(words(&[4, 5]), Format::Words).expect("bytes");
    for (version, list) in &lists {
        writer.write(*version, &list.words()).expect("bytes");
    }
    let counted = run("liftcount", &writer.finish().expect("bytes").0);
    assert_eq!(
        counted.split_whitespace().collect::<Vec<_>>(),
        ["3", "1", "1", "0", "1"]
    );
    assert!(!run("treelist", &words(&[5])).is_empty());
    let file = |first: &[u32], lists: &[(i16, &str)]| {
        let mut writer = ListsWriter::new(words(first), Format::Words).expect("bytes");
        for (version, text) in lists {
            let (version, list) = list(*version, text);
            writer.write(version, &list.words()).expect("bytes");
        }
        writer.finish().expect("bytes").0
    };
    let lifted = write("liftlists", &file(&[5], &[(4, "a + b"), (4, "a b")]));
    assert_eq!(lifted, file(&[], &[(5, "a + b"), (4, "a b")]));
}

/// The build script of `sys`, compiled to be run by hand, as if the crate lay in a folder.
fn build_script(folder: &Path) -> PathBuf {
    let script = folder.join("build");
    std::fs::create_dir(folder.join("sys")).expect("a folder");
    let sys = root().join("sys");
    let mut compile = Command::new(std::env::var("RUSTC").unwrap_or("rustc".to_string()));
    compile
        .args(["--edition", "2024", "-o"])
        .arg(&script)
        .arg(sys.join("build.rs"));
    let compiled = compile
        .env("CARGO_MANIFEST_DIR", folder.join("sys"))
        .output()
        .expect("a compiler");
    assert!(compiled.status.success(), "{}", told(&compiled));
    script
}

/// What an archive is told to be, of which there is no knowing what its entries take.
#[test]
fn another_archive_is_called_by_its_own_signature_or_refused() {
    let folder = folder("build_before");
    let script = build_script(&folder);
    let system = format!("{}-{}", std::env::consts::ARCH, std::env::consts::OS);
    let archive = root().join("prebuilt").join(system).join("libsorbrudder.a");
    if !archive.is_file() || found("objcopy").is_none() {
        return;
    }
    let before = |name: &str, hidden: &[&str], header: Option<&str>| {
        let other = folder.join(name);
        std::fs::create_dir(&other).expect("a folder");
        if name != "none" {
            let mut copy = Command::new("objcopy");
            copy.args(
                hidden
                    .iter()
                    .map(|entry| format!("--redefine-sym=sorbrudder_{entry}=no_{entry}")),
            );
            copy.arg(&archive).arg(other.join("libsorbrudder.a"));
            assert!(copy.status().expect("it runs").success());
        }
        if let Some(header) = header {
            std::fs::write(other.join("sorbrudder.h"), header).expect("a file");
        }
        let mut run = Command::new(&script);
        run.env("SORBRUDDER_BEFORE", &other).env("OUT_DIR", &folder);
        run.env("CARGO_CFG_TARGET_ARCH", "x86_64")
            .env("CARGO_CFG_TARGET_OS", "linux");
        let run = run.output().expect("it runs");
        let (is_linked, told) = (run.status.success(), told(&run));
        let cfgs = told
            .lines()
            .filter_map(|line| line.strip_prefix("cargo::rustc-cfg="));
        assert_eq!(is_linked, cfgs.clone().any(|cfg| cfg == "before"), "{told}");
        let is_limited = !cfgs.clone().any(|cfg| cfg == "before_without_limit");
        (is_linked, is_linked && is_limited, told)
    };
    // One that has the entry with rules came after the limit; of an older one its header says it.
    let header = std::fs::read_to_string(root().join("include/sorbrudder.h")).expect("a file");
    let without = header.replace(", uint32_t limit);", ");");
    for (name, hidden, header, linked, limited) in [
        ("now", &[][..], None, true, true),
        ("now_with_header", &[], Some(without.as_str()), true, true),
        (
            "old_limited",
            &["parse_rules"],
            Some(header.as_str()),
            true,
            true,
        ),
        ("old", &["parse_rules"], Some(without.as_str()), true, false),
        ("unknown", &["parse_rules"], None, false, false),
        (
            "strange",
            &["parse_rules"],
            Some("nothing is declared"),
            false,
            false,
        ),
        ("no_write", &["write"], None, false, false),
        ("none", &[], None, false, false),
    ] {
        let (is_linked, is_limited, told) = before(name, hidden, header);
        assert_eq!((is_linked, is_limited), (linked, limited), "{name}: {told}");
        let why = match name {
            "unknown" | "strange" => "not called by another signature than its own",
            "no_write" => "exports no sorbrudder_write",
            "none" => "there is no libsorbrudder.a",
            _ => "",
        };
        assert!(told.contains(why), "{name}: {told}");
    }
}

/// The build script of `sys` with a folder that has no library.
#[test]
fn a_wrong_folder_for_the_library_is_told_as_such() {
    let folder = folder("build_script");
    let script = build_script(&folder);
    let advice = |library: Option<&str>| {
        let mut run = Command::new(&script);
        run.env("CARGO_CFG_TARGET_ARCH", "x86_64")
            .env("CARGO_CFG_TARGET_OS", "linux");
        run.env_remove("SORBRUDDER_LIB");
        run.envs(library.map(|folder| ("SORBRUDDER_LIB", folder)));
        told(&run.output().expect("it runs"))
    };
    let wrong = advice(Some("/no/such/folder"));
    assert!(wrong.contains("cargo::metadata=FOUND=false"), "{wrong}");
    assert!(
        wrong.contains(
            "ADVICE=SORBRUDDER_LIB names /no/such/folder, where there is no libsorbrudder.a;"
        ),
        "{wrong}"
    );
    let none = advice(None);
    assert!(
        none.contains("no prebuilt one for x86_64-linux; run `make library`"),
        "{none}"
    );
    let prebuilt = folder.join("prebuilt/x86_64-linux");
    std::fs::create_dir_all(&prebuilt).expect("a folder");
    std::fs::write(prebuilt.join("libsorbrudder.a"), "a library").expect("a file");
    let found = advice(None);
    assert!(found.contains("cargo::metadata=FOUND=true"), "{found}");
    // A path that is not there counts as changed, and everything would be built anew each time.
    let watched = found.lines().filter_map(|line| {
        let path = line.strip_prefix("cargo::rerun-if-changed=")?;
        Some(folder.join("sys").join(path))
    });
    let watched: Vec<PathBuf> = watched.filter(|path| !path.ends_with("build.rs")).collect();
    assert!(watched.iter().all(|path| path.exists()), "{found}");
    // A library that is proved here later lies where it is looked for, and comes before the other.
    let proved = folder.join("target/staticlib");
    let is_watched = watched
        .iter()
        .any(|path| path.ends_with("target/staticlib"));
    assert!(is_watched && proved.is_dir(), "{found}");
    std::fs::write(proved.join("libsorbrudder.a"), "a library").expect("a file");
    let found = advice(None);
    assert!(
        found.contains("/target/staticlib/libsorbrudder.a\n"),
        "{found}"
    );
    assert!(!found.contains("/prebuilt/"), "{found}");
}
