//! Whatever happens to `lift`, the old file is whole: it is killed at many points, the disk is full, the folder cannot be written.

mod common;

use common::command::{Run, archive, command, folder, run};
use sorbrudder::archive::{Format, ListsWriter};
use std::io::Write as _;
use std::path::{Path, PathBuf};
use std::process::{Command, Stdio};
use std::time::{Duration, Instant};

/// An archive of so many lists that versions 5 and 6 read otherwise.
fn big(lists: usize) -> Vec<u8> {
    let list = "variable.1 && variable.2 || variable.3 && query.4 > 2.5 == 1 || a + b * c - d";
    archive(Format::Container, &vec![(5, list); lists])
}

const IN_PLACE: [&str; 5] = ["lift", "big", "--in-place", "--to", "6"];

/// The file as it is, and as it is when it is lifted.
fn old_and_new(folder: &Path, lists: usize) -> (Vec<u8>, Vec<u8>) {
    let old = big(lists);
    std::fs::write(folder.join("big"), &old).expect("a file");
    let lifted = run(folder, &["lift", "big", "-o", "new", "--to", "6"]);
    assert_eq!(lifted.status, Some(0), "{lifted:?}");
    let new = std::fs::read(folder.join("new")).expect("a file");
    assert_ne!(old, new);
    (old, new)
}

/// Files that a run has left beside its target.
fn left_over(folder: &Path) -> Vec<PathBuf> {
    let names = std::fs::read_dir(folder).expect("a folder");
    let paths = names.map(|name| name.expect("a name").path());
    let is_left = |path: &PathBuf| path.to_string_lossy().contains("/.sorbrudder-");
    paths.filter(is_left).collect()
}

/// Removes what a killed run has left.
fn clear(folder: &Path) {
    for path in left_over(folder) {
        std::fs::remove_file(path).expect("it is removed");
    }
}

#[test]
fn killed_at_any_moment_the_file_is_the_old_or_the_new_one() {
    let folder = folder("killed");
    let (old, new) = old_and_new(&folder, 12_000);
    let since = Instant::now();
    assert_eq!(run(&folder, &IN_PLACE).status, Some(0));
    let whole_run = since.elapsed();
    let (mut killed, mut ended) = (0, 0);
    for point in 0..40u32 {
        std::fs::write(folder.join("big"), &old).expect("a file");
        let mut child = command();
        child
            .current_dir(&folder)
            .args(IN_PLACE)
            .stdout(Stdio::null())
            .stderr(Stdio::null());
        let mut child = child.spawn().expect("it runs");
        std::thread::sleep(whole_run * point / 32);
        child.kill().expect("it is killed or has ended");
        let status = child.wait().expect("it ends");
        let file = std::fs::read(folder.join("big")).expect("the file is there");
        match status.code() {
            Some(0) => {
                ended += 1;
                assert!(
                    file == new,
                    "point {point}: it ended, and the file is not the new one"
                );
            }
            code => {
                assert_eq!(code, None, "point {point}: killed");
                killed += 1;
                assert!(
                    file == old || file == new,
                    "point {point}: {} bytes",
                    file.len()
                );
            }
        }
        clear(&folder);
    }
    assert!(killed >= 10, "{killed} killed, {ended} ended");
}

/// The library that stops a program at one of its calls.
fn stopper(folder: &Path) -> PathBuf {
    let library = folder.join("stop_at.so");
    let source = Path::new(env!("CARGO_MANIFEST_DIR")).join("tests/c/stop_at.c");
    let compiler = std::env::var("CC").unwrap_or_else(|_| "cc".to_string());
    let mut compile = Command::new(compiler);
    compile.args([
        "-std=c11", "-Wall", "-Wextra", "-Werror", "-shared", "-fPIC", "-O1", "-o",
    ]);
    let compiled = compile
        .arg(&library)
        .arg(source)
        .arg("-ldl")
        .output()
        .expect("a C compiler");
    assert!(
        compiled.status.success(),
        "{}",
        String::from_utf8_lossy(&compiled.stderr)
    );
    library
}

/// Stops the run at its first call that changes a file, at its second and so on, until it is not stopped any more; how often it was.
fn stopped_everywhere(name: &str, is_full: bool) -> usize {
    let folder = folder(name);
    let (old, new) = old_and_new(&folder, 2_000);
    let library = stopper(&folder);
    for at in 1..1_000 {
        std::fs::write(folder.join("big"), &old).expect("a file");
        let _ = std::fs::remove_file(folder.join("big.bak"));
        let mut child = command();
        child.current_dir(&folder).args(IN_PLACE).arg("--backup");
        child
            .env("LD_PRELOAD", &library)
            .env("STOP_AT", at.to_string());
        child.envs(is_full.then_some(("STOP_FULL", "yes")));
        let ran = Run::of(child.output().expect("it runs"));
        let file = std::fs::read(folder.join("big")).expect("the file is there");
        let is_whole = file == old || file == new;
        assert!(
            is_whole,
            "stopped at call {at}: {} bytes, {ran:?}",
            file.len()
        );
        if let Ok(backup) = std::fs::read(folder.join("big.bak")) {
            assert!(
                backup == old,
                "stopped at call {at}: the backup is another file"
            );
        }
        match ran.status {
            None => assert!(!is_full, "call {at}: {ran:?}"),
            Some(3) => assert!(is_full && file == old, "call {at}: {ran:?}"),
            status => {
                assert_eq!(status, Some(0), "call {at}: {ran:?}");
                assert!(file == new, "call {at}");
                return at - 1;
            }
        }
        assert!(!is_full || left_over(&folder).is_empty(), "call {at}");
        clear(&folder);
    }
    panic!("it never runs to its end");
}

#[test]
fn killed_at_every_call_the_file_is_whole() {
    // To open, to give rights, some ten writes, to sync, to link, to sync again, to rename, to sync the folder.
    let stopped = stopped_everywhere("killed_at_calls", false);
    assert!(stopped > 10, "{stopped}");
}

#[test]
fn on_a_disk_that_is_full_from_any_call_on_the_file_is_whole() {
    let stopped = stopped_everywhere("full_at_calls", true);
    assert!(stopped > 10, "{stopped}");
}

/// Lifts in place with a bit turned over in each write in turn, until there is no such write; how often a bit was.
fn flipped_everywhere(folder: &Path, options: &[&str]) -> usize {
    let (old, _) = old_and_new(folder, 2_000);
    let library = stopper(folder);
    for at in 1..1_000 {
        let mut child = command();
        child.current_dir(folder).args(IN_PLACE).args(options);
        child
            .env("LD_PRELOAD", &library)
            .env("FLIP_AT", at.to_string());
        let ran = Run::of(child.output().expect("it runs"));
        let is_old = std::fs::read(folder.join("big")).expect("the file is there") == old;
        assert_eq!(left_over(folder), [] as [PathBuf; 0], "write {at}");
        if ran.status == Some(0) {
            assert!(!is_old, "write {at}: {ran:?}");
            return at - 1;
        }
        assert_eq!((ran.status, is_old), (Some(3), true), "write {at}: {ran:?}");
        let told = "what was written reads back otherwise";
        assert!(ran.err.contains(told), "write {at}: {ran:?}");
    }
    panic!("it never runs to its end");
}

#[test]
fn what_reads_back_otherwise_replaces_nothing() {
    let folder = folder("flipped");
    for options in [&[][..], &["--plain"]] {
        let flipped = flipped_everywhere(&folder, options);
        assert!(flipped > 5, "{options:?}: {flipped}");
    }
}

/// Runs the command by a shell, after a line of the shell's own.
fn run_after(folder: &Path, line: &str, words: &[&str]) -> Run {
    let script = format!("{line}; exec \"$0\" \"$@\"");
    let mut shell = Command::new("sh");
    shell
        .current_dir(folder)
        .args(["-c", &script, env!("CARGO_BIN_EXE_sorbrudder")])
        .args(words);
    Run::of(shell.output().expect("a shell"))
}

#[test]
fn where_the_file_cannot_grow_the_old_one_is_whole() {
    let folder = folder("full");
    let (old, _) = old_and_new(&folder, 3_000);
    for blocks in [0, 1, 64, 1_000] {
        // The write fails, as on a full disk.
        let line = format!("trap '' XFSZ; ulimit -f {blocks}");
        let failed = run_after(&folder, &line, &IN_PLACE);
        assert_eq!(failed.status, Some(3), "{blocks} blocks: {failed:?}");
        assert!(failed.err.contains("File too large"), "{}", failed.err);
        assert_eq!(left_over(&folder), [] as [PathBuf; 0]);
        // The system ends it at the write.
        let killed = run_after(&folder, &format!("ulimit -f {blocks}"), &IN_PLACE);
        assert_eq!(killed.status, None, "{blocks} blocks: {killed:?}");
        clear(&folder);
        assert!(std::fs::read(folder.join("big")).expect("the file is there") == old);
    }
    let target = run_after(
        &folder,
        "trap '' XFSZ; ulimit -f 64",
        &["lift", "big", "-o", "other", "--to", "6"],
    );
    assert_eq!(target.status, Some(3));
    assert!(!folder.join("other").exists());
}

#[test]
fn what_a_killed_run_has_left_is_removed_by_the_next() {
    let folder = folder("left");
    let (old, new) = old_and_new(&folder, 10);
    // The shell becomes the command, which has the shell's number then.
    let lifted = run_after(&folder, "echo left > .sorbrudder-$$-0.tmp", &IN_PLACE);
    assert_eq!(lifted.status, Some(0), "{lifted:?}");
    assert!(std::fs::read(folder.join("big")).expect("the file is there") == new);
    assert_eq!(left_over(&folder), [] as [PathBuf; 0]);
    // Killed by the system in the midst of a write, and then run again on another file of the folder.
    std::fs::write(folder.join("big"), &old).expect("a file");
    let killed = run_after(&folder, "ulimit -f 0", &IN_PLACE);
    assert_eq!(killed.status, None, "{killed:?}");
    assert_eq!(left_over(&folder).len(), 1);
    for other in [".sorbrudder-1.tmp", ".sorbrudder-a-1.tmp", ".sorbrudder"] {
        std::fs::write(folder.join(other), "another's").expect("a file");
    }
    let again = run(&folder, &["lift", "new", "-o", "newer", "--to", "6"]);
    assert_eq!(again.status, Some(0), "{again:?}");
    // Only what the command itself has left is removed.
    assert_eq!(left_over(&folder).len(), 2, "{:?}", left_over(&folder));
    assert!(folder.join(".sorbrudder").exists());
}

#[test]
fn what_a_run_at_work_writes_is_not_removed_by_another() {
    let folder = folder("at_work");
    let (old, new) = old_and_new(&folder, 1_000);
    let mut child = command();
    child
        .current_dir(&folder)
        .args(["lift", "-", "-o", "streamed", "--to", "6"])
        .stdin(Stdio::piped())
        .stdout(Stdio::null())
        .stderr(Stdio::null());
    let mut child = child.spawn().expect("it runs");
    let mut input = child.stdin.take().expect("a pipe");
    input.write_all(&old[..1_000]).expect("it reads");
    while left_over(&folder).is_empty() {
        std::thread::sleep(Duration::from_millis(1));
    }
    assert_eq!(run(&folder, &IN_PLACE).status, Some(0));
    assert_eq!(left_over(&folder).len(), 1);
    input.write_all(&old[1_000..]).expect("it reads");
    drop(input);
    assert_eq!(child.wait().expect("it ends").code(), Some(0));
    let streamed = std::fs::read(folder.join("streamed")).expect("a file");
    assert!(streamed == new);
    assert_eq!(left_over(&folder), [] as [PathBuf; 0]);
}

/// Runs a shell's lines where file systems can be mounted; none where the system does not allow it, which is said.
fn run_in_namespace(folder: &Path, script: &str) -> Option<Run> {
    let mut unshare = Command::new("unshare");
    unshare
        .current_dir(folder)
        .args(["-r", "-m", "sh", "-c", script]);
    let ran = unshare
        .arg(env!("CARGO_BIN_EXE_sorbrudder"))
        .output()
        .map(Run::of);
    match ran {
        Ok(ran) if ran.status != Some(77) && !ran.err.starts_with("unshare:") => Some(ran),
        other => {
            eprintln!("no file system can be mounted here, and the test was left out: {other:?}");
            None
        }
    }
}

#[test]
fn on_a_full_file_system_the_old_file_is_whole() {
    let folder = folder("small");
    let (old, _) = old_and_new(&folder, 1_000);
    std::fs::create_dir(folder.join("disk")).expect("a folder");
    // A file system with room for the old file and half of another.
    let script = format!(
        "mount -t tmpfs -o size={}k none disk || exit 77; cp big disk/big; cd disk; \"$0\" lift big --in-place --to 6; echo $?; \
         cmp big ../big && ls -A",
        old.len() * 3 / 2 / 1024
    );
    let Some(ran) = run_in_namespace(&folder, &script) else {
        return;
    };
    assert_eq!(ran.out, "3\nbig\n", "{ran:?}");
    assert!(ran.err.contains("No space left on device"), "{ran:?}");
}

#[test]
fn in_a_folder_that_cannot_be_written_the_old_file_is_whole() {
    let folder = folder("read_only");
    old_and_new(&folder, 10);
    std::fs::create_dir(folder.join("disk")).expect("a folder");
    let script = "mount -t tmpfs none disk || exit 77; cp big disk/big; mount -o remount,ro disk || exit 77; cd disk; \
                  \"$0\" lift big --in-place --to 6; echo $?; cmp big ../big && ls -A";
    let Some(ran) = run_in_namespace(&folder, script) else {
        return;
    };
    assert_eq!(ran.out, "3\nbig\n", "{ran:?}");
    assert!(ran.err.contains("Read-only file system"), "{ran:?}");
}

#[test]
fn a_device_that_is_full_and_a_folder_that_cannot_be_written_are_status_3() {
    let folder = folder("unwritable");
    let (old, _) = old_and_new(&folder, 1_000);
    let full = run_after(
        &folder,
        "exec > /dev/full",
        &["lift", "big", "-o", "-", "--to", "6"],
    );
    assert_eq!(full.status, Some(3), "{full:?}");
    let full = run_after(&folder, "exec > /dev/full", &["ops"]);
    assert_eq!(full.status, Some(3), "{full:?}");
    for target in ["no/such/folder/new", "/proc/new"] {
        let failed = run(&folder, &["lift", "big", "-o", target, "--to", "6"]);
        assert_eq!(failed.status, Some(3), "{failed:?}");
        // It is told of by the name that was given.
        let told = format!("sorbrudder: {target}: no file can be written beside it: ");
        assert!(failed.err.contains(&told), "{}", failed.err);
    }
    assert!(std::fs::read(folder.join("big")).expect("the file is there") == old);
}

/// The most memory that a run has held, in KiB, as the system counts it.
fn most_memory(mut child: std::process::Child) -> u64 {
    let status = format!("/proc/{}/status", child.id());
    let mut most = 0;
    while child.try_wait().expect("it runs").is_none() {
        let text = std::fs::read_to_string(&status).unwrap_or_default();
        let line = text.lines().find_map(|line| line.strip_prefix("VmHWM:"));
        let held = line.and_then(|line| line.split_whitespace().next()?.parse().ok());
        most = most.max(held.unwrap_or(0));
        std::thread::sleep(Duration::from_millis(2));
    }
    most
}

#[test]
fn memory_does_not_grow_with_the_file() {
    let folder = folder("memory");
    let file = std::fs::File::create(folder.join("many")).expect("a file");
    let file = std::io::BufWriter::new(file);
    let mut writer = ListsWriter::new(file, Format::Container).expect("a file");
    let list = common::command::words("variable.1 && variable.2 || variable.3 > 2");
    for _ in 0..200_000 {
        writer.write(5, &list).expect("a file");
    }
    writer.finish().expect("a file");
    let runs = [
        &["lift", "many", "-o", "out", "--to", "6"][..],
        &[
            "lift", "many", "-o", "out", "--to", "6", "--report", "report",
        ],
        &["check", "many", "--json"],
        &["diff", "many", "many", "--to", "6", "--json"],
        &["diff", "many", "--to", "6", "--json", "-j", "4"],
    ];
    for words in runs {
        let mut child = command();
        child
            .current_dir(&folder)
            .args(words)
            .stdout(Stdio::null())
            .stderr(Stdio::null());
        let most = most_memory(child.spawn().expect("it runs"));
        assert!((500..10_000).contains(&most), "{words:?}: {most} KiB");
    }
    std::fs::remove_dir_all(&folder).expect("removed");
}
