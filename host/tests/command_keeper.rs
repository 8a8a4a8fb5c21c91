//! What a keeper trusts the command with: a file that several programs work on at once, its owner and attributes, its other names.

mod common;

use common::command::{Run, SEVEN, archive, command, folder, lists, run, run_line, run_with};
use sorbrudder::archive::Format;
use std::ffi::{CString, c_char, c_int, c_void};
use std::fs::File;
use std::os::fd::AsRawFd as _;
use std::os::unix::ffi::OsStrExt as _;
use std::os::unix::fs::{MetadataExt as _, PermissionsExt, chown, symlink};
use std::os::unix::process::CommandExt as _;
use std::path::Path;
use std::process::{Child, Stdio};
use std::time::Instant;

/// Lists that version 6 reads as version 5 does, and that are settled with more brackets.
fn alike(lists: usize) -> Vec<u8> {
    archive(Format::Container, &vec![(5, "a + b * c - d / e"); lists])
}

fn begin(folder: &Path, words: &[&str]) -> Child {
    let mut child = command();
    child.current_dir(folder).args(words);
    child.stdout(Stdio::null()).stderr(Stdio::piped());
    child.spawn().expect("it runs")
}

fn end(child: Child) -> Run {
    Run::of(child.wait_with_output().expect("it ends"))
}

const LIFT: [&str; 5] = ["lift", "file", "--in-place", "--to", "6"];
const SETTLE: [&str; 6] = ["lift", "file", "--in-place", "--to", "6", "--settle"];

#[test]
fn of_two_runs_at_once_none_undoes_the_other() {
    let folder = folder("pairs");
    let file = folder.join("file");
    let old = alike(60);
    let text = |of: &[&str]| {
        std::fs::write(&file, &old).expect("a file");
        assert_eq!(run(&folder, of).status, Some(0));
        std::fs::read(&file).expect("a file")
    };
    let (lifted, settled) = (text(&LIFT), text(&SETTLE));
    assert_ne!(lifted, settled);
    let (mut both, mut refused) = (0, 0);
    for pair in 0..200 {
        std::fs::write(&file, &old).expect("a file");
        let runs = if pair % 2 == 0 {
            [begin(&folder, &LIFT), begin(&folder, &SETTLE)].map(end)
        } else {
            let [settle, lift] = [begin(&folder, &SETTLE), begin(&folder, &LIFT)].map(end);
            [lift, settle]
        };
        let now = std::fs::read(&file).expect("the file is there");
        let told = "file: another run is lifting it; nothing was written";
        for run in runs.iter().filter(|run| run.status != Some(0)) {
            assert_eq!(run.status, Some(3), "pair {pair}: {run:?}");
            assert!(run.err.contains(told), "pair {pair}: {run:?}");
            refused += 1;
        }
        match runs.each_ref().map(|run| run.status == Some(0)) {
            // Whichever was first, the second worked on what the first left.
            [true, true] => {
                both += 1;
                assert!(now == settled, "pair {pair}: the settled file is lost");
            }
            [true, false] => assert!(now == lifted, "pair {pair}"),
            [false, true] => assert!(now == settled, "pair {pair}"),
            [false, false] => panic!("pair {pair}: {runs:?}"),
        }
    }
    assert_eq!(both + refused, 200);
    assert!(refused > 0, "no two runs met");
}

#[test]
fn what_another_program_writes_meanwhile_is_never_lost() {
    let folder = folder("meanwhile");
    let file = folder.join("file");
    let (old, other) = (alike(3_000), alike(2_999));
    std::fs::write(&file, &other).expect("a file");
    assert_eq!(run(&folder, &LIFT).status, Some(0));
    let other_lifted = std::fs::read(&file).expect("a file");
    std::fs::write(&file, &old).expect("a file");
    let since = Instant::now();
    assert_eq!(run(&folder, &LIFT).status, Some(0));
    let whole_run = since.elapsed();
    let (mut refused, rounds) = (0, 120u32);
    for round in 0..rounds {
        std::fs::write(&file, &old).expect("a file");
        let child = begin(&folder, &LIFT);
        std::thread::sleep(whole_run * round / rounds);
        // In the file's place, or to the file itself.
        if round % 3 == 0 {
            std::fs::write(&file, &other).expect("a file");
        } else {
            std::fs::write(folder.join("new"), &other).expect("a file");
            std::fs::rename(folder.join("new"), &file).expect("renamed");
        }
        let run = end(child);
        let now = std::fs::read(&file).expect("the file is there");
        assert!(
            now == other || now == other_lifted,
            "round {round}: what the other program wrote is lost: {run:?}"
        );
        match run.status {
            Some(0) => {}
            Some(3) => {
                refused += 1;
                let told = "file: another program changed it while it was lifted";
                assert!(run.err.contains(told), "round {round}: {run:?}");
                assert!(now == other, "round {round}");
            }
            // It was read while it was half written.
            status => assert_eq!((status, round % 3), (Some(4), 0), "{run:?}"),
        }
    }
    assert!(refused > rounds / 10, "{refused} of {rounds}");
    let left = std::fs::read_dir(&folder).expect("a folder").count();
    assert_eq!(left, 1, "nothing is left beside the file");
}

/// Whether the tests may give files away; where they may not, that is said.
fn is_root(folder: &Path) -> bool {
    let is_root = folder.metadata().expect("a folder").uid() == 0;
    if !is_root {
        eprintln!("only root can give a file away: the test was left out");
    }
    is_root
}

/// A user and a group that are not root's.
const NOBODY: u32 = 65_534;

#[test]
fn owner_and_group_are_kept() {
    let folder = folder("owner");
    if !is_root(&folder) {
        return;
    }
    let file = folder.join("file");
    std::fs::write(&file, alike(3)).expect("a file");
    chown(&file, Some(NOBODY), Some(NOBODY - 1)).expect("root gives it away");
    std::fs::set_permissions(&file, PermissionsExt::from_mode(0o640)).expect("its rights");
    let lifted = run(&folder, &LIFT);
    assert_eq!(lifted.status, Some(0), "{lifted:?}");
    let now = file.metadata().expect("a file");
    assert_eq!((now.uid(), now.gid()), (NOBODY, NOBODY - 1));
    assert_eq!(now.mode() & 0o7777, 0o640);
    assert!(
        lists(&std::fs::read(&file).expect("a file"))
            .iter()
            .all(|(version, _)| *version == 6)
    );
}

#[test]
fn a_file_whose_owner_cannot_be_kept_is_turned_back() {
    let folder = folder("others");
    if !is_root(&folder) {
        return;
    }
    let old = alike(3);
    std::fs::write(folder.join("file"), &old).expect("a file");
    std::fs::set_permissions(&folder, PermissionsExt::from_mode(0o777)).expect("its rights");
    // The test's own folder may be one that nobody else can enter.
    let program = folder.join("sorbrudder");
    std::fs::copy(env!("CARGO_BIN_EXE_sorbrudder"), &program).expect("a program");
    let mut child = std::process::Command::new("./sorbrudder");
    child.current_dir(&folder).args(LIFT);
    child.uid(NOBODY).gid(NOBODY);
    let Ok(ran) = child.output() else {
        eprintln!("the folder cannot be entered by others: the test was left out");
        return;
    };
    let ran = Run::of(ran);
    assert_eq!(ran.status, Some(3), "{ran:?}");
    let told = "file: its owner (user 0, group 0) cannot be kept: ";
    assert!(ran.err.contains(told), "{ran:?}");
    assert!(ran.err.contains("; nothing was written"), "{ran:?}");
    let now = std::fs::read(folder.join("file")).expect("a file");
    assert!(now == old);
    let left = std::fs::read_dir(&folder).expect("a folder").count();
    assert_eq!(left, 2, "nothing is left beside the file");
}

unsafe extern "C" {
    fn setxattr(
        path: *const c_char,
        name: *const c_char,
        value: *const c_void,
        size: usize,
        flags: c_int,
    ) -> c_int;
    fn getxattr(path: *const c_char, name: *const c_char, value: *mut c_void, size: usize)
    -> isize;
    fn flock(file: c_int, lock: c_int) -> c_int;
}

fn path_of(file: &Path) -> CString {
    CString::new(file.as_os_str().as_bytes()).expect("a path")
}

fn set(file: &Path, name: &str, value: &[u8]) -> bool {
    let (path, name) = (path_of(file), CString::new(name).expect("a name"));
    let (from, size) = (value.as_ptr().cast(), value.len());
    // SAFETY: the texts end with a zero, and the value is as long as is said.
    unsafe { setxattr(path.as_ptr(), name.as_ptr(), from, size, 0) == 0 }
}

fn get(file: &Path, name: &str) -> Option<Vec<u8>> {
    let (path, name) = (path_of(file), CString::new(name).expect("a name"));
    let mut value = vec![0; 1 << 12];
    let (to, size) = (value.as_mut_ptr().cast(), value.len());
    // SAFETY: the texts end with a zero, and the buffer is as long as is said.
    let len = unsafe { getxattr(path.as_ptr(), name.as_ptr(), to, size) };
    value.truncate(usize::try_from(len).ok()?);
    Some(value)
}

#[test]
fn extended_attributes_are_kept() {
    let folder = folder("attributes");
    let file = folder.join("file");
    std::fs::write(&file, alike(3)).expect("a file");
    if !set(&file, "user.keeper", b"mill") {
        eprintln!("the file system has no extended attributes: the test was left out");
        return;
    }
    assert!(set(&file, "user.empty", b""));
    let lifted = run(&folder, &LIFT);
    assert_eq!(lifted.status, Some(0), "{lifted:?}");
    assert_eq!(get(&file, "user.keeper").as_deref(), Some(&b"mill"[..]));
    assert_eq!(get(&file, "user.empty").as_deref(), Some(&b""[..]));
    // A file that is there already keeps its own.
    assert_eq!(run_line(&folder, "lift file -o new --to 6").status, Some(0));
    assert_eq!(get(&folder.join("new"), "user.keeper"), None);
}

#[test]
fn a_file_with_two_names_is_turned_back() {
    let folder = folder("names");
    let old = alike(3);
    std::fs::create_dir(folder.join("in")).expect("a folder");
    std::fs::write(folder.join("in/one"), &old).expect("a file");
    std::fs::hard_link(folder.join("in/one"), folder.join("in/two")).expect("a second name");
    let before = folder.join("in/one").metadata().expect("a file");
    for line in [
        "lift in --in-place --to 6",
        "lift in/two --in-place --backup --to 6",
        "lift in/one -o in/two --to 6",
    ] {
        let ran = run_line(&folder, line);
        assert_ne!(ran.status, Some(0), "{line}: {ran:?}");
    }
    let ran = run_line(&folder, "lift in --in-place --to 6");
    assert_eq!(ran.status, Some(3), "{ran:?}");
    let told = "in/one: it has 2 names (hard links), and only one would lead to the new file; nothing was written";
    assert!(ran.err.contains(told), "{ran:?}");
    for name in ["in/one", "in/two"] {
        let now = folder.join(name).metadata().expect("a file");
        assert_eq!(now.ino(), before.ino());
        assert!(std::fs::read(folder.join(name)).expect("a file") == old);
    }
    // A backup that a run has left before it was ended is no such name.
    std::fs::rename(folder.join("in/two"), folder.join("in/one.bak")).expect("renamed");
    let ran = run_line(&folder, "lift in --in-place --backup --to 6");
    assert_eq!(ran.status, Some(0), "{ran:?}");
    assert!(std::fs::read(folder.join("in/one.bak")).expect("a file") == old);
    let lifted = folder.join("in/one").metadata().expect("a file");
    assert_eq!(lifted.nlink(), 1);
}

/// A run that takes up several names of one file at once does not take itself for another run.
#[test]
fn names_of_one_file_taken_up_at_once_are_each_turned_back() {
    let folder = folder("at-once");
    let old = alike(3);
    std::fs::create_dir(folder.join("in")).expect("a folder");
    let names: Vec<String> = (0..16).map(|name| format!("in/{name}")).collect();
    std::fs::write(folder.join(&names[0]), &old).expect("a file");
    for name in &names[1..] {
        std::fs::hard_link(folder.join(&names[0]), folder.join(name)).expect("another name");
    }
    for _ in 0..20 {
        let ran = run_line(&folder, "lift in --in-place -j 8 --to 6");
        assert_eq!(ran.status, Some(3), "{ran:?}");
        for name in &names {
            let told = format!("{name}: it has 16 names (hard links)");
            assert!(ran.err.contains(&told), "{ran:?}");
        }
    }
    assert!(std::fs::read(folder.join(&names[0])).expect("a file") == old);
}

/// The names of a file that another run holds are not counted: one may be a backup that the other run is making.
#[test]
fn a_file_that_another_run_holds_is_told_of_as_held() {
    let folder = folder("held");
    let (file, old) = (folder.join("file"), alike(3));
    std::fs::write(&file, &old).expect("a file");
    std::fs::hard_link(&file, folder.join("other")).expect("another name");
    let held = File::open(&file).expect("a file");
    // SAFETY: the file is open, and 2 | 4 asks for its one lock at once.
    assert_eq!(unsafe { flock(held.as_raw_fd(), 2 | 4) }, 0);
    let ran = run(&folder, &LIFT);
    assert_eq!(ran.status, Some(3), "{ran:?}");
    let told = "file: another run is lifting it; nothing was written";
    assert!(ran.err.contains(told), "{ran:?}");
    assert!(std::fs::read(&file).expect("a file") == old);
}

#[test]
fn a_link_is_told_of_by_its_own_name() {
    let folder = folder("link_names");
    std::fs::create_dir(folder.join("deeper")).expect("a folder");
    std::fs::write(folder.join("deeper/file"), alike(3)).expect("a file");
    std::fs::hard_link(folder.join("deeper/file"), folder.join("deeper/two")).expect("a name");
    symlink("deeper/file", folder.join("link")).expect("a link");
    let ran = run_line(&folder, "lift link --in-place --to 6");
    assert_eq!(ran.status, Some(3), "{ran:?}");
    assert!(
        ran.err.starts_with("sorbrudder: link: it has 2 names"),
        "{ran:?}"
    );
}

#[test]
fn a_file_whose_lists_all_stay_is_not_touched() {
    let folder = folder("untouched");
    for format in [Format::Container, Format::Words] {
        let file = folder.join("file");
        std::fs::write(&file, archive(format, &SEVEN)).expect("a file");
        let lifted = run(&folder, &LIFT);
        assert_eq!(lifted.status, Some(1), "{lifted:?}");
        assert!(!lifted.err.contains("left as they are"), "{lifted:?}");
        let before = file.metadata().expect("a file");
        let again = run_line(&folder, "lift file --in-place --backup --to 6");
        assert_eq!(again.status, Some(1), "{again:?}");
        let told = "1 files were left as they are, since all their lists stay\n";
        assert!(again.err.contains(told), "{again:?}");
        let now = file.metadata().expect("a file");
        assert_eq!(now.ino(), before.ino());
        assert_eq!(
            now.modified().expect("a time"),
            before.modified().expect("a time")
        );
        assert!(!folder.join("file.bak").exists());
        let left = std::fs::read_dir(&folder).expect("a folder").count();
        assert_eq!(left, 1);
    }
}

#[test]
fn a_file_stays_plain_or_a_container_unless_it_is_asked_for() {
    let folder = folder("stays_plain");
    let plain = archive(Format::Words, &SEVEN);
    let container = archive(Format::Container, &SEVEN);
    let is_container = |bytes: &[u8]| bytes.starts_with(b"\x89SBR");
    let changes = "a plain file of words becomes a container";
    let back = "a container becomes a plain file of words";
    for (old, option, told) in [
        (&plain, None, None),
        (&plain, Some("--plain"), None),
        (&plain, Some("--container"), Some(changes)),
        (&container, None, None),
        (&container, Some("--container"), None),
        (&container, Some("--plain"), Some(back)),
    ] {
        std::fs::write(folder.join("file"), old).expect("a file");
        let ran = run(&folder, &[&LIFT[..], option.as_slice()].concat());
        let now = std::fs::read(folder.join("file")).expect("a file");
        let is_other = is_container(&now) != is_container(old);
        assert_eq!(is_other, told.is_some(), "{option:?}: {ran:?}");
        for change in [changes, back] {
            let told = told == Some(change);
            assert_eq!(ran.err.contains(change), told, "{option:?}: {ran:?}");
        }
        // A file in which nothing but the format changes is written too.
        let other = if is_container(&now) {
            "--plain"
        } else {
            "--container"
        };
        let turned = run(&folder, &[&LIFT[..], &[other]].concat());
        let turned_now = std::fs::read(folder.join("file")).expect("a file");
        assert_ne!(is_container(&turned_now), is_container(&now), "{turned:?}");
        assert_eq!(lists(&turned_now), lists(&now));
    }
    let both = run_line(&folder, "lift file --in-place --to 6 --plain --container");
    assert_eq!(both.status, Some(2), "{both:?}");
}

#[test]
fn no_plain_file_is_written_that_check_calls_damaged() {
    let folder = folder("empty_plain");
    std::fs::write(folder.join("file"), archive(Format::Container, &[])).expect("a file");
    let zeros = vec![(0, ""); 16];
    std::fs::write(folder.join("zeros"), archive(Format::Container, &zeros)).expect("a file");
    for name in ["file", "zeros"] {
        assert_ne!(run(&folder, &["check", name]).status, Some(4));
        let plain = run(
            &folder,
            &["lift", name, "-o", "out", "--plain", "--to", "6"],
        );
        // At version 6 the lists are no zeros any more.
        let is_written = name == "zeros" && plain.status != Some(3);
        assert_eq!(folder.join("out").exists(), is_written, "{plain:?}");
        if is_written {
            assert_ne!(run_line(&folder, "check out").status, Some(4));
        }
    }
    let plain = run_line(&folder, "lift file -o plain --plain --to 6");
    assert_eq!(plain.status, Some(3), "{plain:?}");
    let told = "a plain file of words has at least one list";
    assert!(plain.err.contains(told), "{plain:?}");
    let empty = archive(Format::Container, &[]);
    let words = ["lift", "-", "-o", "-", "--plain", "--to", "6"];
    let (streamed, bytes) = run_with(&folder, &words, &empty);
    assert_eq!((streamed.status, bytes.len()), (Some(3), 0));
    assert_eq!(
        run_line(&folder, "lift file -o again --to 6").status,
        Some(0)
    );
    assert_eq!(run_line(&folder, "check again").status, Some(0));
}
