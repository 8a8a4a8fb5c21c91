//! README.md's program is the example of that name, and prints what its comments say. The commands of README.md and of the pages with the
//! ten-minute paths are commands.

use std::path::Path;
use std::process::Command;

#[test]
fn the_program_of_the_readme_is_the_example() {
    let host = Path::new(env!("CARGO_MANIFEST_DIR"));
    let text = |path: &str| std::fs::read_to_string(host.join(path)).expect("a file");
    let (readme, example) = (text("../README.md"), text("examples/readme.rs"));
    let (_, program) = example.split_once("\n\n").expect("the line on what it is");
    let indented = program.lines().map(|line| match line {
        "" => "\n".to_string(),
        line => format!("    {line}\n"),
    });
    let indented: String = indented.collect();
    assert!(readme.contains(&indented), "README.md has another program");

    let test = std::env::current_exe().expect("this test's own file");
    let folder = test.ancestors().nth(2).expect("target/PROFILE/deps/TEST");
    let run = Command::new(folder.join("examples/readme")).output();
    let run = run.expect("cargo test builds the examples");
    let printed = String::from_utf8(run.stdout).expect("text");
    let told = program.lines().filter(|line| line.contains("println!"));
    let told = told.filter_map(|line| line.split_once("// ").map(|(_, told)| told));
    assert_eq!(printed.lines().count(), 3);
    for (line, told) in printed.lines().zip(told) {
        assert!(told.starts_with(line), "{line}, and not {told}");
    }
}

#[test]
fn every_command_of_the_readme_is_one() {
    let readme = Path::new(env!("CARGO_MANIFEST_DIR")).join("../README.md");
    let readme = std::fs::read_to_string(readme).expect("a file");
    let lines = readme
        .lines()
        .filter_map(|line| line.strip_prefix("    sorbrudder "));
    let mut count = 0;
    let commands = lines.filter_map(|line| line.split(' ').next());
    for command in commands.filter(|command| *command != "=") {
        let mut help = Command::new(env!("CARGO_BIN_EXE_sorbrudder"));
        let help = help.args([command, "--help"]).output().expect("it runs");
        assert_eq!(help.status.code(), Some(0), "{command}");
        count += 1;
    }
    assert!(count > 5, "{count}");
}

#[test]
fn every_command_of_the_readme_and_the_paths_is_one() {
    let root = Path::new(env!("CARGO_MANIFEST_DIR")).join("..");
    let pages = [
        ("README.md", 8),
        ("docs/KEEPER.md", 10),
        ("docs/TEACHER.md", 4),
        ("docs/AUTHOR.md", 3),
    ];
    for (page, least) in pages {
        let text = std::fs::read_to_string(root.join(page)).expect("a file");
        let lines = text
            .lines()
            .filter_map(|line| line.strip_prefix("    sorbrudder "));
        let mut count = 0;
        let commands = lines.filter_map(|line| line.split(' ').next());
        for command in commands.filter(|command| *command != "=") {
            let mut help = Command::new(env!("CARGO_BIN_EXE_sorbrudder"));
            let help = help.args([command, "--help"]).output().expect("it runs");
            assert_eq!(help.status.code(), Some(0), "{page}: {command}");
            count += 1;
        }
        assert!(count >= least, "{page}: {count}");
    }
}
