//! C programs that include the header and link the library: one reads a list, one puts a tree into stack order and runs it there, one says
//! which rule made each node, one has names of its own, one holds a list open, one holds every number of the header to the crate's.

mod common;

use common::kept_lists;
use sorbrudder::{Op, Payload, ReadError, Reader, Refusal, Rule, Token, Tree};
use std::collections::BTreeSet;
use std::path::{Path, PathBuf};
use std::process::Command;

/// Compiles a program, with warnings as errors, and gives its path.
fn compiled(compiler: &str, language: &[&str], source: &Path, name: &str) -> PathBuf {
    let program = Path::new(env!("CARGO_TARGET_TMPDIR")).join(name);
    let include = Path::new(env!("CARGO_MANIFEST_DIR")).join("../include");
    let mut command = Command::new(compiler);
    command
        .args(language)
        .args(["-Wall", "-Wextra", "-Wpedantic", "-Werror", "-O1"]);
    command.arg("-I").arg(include).arg(source);
    // The archive is no source of the language.
    command
        .args(["-x", "none"])
        .arg(env!("SORBRUDDER_ARCHIVE"))
        .arg("-o")
        .arg(&program);
    let built = command.output().expect("a compiler");
    let told = String::from_utf8_lossy(&built.stderr);
    assert!(built.status.success(), "{told}");
    program
}

fn c_compiler() -> String {
    std::env::var("CC").unwrap_or_else(|_| "cc".to_string())
}

/// A program of tests/c, and the lines that it prints.
struct Program {
    name: &'static str,
    lines: &'static [&'static str],
}

const READ_ONE: Program = Program {
    name: "read_one",
    lines: &[
        "tree 4",
        "4 1 0 1 closes 5",
        "9 2 2 3 closes 3",
        "61 0 1 2 closes 2",
        "61 0 3 4 closes 4",
        "tokens 5",
        "refused 8 0",
        "refused 3 0",
        "refused 12 27",
        "refused 17 0",
        "refused 18 1",
    ],
};

const STACK_ORDER: Program = Program {
    name: "stack_order",
    lines: &[
        "nodes 5: 61 61 61 31 9",
        "value 14",
        "refused 12 34",
        "refused 24 5",
        "refused 25 0",
        "refused 25 0",
    ],
};

const RULES: Program = Program {
    name: "rules",
    lines: &[
        "version 5: 57 AND 54 comparison 56 OR",
        "version 6: 56 OR 57 AND 54 equality",
        "refused 16 0",
        "refused 8 0",
        "messages 1",
    ],
};

const HOST_NAMES: Program = Program {
    name: "host_names",
    lines: &[
        "9 2",
        "262 0 of the host",
        "31 2",
        "1023 0 of the host",
        "61 0",
        "tokens 7",
        "refused 9 0",
        "refused 11 0",
    ],
};

const OPEN_LIST: Program = Program {
    name: "open_list",
    lines: &[
        "open: refused 15 0, 9 tokens at 9, 9 edits",
        "open: refused 1 0, 9 tokens at 9, 9 edits",
        "open: done 3, 3 tokens at 5, 0 edits",
        "ask: message 12 at 3-4, 3 tokens at 5, 0 edits",
        "ask: refused 22 0, 3 tokens at 5, 0 edits",
        "ask: done 5, 3 tokens at 5, 0 edits",
        "commit: refused 21 0, 3 tokens at 5, 0 edits",
        "commit: done 5, 5 tokens at 5, 1 edits",
        "root 57",
        "commit: refused 21 0, 5 tokens at 5, 1 edits",
        "adopt: done 0, 5 tokens at 6, 2 edits",
        "ask: done 5, 5 tokens at 6, 2 edits",
        "root 56",
        "adopt: refused 23 0, 5 tokens at 6, 4294967295 edits",
        "commit: refused 23 0, 5 tokens at 6, 4294967295 edits",
        "ask: refused 2 0, 4097 tokens at 6, 4294967295 edits",
    ],
};

impl Program {
    fn runs_in_c(&self) {
        self.runs(&c_compiler(), &["-std=c11"], self.name);
    }

    fn runs_in_cpp(&self) {
        let is_there = Command::new("c++").arg("--version").output().is_ok();
        if is_there {
            let language = ["-std=c++17", "-x", "c++"];
            self.runs("c++", &language, &format!("{}_cpp", self.name));
        }
    }

    /// Compiles the program, runs it and looks at what it prints.
    fn runs(&self, compiler: &str, language: &[&str], name: &str) {
        let source = Path::new(env!("CARGO_MANIFEST_DIR")).join(format!("tests/c/{}.c", self.name));
        let program = compiled(compiler, language, &source, name);
        let run = Command::new(program).output().expect("the program runs");
        let printed = String::from_utf8_lossy(&run.stdout);
        assert!(run.status.success(), "{}, after {printed}", run.status);
        assert_eq!(printed.lines().collect::<Vec<_>>(), self.lines);
    }
}

#[test]
fn a_c_program_reads_one_list() {
    READ_ONE.runs_in_c();
}

#[test]
fn a_cpp_program_reads_one_list() {
    READ_ONE.runs_in_cpp();
}

#[test]
fn a_c_program_runs_a_tree_in_stack_order() {
    STACK_ORDER.runs_in_c();
}

#[test]
fn a_cpp_program_runs_a_tree_in_stack_order() {
    STACK_ORDER.runs_in_cpp();
}

#[test]
fn a_c_program_says_which_rule_made_each_node() {
    RULES.runs_in_c();
}

#[test]
fn a_cpp_program_says_which_rule_made_each_node() {
    RULES.runs_in_cpp();
}

#[test]
fn a_c_program_has_names_of_its_own() {
    HOST_NAMES.runs_in_c();
}

#[test]
fn a_cpp_program_has_names_of_its_own() {
    HOST_NAMES.runs_in_cpp();
}

#[test]
fn a_c_program_holds_a_list_open() {
    OPEN_LIST.runs_in_c();
}

#[test]
fn a_cpp_program_holds_a_list_open() {
    OPEN_LIST.runs_in_cpp();
}

/// A name of a Rust variant as the header writes it: `NotWhole` as `NOT_WHOLE`.
fn snake(name: &str) -> String {
    let mut snake = String::new();
    for c in name.chars() {
        if c.is_ascii_uppercase() && !snake.is_empty() {
            snake.push('_');
        }
        snake.push(c.to_ascii_uppercase());
    }
    snake
}

/// The name of a variant, out of its Debug text.
fn variant(value: impl std::fmt::Debug) -> String {
    let text = format!("{value:?}");
    let name: String = text
        .chars()
        .take_while(char::is_ascii_alphanumeric)
        .collect();
    snake(&name)
}

/// The messages' names and numbers, of all lists that were kept.
fn messages() -> BTreeSet<(String, u64)> {
    let mut found = BTreeSet::new();
    let mut reader = Reader::new();
    for (list, version) in kept_lists()
        .iter()
        .flat_map(|list| [4, 6].map(|v| (list, v)))
    {
        if let Err(ReadError::Messages(messages)) = reader.read_words(list, version) {
            found.extend(messages.iter().map(|m| (variant(m), u64::from(m.number()))));
        }
    }
    found
}

fn named(prefix: &str, name: &str) -> String {
    format!("SORBRUDDER_{prefix}_{name}")
}

/// The enums of the header, by what the crate has.
fn enums() -> Vec<(String, u64)> {
    let ops = Op::all().map(|op| (named("OP", op.name()), u64::from(op.number())));
    let payloads = (0..13).map(|number| {
        let payload = Payload::from_bits(number, 0).expect("a variant");
        (named("PAYLOAD", &variant(payload)), u64::from(number))
    });
    let refusals = [
        Refusal::NotWhole,
        Refusal::TooManyTokens,
        Refusal::SourceTooLong,
        Refusal::WrongKind { word: 0 },
        Refusal::UnknownOperator { word: 0 },
        Refusal::UnknownPayload { word: 0 },
        Refusal::OtherBits { word: 0 },
    ];
    let refusal = |refusal: Refusal| (named("REFUSAL", &variant(refusal)), refusal.number().into());
    // No rule buffer and no limit of the crate is refused; a list that is too deep, and what only an open list is refused with, are errors
    // of their own.
    let others = [
        ("RULE_BUFFER", 16),
        ("LIMIT", 17),
        ("TOO_DEEP", 18),
        ("OTHER_EDIT_COUNT", 21),
        ("PAST_THE_END", 22),
        ("LAST_EDIT", 23),
    ];
    let others = others.map(|(name, number)| (named("REFUSAL", name), number));
    let rules = Rule::ALL.map(|rule| (named("RULE", &variant(rule)), rule.number().into()));
    let leaf = (named("RULE", "LEAF"), 0);
    let messages = messages();
    assert_eq!(messages.len(), 17);
    let messages = messages
        .into_iter()
        .map(|(name, number)| (named("MESSAGE", &name), number));
    ops.chain(payloads)
        .chain(refusals.map(refusal))
        .chain(others)
        .chain(rules)
        .chain([leaf])
        .chain(messages)
        .collect()
}

/// The sizes and versions of the header, by what the crate has.
fn sizes() -> Vec<(String, u64)> {
    let version = env!("CARGO_PKG_VERSION").split('.');
    let version: Vec<usize> = version
        .map(|part| part.parse().expect("a number"))
        .collect();
    let sizes = [
        ("TOKEN_WORDS", Token::WORDS),
        ("NODE_WORDS", Tree::NODE_WORDS),
        ("MESSAGE_WORDS", sorbrudder_sys::MESSAGE_WORDS),
        ("MOST_TOKENS", sorbrudder::MOST_TOKENS),
        ("MOST_NESTING", sorbrudder::Limit::MOST.get() as usize),
        ("FIRST_HOST", usize::from(*Op::HOSTS.start())),
        ("LAST_HOST", usize::from(*Op::HOSTS.end())),
        ("MESSAGE_BUFFER", sorbrudder_sys::MESSAGE_BUFFER),
        ("LIST_BUFFER", sorbrudder_sys::HELD_WORDS),
        ("LAST_EDIT", u32::MAX as usize),
        ("TREE_BUFFER(1)", sorbrudder_sys::tree_buffer(1)),
        ("TREE_BUFFER(4096)", sorbrudder_sys::tree_buffer(4096)),
        ("WORK_BUFFER(1)", sorbrudder_sys::work_buffer(1)),
        ("WORK_BUFFER(4096)", sorbrudder_sys::work_buffer(4096)),
        ("RULE_BUFFER(1)", sorbrudder_sys::rule_buffer(1)),
        ("RULE_BUFFER(4096)", sorbrudder_sys::rule_buffer(4096)),
        ("WORD_CHILDREN", Token::WORDS),
        ("WORD_CLOSE", Tree::NODE_WORDS - 1),
        ("VERSION_MAJOR", version[0]),
        ("VERSION_MINOR", version[1]),
        ("VERSION_PATCH", version[2]),
    ];
    sizes
        .map(|(name, number)| (format!("SORBRUDDER_{name}"), number as u64))
        .to_vec()
}

#[test]
fn every_number_of_the_header_is_the_crates() {
    let mut program = String::from("#include \"sorbrudder.h\"\n");
    for (name, number) in enums().into_iter().chain(sizes()) {
        program += &format!("_Static_assert({name} == {number}, \"{name}\");\n");
    }
    program +=
        "int main(void) { return sorbrudder_abi_version() == SORBRUDDER_ABI_VERSION ? 0 : 1; }\n";
    let source = Path::new(env!("CARGO_TARGET_TMPDIR")).join("numbers.c");
    std::fs::write(&source, program).expect("a file");
    let program = compiled(&c_compiler(), &["-std=c11"], &source, "numbers");
    let run = Command::new(program).status().expect("the program runs");
    assert!(run.success(), "{run}");
}

#[test]
fn a_header_of_another_layout_is_found_out() {
    let include = Path::new(env!("CARGO_MANIFEST_DIR")).join("../include/sorbrudder.h");
    let header = std::fs::read_to_string(include).expect("the header");
    let of_nodes = |words: usize| format!("#define SORBRUDDER_NODE_WORDS {words}\n");
    for words in [Tree::NODE_WORDS - 1, Tree::NODE_WORDS + 1] {
        let other = header.replace(&of_nodes(Tree::NODE_WORDS), &of_nodes(words));
        assert_ne!(other, header);
        let program = other + "int main(void) { return (int)sorbrudder_abi_version(); }\n";
        let source = Path::new(env!("CARGO_TARGET_TMPDIR")).join(format!("other{words}.c"));
        std::fs::write(&source, program).expect("a file");
        let program = compiled(
            &c_compiler(),
            &["-std=c11"],
            &source,
            &format!("other{words}"),
        );
        let run = Command::new(program).status().expect("the program runs");
        assert_eq!(
            run.code(),
            Some(0),
            "{words} words a node are not the library's"
        );
    }
}

#[test]
fn a_library_without_a_limit_or_without_hosts_is_found_out() {
    // Such a library knows how long a tree buffer has to be. It reads the list whatever the limit is, or has no bits from 12 on.
    let library = "\
#include \"sorbrudder.h\"

uint64_t sorbrudder_parse(const uint32_t *list, size_t list_words, uint32_t *tree, size_t tree_words, uint32_t *messages,
                          size_t message_words, uint32_t *work, size_t work_words, uint64_t source_length, int16_t version,
                          uint64_t used_low, uint64_t used_high, uint32_t limit) {
    (void)list_words, (void)tree, (void)messages, (void)message_words, (void)work, (void)work_words;
    (void)source_length, (void)version, (void)used_low, (void)used_high;
    unsigned refusal = tree_words < SORBRUDDER_TREE_BUFFER(1) ? SORBRUDDER_REFUSAL_TREE_BUFFER
                       : limit == 0 && KNOWS_LIMIT             ? SORBRUDDER_REFUSAL_LIMIT
                       : (list[0] & 0xf000) && !KNOWS_HOSTS    ? SORBRUDDER_REFUSAL_OTHER_BITS
                                                               : 0;
    return refusal ? (uint64_t)SORBRUDDER_REFUSED << 40 | (uint64_t)refusal << 32 : 1;
}

int main(void) { return (int)sorbrudder_abi_version(); }
";
    let folder = Path::new(env!("CARGO_TARGET_TMPDIR"));
    for (limit, hosts, found) in [(0, 0, 0), (1, 0, 0), (0, 1, 0), (1, 1, 3)] {
        let name = format!("knows{limit}{hosts}");
        let source = folder.join(format!("{name}.c"));
        let knows = format!("#define KNOWS_LIMIT {limit}\n#define KNOWS_HOSTS {hosts}\n");
        let program = knows + library;
        std::fs::write(&source, program).expect("a file");
        let program = compiled(&c_compiler(), &["-std=c11"], &source, &name);
        let run = Command::new(program).status().expect("the program runs");
        assert_eq!(run.code(), Some(found), "{name}");
    }
}
