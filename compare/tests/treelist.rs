//! The program `treelist` on many inputs: its refusals in their order, inputs of any length, trees, messages, and the answers
//! that are kept in the repository. It is run where `make` puts it (`target/bin/treelist`), or at `TREELIST`; where it is
//! not built, the tests are ignored.

use compare::listing::{bytes, refused, text, tokens, version_word};
use compare::programs::Program;
use oracle::hosts::has_hosts;
use oracle::vectors::{self, Stored};
use oracle::words::{exact_set, list_words, word};

fn program() -> Program {
    Program::named("treelist")
}

/// The bytes of a version and a list.
fn input(version: i16, list: &[u32]) -> Vec<u8> {
    bytes(&[&[version_word(version)], list].concat())
}

fn list(ops: &[u16]) -> Vec<u32> {
    list_words(&tokens(ops))
}

#[test]
#[cfg_attr(not(treelist), ignore = "treelist is not built")]
fn bytes_that_are_no_words_come_first() {
    let program = program();
    for count in [1, 2, 3, 5, 7, 25, 2563, 2565, 2567] {
        assert_eq!(
            program.run(&vec![0xFF; count]),
            refused(1, 0),
            "{count} bytes"
        );
    }
}

#[test]
#[cfg_attr(not(treelist), ignore = "treelist is not built")]
fn the_first_word_is_of_kind_0_and_has_sixteen_bits() {
    let program = program();
    assert_eq!(program.run(&[]), refused(8, 0));
    let sum = list(&[61, 9, 61]);
    for bit in 16..32 {
        let mut words = vec![6 | 1 << bit];
        assert_eq!(program.run(&bytes(&words)), refused(8, 0), "bit {bit}");
        words.extend(&sum);
        assert_eq!(program.run(&bytes(&words)), refused(8, 0), "bit {bit}");
        words.push(0);
        assert_eq!(program.run(&bytes(&words)), refused(8, 0), "bit {bit}");
        words.extend(vec![0; 10_000]);
        assert_eq!(program.run(&bytes(&words)), refused(8, 0), "bit {bit}");
    }
}

#[test]
#[cfg_attr(not(treelist), ignore = "treelist is not built")]
fn later_words_are_whole_tokens_and_128_at_the_most() {
    let program = program();
    for count in [1, 2, 3, 4, 6, 639, 641, 644, 646, 100_001] {
        let found = program.run(&input(6, &vec![0; count]));
        assert_eq!(found, refused(1, 0), "{count} words");
    }
    for count in [645, 650, 20_485, 500_000] {
        let found = program.run(&input(6, &vec![0; count]));
        assert_eq!(found, refused(2, 0), "{count} words");
    }
    let most = list(&[61; 128]);
    let found = program.run(&input(6, &most));
    assert_eq!(found, "messages 1\n1 0 128 128 0 0 0 0\n");
    let more = list(&[61; 129]);
    assert_eq!(program.run(&input(6, &more)), refused(2, 0));
}

#[test]
#[cfg_attr(not(treelist), ignore = "treelist is not built")]
fn no_list_is_too_deep() {
    // The program gives the greatest limit, so that 128 openers are read, and found not to be closed.
    let program = program();
    let openers = list(&[4; 128]);
    let found = program.run(&input(6, &openers));
    assert_eq!(
        found,
        "messages 2\n6 127 128 128 4 5 0 0\n5 0 1 5 4 0 0 0\n"
    );
    let nested = [&[4; 63][..], &[61], &[5; 63]].concat();
    let found = program.run(&input(6, &list(&nested)));
    assert!(found.starts_with("tree 64\n4 1 0 1\n"), "{found}");
}

#[test]
#[cfg_attr(not(treelist), ignore = "treelist is not built")]
fn megabytes_are_read_to_their_end() {
    let program = program();
    let mut long = input(6, &vec![0; 5 * 400_000]);
    assert_eq!(program.run(&long), refused(2, 0));
    long.extend([0; 4]);
    assert_eq!(program.run(&long), refused(1, 0));
    long.push(0);
    assert_eq!(program.run(&long), refused(1, 0));
    long[3] = 0x20;
    assert_eq!(program.run(&long), refused(1, 0));
    long.extend([0; 3]);
    assert_eq!(program.run(&long), refused(8, 0));
}

#[test]
#[cfg_attr(not(treelist), ignore = "treelist is not built")]
fn an_input_in_pieces_is_the_same_input() {
    let program = program();
    let sum = input(6, &list(&[61, 9, 61]));
    let expected = "tree 3\n9 2 1 2\n61 0 0 1\n61 0 2 3\n";
    assert_eq!(program.run(&sum), expected);
    assert_eq!(program.run_pieces(sum.chunks(1)), expected);
}

#[test]
#[cfg_attr(not(treelist), ignore = "treelist is not built")]
fn each_bad_word_is_told_at_its_place() {
    let program = program();
    let good = list(&[61, 9, 61]);
    for place in 0..good.len() {
        let slot = place % 5;
        let mut damages = vec![(8, good[place] ^ 1 << 31), (8, good[place] & 0x1FFF_FFFF)];
        match slot {
            0 => damages.extend([
                (9, word(1, 111)),
                (10, word(1, 13 << 8)),
                (11, word(1, 61 | 1 << 16)),
                (9, word(1, 255 | 15 << 8 | 1 << 28)),
                (9, word(1, 1 << 14)),
                (9, word(1, 61 | 1 << 15 | 1 << 16)),
                (11, word(1, 3 << 12 | 12 << 8 | 0xFF | 1 << 28)),
            ]),
            1 | 2 => {}
            _ => damages.extend([
                (11, word(slot as u32 + 1, 1)),
                (11, word(slot as u32 + 1, 1 << 16)),
            ]),
        }
        for (number, bad) in damages {
            let mut words = good.clone();
            words[place] = bad;
            let found = program.run(&input(6, &words));
            assert_eq!(found, refused(number, place), "{bad:#x} at {place}");
            words.extend([u32::MAX; 5]);
            assert_eq!(program.run(&input(6, &words)), refused(number, place));
        }
    }
}

#[test]
#[cfg_attr(not(treelist), ignore = "treelist is not built")]
fn a_hosts_number_is_printed() {
    let program = program();
    let sum = list(&[256, 9, 1_023]);
    let found = program.run(&input(6, &sum));
    assert_eq!(found, "tree 3\n9 2 1 2\n256 0 0 1\n1023 0 2 3\n");
    // A number whose lower eight bits are a minus or a bracket is an operand, and no pass runs for it.
    let difference = list(&[262, 6, 516]);
    let found = program.run(&input(6, &difference));
    assert_eq!(found, "tree 4\n9 2 1 2\n262 0 0 1\n6 1 1 2\n516 0 2 3\n");
    let found = program.run(&input(6, &list(&[329, 327])));
    assert_eq!(found, "messages 1\n1 0 2 2 0 0 0 0\n");
}

#[test]
#[cfg_attr(not(treelist), ignore = "treelist is not built")]
fn the_source_is_as_long_as_the_highest_end() {
    let program = program();
    assert_eq!(program.run(&input(6, &[])), "messages 1\n1 0 0 0 0 0 0 0\n");
    let mut arrow = tokens(&[61, 72]);
    arrow[0].end = 536_870_911;
    let found = program.run(&input(6, &list_words(&arrow)));
    let expected = "messages 2\n12 1 2 72 0 0 0 0\n1 0 536870911 0 0 0 0 0\n";
    assert_eq!(found, expected);
}

#[test]
#[cfg_attr(not(treelist), ignore = "treelist is not built")]
fn the_version_is_read_in_twos_complement() {
    let program = program();
    let mixed = list(&[61, 56, 61, 57, 61]);
    let or_first = "tree 5\n57 2 3 4\n56 2 1 2\n61 0 0 1\n61 0 2 3\n61 0 4 5\n";
    let and_first = "tree 5\n56 2 1 2\n61 0 0 1\n57 2 3 4\n61 0 2 3\n61 0 4 5\n";
    for version in [i16::MIN, -2, -1, 0, 4, 5] {
        assert_eq!(program.run(&input(version, &mixed)), or_first, "{version}");
    }
    for version in [6, 13, 14, i16::MAX] {
        assert_eq!(program.run(&input(version, &mixed)), and_first, "{version}");
    }
}

#[test]
#[cfg_attr(not(treelist), ignore = "treelist is not built")]
fn the_kept_answers_are_printed() {
    let program = program();
    let (mut compared, mut hosted) = (0, 0);
    for record in vectors::stored().iter().step_by(7) {
        let Stored::Answered { case, answer, .. } = record else {
            continue;
        };
        let end = case.tokens.iter().map(|token| token.end).max().unwrap_or(0);
        let exact = exact_set(&case.tokens) == case.used && end == case.source_len;
        if !exact || case.tokens.len() > 128 {
            continue;
        }
        let found = program.run(&input(case.version, &list_words(&case.tokens)));
        assert_eq!(found, text(answer), "{case:?}");
        compared += 1;
        hosted += usize::from(has_hosts(case));
    }
    assert!(compared >= 1000, "{compared} kept answers");
    assert!(hosted >= 200, "{hosted} of them with hosts");
}
