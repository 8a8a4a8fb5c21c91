//! Hosts' own names, numbers 256 to 1,023: as tokens, in sets, read, written and lifted, in archives, and as the command shows them.

mod common;

use common::command::{archive, folder, lists, run, run_line};
use common::{Rng, kept_lists};
use sorbrudder::archive::Format;
use sorbrudder::{
    Lifter, Op, Payload, ReadError, Reader, Span, Token, Tokens, Tree, Unplain, Used, WriteError,
    Writer, lift,
};

fn parsed(text: &str) -> Tokens {
    text.parse().expect("the notation")
}

#[test]
fn every_number_of_twelve_bits_in_a_word_of_every_payload() {
    let span = Span::new(5, 2).expect("a span");
    for number in 0..4_096u16 {
        let op = Op::new(number);
        let is_host = (256..1_024).contains(&number);
        assert_eq!(op.is_some(), number < 111 || is_host, "{number}");
        assert_eq!(Op::host(number), op.filter(|op| op.is_host()));
        assert_eq!(Op::host(number).is_some(), is_host, "{number}");
        assert_eq!(Op::HOSTS.contains(&number), is_host, "{number}");
        for variant in 0..16 {
            let payload = Payload::from_bits(variant, if variant == 0 { 0 } else { 7 });
            let first = 1 << 29
                | u32::from(number / 256) << 12
                | u32::from(variant) << 8
                | u32::from(number % 256);
            let value = if variant == 0 { 0 } else { 7 };
            let words = [first, 2 << 29 | 5, 3 << 29 | 2, 4 << 29, 5 << 29 | value];
            let token = op
                .zip(payload)
                .map(|(op, payload)| Token { op, payload, span });
            assert_eq!(Token::from_words(words), token, "{number}, {variant}");
            assert_eq!(token.map(Token::words), token.map(|_| words));
            for bit in 16..29 {
                let mut other = words;
                other[0] |= 1 << bit;
                assert_eq!(Token::from_words(other), None, "{number}, bit {bit}");
            }
        }
    }
}

#[test]
fn a_number_is_shown_and_found_again() {
    for number in Op::HOSTS {
        let op = Op::host(number).expect("a host's");
        assert_eq!(op.to_string(), format!("#{number}"));
        assert_eq!(op.to_string().parse(), Ok(op));
        assert_eq!(format!("{op:?}"), format!("HOST ({number})"));
        assert_eq!(u16::from(op), number);
        assert_eq!(Op::try_from(number), Ok(op));
        assert!(!op.is_call() && !op.is_math_call());
        assert_eq!(
            (op.name(), op.text(), op.words()),
            ("HOST", "host", "host value")
        );
    }
    assert_eq!(
        format!("{:>6}|", Op::host(300).expect("a host's")),
        "  #300|"
    );
    for wrong in [
        "#", "#111", "#255", "#1024", "#-1", "#65792", "host", "HOST",
    ] {
        assert!(wrong.parse::<Op>().is_err(), "{wrong}");
    }
}

#[test]
fn sets_pass_hosts_over() {
    for number in Op::HOSTS {
        let host = Op::host(number).expect("a host's");
        for used in [Used::EMPTY, Used::FULL, Used::EMPTY.with(Op::ADD)] {
            assert!(!used.contains(host), "{number}");
            assert_eq!((used.with(host), used.without(host)), (used, used));
        }
        assert_eq!([host].into_iter().collect::<Used>(), Used::EMPTY);
        let words = Token::bare(host, Span::default()).words();
        assert_eq!(Used::exact_words(&words), Used::EMPTY, "{number}");
    }
    assert_eq!(Used::FULL.ops().count(), Op::COUNT);
    let mut extended = Used::EMPTY;
    extended.extend([Op::host(265).expect("a host's"), Op::MUL]);
    assert_eq!(extended, Used::EMPTY.with(Op::MUL));
}

/// Trees of lists with hosts, whose lower eight bits are `-`, `(`, `;` and so on.
#[test]
fn a_host_is_an_operand_whatever_its_lower_bits() {
    let trees = [
        ("#256", "256"),
        ("#262 - #262", "9(262,6(262))"),
        ("-#262", "6(262)"),
        ("(#260)", "4(260)"),
        ("#265 + #265", "9(265,265)"),
        ("sin(#292)", "36(4(292))"),
        (
            "#329 = #327; return #330;",
            "73(73(71(329,327)),73(74(330)))",
        ),
        ("#571 ? #572 : #1023", "59(571,60(572,1023))"),
    ];
    for (text, tree) in trees {
        let list = parsed(text);
        for version in [4, 5, 6] {
            let read = Reader::new().read(&list, version);
            assert_eq!(read.expect("a tree").to_string(), tree, "{text}");
        }
    }
    for text in ["#262 #262", "a #265 b", "#292 (a)", "#297 [a]", "#256 #257"] {
        let read = Reader::new().read(&parsed(text), 6);
        assert!(matches!(read, Err(ReadError::Messages(_))), "{text}");
    }
    // One that opens no bracket is not too deep either.
    let limit = sorbrudder::Limit::new(1).expect("a limit");
    let read = Reader::new()
        .with_limit(limit)
        .read(&parsed("(#260 + #256)"), 6);
    assert!(read.is_ok(), "{read:?}");
}

/// The list with this in every host's stead.
fn with_this(list: &Tokens) -> Tokens {
    let in_stead = |token: &Token| match token.op.is_host() {
        true => Token {
            op: Op::THIS,
            ..*token
        },
        false => *token,
    };
    list.iter().map(in_stead).collect()
}

/// The numbers of the hosts among some tokens.
fn hosts(tokens: impl Iterator<Item = Token>) -> Vec<u16> {
    let ops = tokens.map(|token| token.op);
    ops.filter(|op| op.is_host()).map(Op::number).collect()
}

fn tokens_of(tree: &Tree) -> impl Iterator<Item = Token> {
    tree.nodes().map(|node| node.token())
}

#[test]
fn every_kept_list_with_hosts_reads_and_lifts_as_with_this() {
    let (mut reader, mut lifter) = (Reader::new(), Lifter::new());
    let (mut trees, mut lifted, mut without) = (0, 0, 0);
    for words in kept_lists() {
        let Some(list) = Tokens::from_words(&words) else {
            continue;
        };
        if hosts(list.iter().copied()).is_empty() {
            continue;
        }
        let this = with_this(&list);
        for version in [4, 5, 6] {
            match (reader.read(&list, version), reader.read(&this, version)) {
                (Ok(tree), Ok(other)) => {
                    let shown = tokens_of(&tree).collect::<Tokens>();
                    let other = tokens_of(&other).collect::<Tokens>();
                    assert_eq!(with_this(&shown), other, "{list}");
                    let given = hosts(list.iter().copied());
                    assert_eq!(hosts(tokens_of(&tree)), given, "{list}");
                    trees += 1;
                }
                (read, other) => {
                    assert_eq!(read.err(), other.err(), "{list} at {version}");
                    without += 1;
                }
            }
        }
        for (from, to) in [(5, 6), (6, 5), (4, 6), (6, 4)] {
            match (
                lifter.lift(&list).from(from).to(to),
                lift(&this).from(from).to(to),
            ) {
                (Ok(one), Ok(other)) => {
                    assert_eq!(with_this(&one.tokens), other.tokens, "{list}");
                    assert_eq!(one.changed, other.changed, "{list}");
                    lifted += usize::from(one.changed);
                }
                (one, other) => assert_eq!(one.is_err(), other.is_err(), "{list}"),
            }
        }
    }
    assert!(
        trees > 1_000 && without > 1_000 && lifted > 20,
        "{trees}, {without}, {lifted}"
    );
}

#[test]
fn a_leaf_is_written_and_a_host_with_children_is_not() {
    let (mut writer, mut rng) = (Writer::new(), Rng(12));
    for _ in 0..2_000 {
        let number = 256 + rng.below(768) as u16;
        let host = Op::host(number).expect("a host's");
        let token = Token {
            op: host,
            payload: Payload::from_bits(1 + rng.below(12) as u8, rng.bits() as u32)
                .expect("a payload"),
            span: Span::new(rng.below(90) as u32, rng.below(90) as u32).expect("a span"),
        };
        let leaf = Tree::from_nodes([(token, 0)]).expect("a tree");
        assert_eq!(leaf.root().unplain(), None);
        let written = writer.write(&leaf).expect("a plain tree");
        assert_eq!(written[..], [token]);
        let bracket = Token::bare(Op::LEFT_PARENTHESIS, Span::default());
        let call = Tree::from_nodes([(token, 1), (bracket, 0)]).expect("a tree");
        let why = call.root().unplain();
        assert_eq!(why, Some(Unplain::Operands { found: 1 }));
        assert_eq!(writer.write(&call), Err(WriteError::NotPlain { node: 0 }));
        assert_eq!(Tree::from_stack(&call.to_stack()), Ok(call));
    }
}

#[test]
fn archives_carry_hosts_and_the_command_shows_them() {
    let folder = folder("hosts");
    let given = [
        (5, "#300 && #301 || a"),
        (6, "#256 - #1023"),
        (6, "#262 #6"),
    ];
    for format in [Format::Words, Format::Container] {
        let bytes = archive(format, &given);
        std::fs::write(folder.join("given"), &bytes).expect("a file");
        let lifted = run_line(&folder, "lift given -o lifted --to 6");
        assert_eq!(lifted.status, Some(1), "{lifted:?}");
        let bytes = std::fs::read(folder.join("lifted")).expect("a file");
        let lists = lists(&bytes);
        assert_eq!(lists[0], (6, "#300 && (#301 || a)".to_string()));
        assert_eq!(lists[1], (6, "#256 - #1023".to_string()));
        assert_eq!(lists[2].1, "#262 -");
        std::fs::remove_file(folder.join("lifted")).expect("a file");
    }
    let shown = run(&folder, &["read", "--at", "6", "-e", "#300 + #301 * a"]);
    let lines: Vec<&str> = shown.out.lines().collect();
    let drawn = [
        "version 6   #300 + (#301 * a)",
        "",
        "+ sum [addition]",
        "├─ #300",
        "└─ * product [multiplication]",
        "   ├─ #301",
        "   └─ a",
    ];
    assert_eq!(lines, drawn);
    let json = run(&folder, &["read", "--json", "-e", "#300"]);
    let node = r#""nodes":[{"op":300,"operator":"host","children":0,"start":0,"end":4,"close":4}]"#;
    assert!(json.out.contains(node), "{}", json.out);
}
