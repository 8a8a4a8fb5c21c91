//! Document 01's lines through the notation, and lists lifted between versions, straight and by way of others.

mod common;

use common::{Rng, kept_lists};
use sorbrudder::{
    LiftError, Lifted, Lifter, Limit, Node, Op, ReadError, Reader, Tokens, Tree, Unplain,
    WriteError, Writer, lift,
};

fn read(text: &str, version: i16) -> String {
    let list: Tokens = text.parse().expect("the notation");
    match Reader::new().read(&list, version) {
        Ok(tree) => tree.to_string(),
        Err(ReadError::Messages(messages)) => {
            let numbers: Vec<String> = messages.iter().map(|m| m.number().to_string()).collect();
            format!("messages {}", numbers.join(" "))
        }
        Err(ReadError::Refused(refusal)) => format!("refused {}", refusal.number()),
        Err(why) => format!("{why}"),
    }
}

#[test]
fn the_lines_of_document_01() {
    let lines = [
        ("", 6, "messages 1"),
        ("a", 6, "a"),
        ("a b", 6, "messages 1"),
        ("a-b", 6, "9(a,6(b))"),
        ("a--b", 6, "9(a,b)"),
        ("--b", 6, "messages 12"),
        ("a*b/c", 6, "31(a,20(b,c))"),
        ("a&&b||c", 5, "57(a,56(b,c))"),
        ("a&&b||c", 6, "56(57(a,b),c)"),
        ("a>b==c", 5, "53(a,54(b,c))"),
        ("a>b==c", 6, "54(53(a,b),c)"),
        ("a?b:c?d:e", 4, "59(59(a,60(b,c)),60(d,e))"),
        ("a?b:c?d:e", 5, "59(a,60(b,59(c,60(d,e))))"),
        ("a++", 6, "9(a,9)"),
        (")", 6, "5"),
        ("(a]", 6, "messages 4 5"),
        ("(a b)", 6, "4(a,b)"),
        ("a->", 6, "messages 12 1"),
        ("#40()", 6, "messages 7"),
        ("#36()", 6, "36(4)"),
        ("a:b", 4, "60(a,b)"),
        ("a:b", 5, "messages 17"),
    ];
    for (text, version, answer) in lines {
        assert_eq!(read(text, version), answer, "{text} at {version}");
    }
}

#[test]
fn a_product_under_a_sum_is_written_in_brackets() {
    let list: Tokens = "a + b * c".parse().expect("the notation");
    let tree = Reader::new().read(&list, 6).expect("a tree");
    let written = Writer::new().write(&tree).expect("a plain tree");
    assert_eq!(written.to_string(), "a + (b * c)");
    let source = "a + b * c";
    assert_eq!(written[2].span.of(source), Some("b * c"));
    assert_eq!((written[6].span.start(), written[6].span.end()), (9, 9));
}

#[test]
fn an_added_pair_covers_its_operand() {
    let source = "d && a + b * c == f || e";
    let list: Tokens = source.parse().expect("the notation");
    let tree = Reader::new().read(&list, 5).expect("a tree");
    let written = Writer::new().write(&tree).expect("a plain tree");
    let shown = "d && (((a + (b * c)) == f) || e)";
    assert_eq!(written.shown_in(source).to_string(), shown);
    let of = |place: usize| written[place].span.of(source).expect("in the source");
    let openers = [2, 3, 4, 7].map(of);
    let covered = [
        "a + b * c == f || e",
        "a + b * c == f",
        "a + b * c",
        "b * c",
    ];
    assert_eq!(openers, covered);
    // A closer stands at its pair's end, and covers nothing.
    for (opener, closer) in [(2, 18), (3, 15), (4, 12), (7, 11)] {
        let end = written[opener].span.end();
        let span = written[closer].span;
        assert_eq!((span.start(), span.end()), (end, end));
    }
}

#[test]
fn what_was_written_is_written_as_it_is() {
    let (mut reader, mut writer) = (Reader::new(), Writer::new());
    let mut written_lists = 0;
    for text in lists().step_by(7) {
        let list: Tokens = text.parse().expect("the notation");
        let Ok(tree) = reader.read(&list, 4) else {
            continue;
        };
        let Ok(written) = writer.write(&tree) else {
            continue;
        };
        for version in [0, 4, 5, 6, 13] {
            let again = reader.read(&written, version).expect("a written list");
            assert_eq!(writer.write(&again).as_ref(), Ok(&written), "{text}");
        }
        written_lists += 1;
    }
    assert!(written_lists > 100, "only {written_lists} lists");
}

#[test]
fn a_list_that_versions_agree_on_is_left_alone() {
    let list: Tokens = "return {a = b;} ;".parse().expect("the notation");
    let lifted = lift(&list).from(4).to(6).expect("both read it alike");
    assert!(!lifted.changed && lifted.tokens == list);
}

/// What is compared of a tree: all of its words but those of semicolons after the operator, the child count apart.
fn compared(tree: &Tree) -> Vec<Vec<u32>> {
    let tree = tree.without_brackets();
    let part = |node: Node<'_>| {
        let words = node.words();
        if node.op() == Op::SEMICOLON {
            return vec![u32::from(node.op().number()), words[5]];
        }
        words.to_vec()
    };
    tree.nodes().map(part).collect()
}

#[test]
fn a_lifted_script_is_one_tree_at_every_version() {
    let (mut reader, mut writer, mut lifter) = (Reader::new(), Writer::new(), Lifter::new());
    let mut changed = 0;
    for script in scripts().step_by(5) {
        let list: Tokens = script.parse().expect("the notation");
        for (from, to) in [(4, 5), (5, 6), (6, 4)] {
            let lifted = match lifter.lift(&list).from(from).to(to) {
                Ok(lifted) if lifted.changed => lifted,
                Ok(_) | Err(_) => continue,
            };
            changed += 1;
            let old = compared(&lifted.tree);
            for version in [0, 4, 5, 6, 13] {
                let again = reader.read(&lifted.tokens, version).expect("a lifted list");
                assert_eq!(compared(&again), old, "{script} at {version}");
                let twice = writer.write(&again);
                assert_eq!(twice.as_ref(), Ok(&lifted.tokens), "{script}");
            }
        }
    }
    assert!(changed > 300, "only {changed} scripts");
}

#[test]
fn a_semicolon_has_the_span_of_what_its_statement_holds() {
    let source = "v = a ? b : c ? d : e; return v; (w);";
    let list: Tokens = source.parse().expect("the notation");
    let lifted = lift(&list).from(4).to(6).expect("a plain script");
    let shown = "v = ((a ? b : c) ? d : e); return v; (w);";
    assert_eq!(lifted.tokens.shown_in(source).to_string(), shown);
    let semicolons = lifted.tokens.iter();
    let semicolons = semicolons.filter(|token| token.op == Op::SEMICOLON);
    let spans: Vec<_> = semicolons.map(|token| token.span.of(source)).collect();
    assert_eq!(spans, [Some("="), Some("return"), Some("(")]);
}

#[test]
fn what_no_script_holds_is_named() {
    let node = |text: &str| {
        let list: Tokens = text.parse().expect("the notation");
        let tree = Reader::new().read(&list, 4).expect("a tree");
        match Writer::new().write(&tree) {
            Err(WriteError::NotPlain { node }) => node,
            other => panic!("{text}: {other:?}"),
        }
    };
    assert_eq!(node("break;"), 2);
    assert_eq!(node("a; b : c;"), 4);
    assert_eq!(node("{a = b;};"), 2);
    assert_eq!(node("v = array_variable[a];"), 4);
}

#[test]
fn a_list_with_all_its_brackets_is_settled() {
    let list: Tokens = "(a + (b * c)) * (math.sin(d))"
        .parse()
        .expect("the notation");
    let settled = Lifter::new().settle(&list, 6).expect("a plain tree");
    assert_eq!(settled.tokens, list);
    assert!(!settled.changed);
    // The writer's closers start where they end.
    let tree = Reader::new().read(&list, 6).expect("a tree");
    let written = Writer::new().write(&tree).expect("a plain tree");
    assert_eq!(written.to_string(), list.to_string());
    assert_ne!(written, list);
}

#[test]
fn what_cannot_be_lifted_says_why() {
    let list: Tokens = "a : b".parse().expect("the notation");
    let why = lift(&list)
        .from(4)
        .to(5)
        .expect_err("`:` alone is not written");
    assert!(matches!(
        why,
        LiftError::NotPlain {
            node: 0,
            op: Op::CONDITIONAL_ELSE,
            reason: Unplain::ElseWithoutIf,
            ..
        }
    ));
    let list: Tokens = "a +".parse().expect("the notation");
    let Err(LiftError::Read(ReadError::Messages(messages))) = lift(&list).from(4).to(5) else {
        panic!("no tree is lifted");
    };
    assert_eq!(messages[0].number(), 12);
}

/// Every list of four operators between operands, over those that versions read differently, and with brackets in places.
fn lists() -> impl Iterator<Item = String> {
    let between = ["?", ":", "&&", "||", "==", ">", "??", "+"];
    (0..8usize.pow(4)).map(move |number| {
        let operators = (0..4).map(|place| between[number / 8usize.pow(place) % 8]);
        let mut text = String::from(if number % 3 == 0 { "(a" } else { "a" });
        for (place, operator) in operators.enumerate() {
            text += &format!(" {operator} {}", ["-b", "c", "!d", "e"][place]);
            if number % 3 == 0 && place == number % 4 {
                text += ")";
            }
        }
        text
    })
}

/// Scripts of these lists.
fn scripts() -> impl Iterator<Item = String> {
    let statements = [
        "v = TEXT;",
        "return TEXT;",
        "TEXT;",
        "v = (TEXT); return v;",
    ];
    lists().enumerate().map(move |(number, text)| {
        let script = statements[number % 4].replace("TEXT", &text);
        format!("{script} w = a ? b : c ? d : e;")
    })
}

/// How many brackets are open at once at the most, and with which token first.
fn deepest(list: &Tokens) -> (u32, usize) {
    let (mut open, mut most) = (0u32, (0, 0));
    for (place, token) in list.iter().enumerate() {
        match token.op {
            Op::LEFT_PARENTHESIS => open += 1,
            Op::RIGHT_PARENTHESIS => open = open.saturating_sub(1),
            _ => {}
        }
        if open > most.0 {
            most = (open, place);
        }
    }
    most
}

#[test]
fn no_list_comes_out_that_is_too_deep_for_the_new_limit() {
    let mut unlimited = Lifter::new();
    let (mut as_given, mut as_written, mut within) = (0, 0, 0);
    for text in lists().map(|text| text.replace("!d", "((d) + f)")) {
        let list: Tokens = text.parse().expect("the notation");
        let Ok(lifted) = unlimited.lift(&list).from(5).to(6) else {
            continue;
        };
        let (given, written) = (deepest(&list), deepest(&lifted.tokens));
        assert!(written.0 >= given.0, "{text} lost a bracket");
        for number in 1..=4 {
            let limit = Limit::new(number).expect("a limit");
            let mut lifter = Lifter::new().with_limit_to(limit);
            let mut reader = Reader::new().with_limit(limit);
            match lifter.lift(&list).from(5).to(6) {
                Ok(limited) => {
                    assert!(limited == lifted && written.0 <= number, "{text}");
                    assert!(reader.read(&limited.tokens, 6).is_ok(), "{text}");
                    within += 1;
                }
                Err(LiftError::TooDeep {
                    token,
                    op,
                    span,
                    limit: told,
                    is_written,
                    ..
                }) => {
                    let of = if is_written { &lifted.tokens } else { &list };
                    let deep = reader.read(of, 6);
                    assert_eq!(deep, Err(ReadError::TooDeep { token }), "{text}");
                    assert_eq!((op, told), (Op::LEFT_PARENTHESIS, limit));
                    assert_eq!(span, of[token].span);
                    assert_eq!(is_written, given.0 <= number, "{text}");
                    as_written += usize::from(is_written);
                    as_given += usize::from(!is_written);
                }
                Err(why) => panic!("{text}: {why}"),
            }
        }
    }
    let counts = [as_given, as_written, within];
    assert!(counts.iter().all(|count| *count > 100), "{counts:?}");
}

#[test]
fn a_list_that_was_too_deep_for_its_own_engine_is_not_lifted() {
    let list: Tokens = "((a)) && b || c".parse().expect("the notation");
    let limit = |number| Limit::new(number).expect("a limit");
    let mut lifter = Lifter::new().with_limit_from(limit(1));
    let deep = LiftError::Read(ReadError::TooDeep { token: 1 });
    assert_eq!(lifter.lift(&list).from(5).to(6), Err(deep));
    assert_eq!(lifter.settle(&list, 5), Err(deep));
    let mut lifter = lifter.with_limit_from(limit(2)).with_limit_to(limit(2));
    let lifted = lifter
        .lift(&list)
        .from(5)
        .to(6)
        .expect("within both limits");
    assert_eq!(lifted.tokens.to_string(), "((a)) && (b || c)");
    // Two sides, two limits.
    let mut lifter = lifter.with_limit_to(limit(1));
    assert!(matches!(
        lifter.lift(&list).from(5).to(6),
        Err(LiftError::TooDeep {
            token: 1,
            is_written: false,
            ..
        })
    ));
}

#[test]
fn a_lifted_list_is_one_tree_at_every_version() {
    let (mut reader, mut lifter) = (Reader::new(), Lifter::new());
    let (mut changed, mut unchanged) = (0, 0);
    for text in lists() {
        let list: Tokens = text.parse().expect("the notation");
        for (from, to) in [(4, 5), (5, 6), (6, 4), (4, 6)] {
            let lifted = match lifter.lift(&list).from(from).to(to) {
                Ok(lifted) => lifted,
                Err(LiftError::Read(ReadError::Messages(_)) | LiftError::NotPlain { .. }) => {
                    continue;
                }
                Err(why) => panic!("{text}: {why}"),
            };
            let old = reader.read(&list, from).expect("it was lifted");
            assert_eq!(lifted.tree, old.without_brackets(), "{text}");
            let versions = if lifted.changed {
                vec![0, 4, 5, 6, 13]
            } else {
                vec![from, to]
            };
            for version in versions {
                let again = reader.read(&lifted.tokens, version).expect("a lifted list");
                assert_eq!(again.without_brackets(), lifted.tree, "{text} at {version}");
            }
            if lifted.changed {
                changed += 1;
            } else {
                unchanged += 1;
            }
        }
    }
    assert!(
        changed > 200 && unchanged > 200,
        "{changed} changed, {unchanged} not"
    );
}

/// A studio that reads lists at its version and under its limit.
#[derive(Copy, Clone, Debug)]
struct Studio {
    version: i16,
    limit: Limit,
}

impl Studio {
    /// Any version; one in four has a limit that some lists are above.
    fn any(rng: &mut Rng) -> Self {
        let limit = [1, 2, 3][rng.below(3)];
        Self {
            version: rng.below(12) as i16 - 2,
            limit: match rng.below(4) {
                0 => Limit::new(limit).expect("a limit"),
                _ => Limit::MOST,
            },
        }
    }

    /// Lifts a list of this studio's to another's.
    fn lift(self, to: Self, list: &Tokens) -> Result<Lifted, LiftError> {
        let lifter = Lifter::new().with_limit_from(self.limit);
        let mut lifter = lifter.with_limit_to(to.limit);
        lifter.lift(list).from(self.version).to(to.version)
    }
}

/// How a list comes out by way of a studio, beside how it comes out straight.
#[derive(Copy, Clone, Debug, PartialEq, Eq)]
enum CameOut {
    /// It cannot be lifted to the first studio.
    Not,
    /// The first leaves it as it is, so the second does what is done straight.
    LeftByTheFirst,
    /// Both ways the same tokens.
    Same,
    /// The second studio reads the list as its own does, so straight it is left as it is; by way of the first it has its brackets.
    LeftStraight,
    /// With its brackets it is too deep for the second studio.
    TooDeep,
}

/// Lifts a list from one studio to another and on to a third, and straight; both must be the same.
fn by_way_of([own, way, to]: [Studio; 3], list: &Tokens) -> CameOut {
    let straight = own.lift(to, list);
    let Ok(first) = own.lift(way, list) else {
        return CameOut::Not;
    };
    let second = way.lift(to, &first.tokens);
    if !first.changed {
        assert_eq!(second, straight, "{list} is left by {way:?}");
        return CameOut::LeftByTheFirst;
    }
    match (straight, second) {
        (Ok(straight), Ok(second)) => {
            assert!(!second.changed && second.tokens == first.tokens, "{list}");
            assert_eq!(compared(&second.tree), compared(&straight.tree), "{list}");
            if !straight.changed {
                assert_eq!(&straight.tokens, list);
                return CameOut::LeftStraight;
            }
            assert_eq!(second.tokens, straight.tokens, "{list} by way of {way:?}");
            CameOut::Same
        }
        (straight, Err(LiftError::TooDeep { token, limit, .. })) => {
            let least = Limit::new(deepest(&first.tokens).0).expect("a limit");
            assert!(limit < least, "{list} by way of {way:?}");
            match straight {
                Ok(straight) => assert!(!straight.changed, "{list}"),
                Err(LiftError::TooDeep {
                    token: straight,
                    is_written,
                    ..
                }) => assert!(!is_written || straight == token, "{list}"),
                Err(why) => panic!("{list}: {why}"),
            }
            CameOut::TooDeep
        }
        (straight, second) => panic!("{list}: {straight:?} and {second:?} by way of {way:?}"),
    }
}

/// How often lists came out each way: not, left by the first studio, the same, left straight, too deep.
fn ways(seed: u64, lists: impl Iterator<Item = Tokens>) -> [usize; 5] {
    let mut rng = Rng(seed);
    let mut counts = [0; 5];
    for list in lists {
        for _ in 0..4 {
            let studios = [(); 3].map(|()| Studio::any(&mut rng));
            counts[by_way_of(studios, &list) as usize] += 1;
        }
    }
    counts
}

#[test]
fn lifting_by_way_of_another_version_is_lifting_straight() {
    let parsed = |text: String| text.parse().expect("the notation");
    let kept = kept_lists().into_iter().filter(|list| list.len() < 5 * 300);
    let kept = kept.filter_map(|words| Tokens::from_words(&words));
    for (name, counts) in [
        ("expressions", ways(1, lists().map(parsed))),
        ("scripts", ways(2, scripts().map(parsed))),
        ("kept lists", ways(3, kept)),
    ] {
        assert!(counts.iter().all(|count| *count > 20), "{name}: {counts:?}");
    }
}

#[test]
fn a_lifted_list_passes_through_any_number_of_studios_as_it_is() {
    let mut rng = Rng(4);
    let mut passed = 0;
    for text in lists().step_by(3).chain(scripts().step_by(5)) {
        let list: Tokens = text.parse().expect("the notation");
        let [own, first] = [(); 2].map(|()| Studio::any(&mut rng));
        let lifted = match own.lift(first, &list) {
            Ok(lifted) if lifted.changed => lifted.tokens,
            _ => continue,
        };
        let deep = deepest(&lifted).0;
        let mut at = first;
        for _ in 0..6 {
            let next = Studio::any(&mut rng);
            let came = at.lift(next, &lifted);
            if deep > next.limit.get() {
                let too_deep =
                    matches!(came, Err(LiftError::TooDeep { limit, .. }) if limit == next.limit);
                assert!(too_deep, "{text}");
                continue;
            }
            let came = came.expect("it is within the limit");
            assert!(!came.changed && came.tokens == lifted, "{text}");
            // Written out with all its brackets it is the same list too.
            let mut lifter = Lifter::new();
            let settled = lifter.settle(&lifted, next.version);
            let settled = settled.expect("a lifted list");
            assert!(!settled.changed && settled.tokens == lifted, "{text}");
            at = next;
            passed += 1;
        }
    }
    assert!(passed > 1_000, "only {passed}");
}
