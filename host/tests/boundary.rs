//! The crate at its limits: small stacks, many threads, lists that are too long, every refusal, words of any kind.

mod common;

use common::Rng;
use sorbrudder::{
    LiftError, Lifter, Limit, MOST_TOKENS, Message, Op, ReadError, Reader, Refusal, Span, Token,
    Tokens, Tree, Used, WriteError, Writer,
};

/// `steps`, the middle, as many `backs`, and what comes after, of at most 4,096 tokens.
fn nest(step: &str, middle: &str, back: &str, after: &str) -> Tokens {
    let tokens = |text: &str| text.parse::<Tokens>().expect("the notation").into_vec();
    let (step, middle, back) = (tokens(step), tokens(middle), tokens(back));
    let after = tokens(after);
    let times = (MOST_TOKENS - middle.len() - after.len()) / (step.len() + back.len());
    [step.repeat(times), middle, back.repeat(times), after]
        .concat()
        .into()
}

fn on_stack<T: Send>(kib: usize, run: impl FnOnce() -> T + Send) -> T {
    std::thread::scope(|scope| {
        let thread = std::thread::Builder::new().stack_size(kib << 10);
        let run = thread.spawn_scoped(scope, run).expect("a thread");
        run.join().expect("nothing panics")
    })
}

#[test]
fn deep_lists_are_read_on_64_kib_of_stack() {
    let lists = [
        nest("(", "a", ")", ""),
        nest("!", "a", "", ""),
        nest("-(", "a", ")", ""),
        nest("a + (", "a", ")", ""),
        nest("(", "a", "+ a)", ""),
        nest("a ? b :", "c", "", ""),
        nest("a ? b : (", "c", ")", ""),
        nest("a ?", "b", ": c", ""),
        nest("query_function(", "a", ")", ""),
        nest("array_variable[", "a", "]", ""),
        nest("{", "a;", "};", ""),
        nest("return", "a;", "", ""),
    ];
    on_stack(64, || {
        let mut reader = Reader::new();
        for (list, version) in lists.iter().flat_map(|list| [4, 5, 6].map(|v| (list, v))) {
            assert!(list.len() > MOST_TOKENS - 8, "{}", list.len());
            let tree = reader.read(list, version).expect("a tree");
            assert!(2 * tree.len() <= 3 * list.len());
        }
    });
}

#[test]
fn several_deep_roots_are_named_on_64_kib_of_stack() {
    let lists = [
        nest("a -", "a", "", "b"),
        nest("a +", "a", "", "b"),
        nest("!", "a", "", "b"),
        nest("(", "a", ")", "b"),
        nest("a ? b :", "c", "", "d"),
        nest("a", "a", "", ""),
    ];
    on_stack(64, || {
        let mut reader = Reader::new();
        for list in &lists {
            let Err(ReadError::Messages(messages)) = reader.read(list, 6) else {
                panic!("several roots are no tree");
            };
            assert!(matches!(
                messages[..],
                [Message::MultipleRoots { roots: 2.., .. }]
            ));
        }
    });
}

#[test]
fn deep_trees_are_written_and_lifted_on_128_kib_of_stack() {
    let lists = [
        nest("(", "a", ")", ""),
        nest("!(", "a", ")", ""),
        nest("sin(", "a", ")", ""),
        nest("a + (", "a", ")", ""),
        nest("(a ? b : c) ? (", "d", ") : e", ""),
        nest("a,", "a", "", ""),
        nest("!(", "a", ")", ";"),
        nest("a = b;", "return c;", "", ""),
    ];
    on_stack(128, || {
        let (mut reader, mut writer, mut lifter) = (Reader::new(), Writer::new(), Lifter::new());
        for list in &lists {
            let tree = reader.read(list, 6).expect("a tree");
            let written = writer.write(&tree).expect("the tree is plain");
            let again = reader.read(&written, 4).expect("a written list is a tree");
            let shape = |tree: &Tree| tree.without_brackets().to_string();
            assert_eq!(shape(&again), shape(&tree));
            assert_eq!(writer.write_words(tree.words()), Ok(&written.words()[..]));
            assert!(lifter.lift(list).from(6).to(4).is_ok());
        }
        // Deeper than any list that could be written, and too long.
        let bare = |op| Token::bare(op, Span::default());
        let deep = vec![(bare(Op::LEFT_PARENTHESIS), 1); 12_287];
        let deep = deep.into_iter().chain([(bare(Op::FLOAT), 0)]);
        let tree = Tree::from_nodes(deep).expect("12,288 nodes are a tree");
        assert_eq!((tree.len(), tree.depth()), (12_288, 12_288));
        assert_eq!(writer.write(&tree), Err(WriteError::TooLong));
        assert_eq!(tree.without_brackets().to_string(), "a");
    });
}

/// The longest statements that are lifted on the caller's stack, each read otherwise by the new version.
#[test]
fn statements_of_1_024_tokens_are_lifted_on_128_kib_of_stack() {
    let lists = [
        format!("a{}", " ? b : c".repeat(255)),
        format!("{}a && b || c", "! ".repeat(1_019)),
        format!("{}a && b || c{}", "!(".repeat(339), ")".repeat(339)),
        format!("{}a && b || c{}", "a + (".repeat(254), ")".repeat(254)),
        format!("a && b || c{}", " && b || c".repeat(254)),
        "v = a ? b : c ? d : e; ".repeat(200),
    ];
    on_stack(128, || {
        let mut lifter = Lifter::new();
        for text in &lists {
            let list: Tokens = text.parse().expect("the notation");
            let mut changed = |to| {
                lifter
                    .lift(&list)
                    .from(5)
                    .to(to)
                    .map(|lifted| lifted.changed)
            };
            let lifted = [changed(4), changed(6)];
            assert!(
                lifted.contains(&Ok(true)),
                "{lifted:?} of {} tokens",
                list.len()
            );
        }
    });
}

/// Trees that take the most call stack of their kind, each written as at most 4,096 tokens: a part again and again, an end, and
/// the right operands that are still missing.
fn deepest_trees() -> Vec<Tree> {
    let bare = |op| Token::bare(op, Span::default());
    let leaf = (bare(Op::FLOAT), 0);
    let node = |op, children| (bare(op), children);
    let (bracket, minus) = (node(Op::LEFT_PARENTHESIS, 1), node(Op::NEGATE, 1));
    let (sum, comma) = (node(Op::ADD, 2), node(Op::COMMA, 2));
    let (ask, or) = (node(Op::CONDITIONAL, 2), node(Op::CONDITIONAL_ELSE, 2));
    let sine = node(Op::try_from(36u8).expect("a math call"), 1);
    let rows = [
        // What is repeated, how often, what stands at the end, and how many leaves come after it.
        (vec![sine, bracket], 1_365, vec![leaf], 0),
        (vec![minus, bracket], 1_365, vec![leaf], 0),
        (vec![bracket], 2_047, vec![leaf], 0),
        (vec![comma], 2_047, vec![leaf], 2_047),
        (vec![bracket, sum, leaf], 1_023, vec![leaf], 0),
        (vec![ask, leaf, or, leaf], 682, vec![leaf], 0),
        (vec![ask, leaf, or, leaf, bracket], 682, vec![leaf], 0),
        (vec![ask, leaf, or, leaf], 682, vec![minus, leaf], 0),
        (vec![sum, leaf], 1_023, vec![leaf], 0),
        (vec![sum], 1_023, vec![leaf], 1_023),
    ];
    let tree = |(part, times, end, after): (Vec<_>, usize, Vec<_>, usize)| {
        Tree::from_nodes([part.repeat(times), end, vec![leaf; after]].concat()).expect("one tree")
    };
    rows.into_iter().map(tree).collect()
}

#[test]
fn the_deepest_trees_are_written_by_the_library_on_264_kib_of_stack() {
    let mut list = vec![0; 5 * MOST_TOKENS];
    on_stack(264, || {
        for tree in deepest_trees() {
            let answer = sorbrudder_sys::write(tree.words(), &mut list);
            let sorbrudder_sys::Answer::Filled(tokens) = answer else {
                panic!("{answer:?} for {} nodes", tree.len());
            };
            assert!(tokens >= MOST_TOKENS - 5, "{tokens} tokens");
        }
    });
}

#[test]
fn the_largest_trees_are_put_into_stack_order_and_back_on_64_kib_of_stack() {
    let bare = |op| Token::bare(op, Span::default());
    let (leaf, not) = ((bare(Op::FLOAT), 0), (bare(Op::LOGICAL_NOT), 1));
    let deep = [vec![not; 12_287], vec![leaf]].concat();
    let flat = [vec![(bare(Op::QUERY_FUNCTION), 12_287)], vec![leaf; 12_287]].concat();
    let sums = [vec![(bare(Op::ADD), 2); 6_143], vec![leaf; 6_144]].concat();
    on_stack(64, || {
        for nodes in [deep, flat, sums] {
            let tree = Tree::from_nodes(nodes).expect("one tree");
            let stack = tree.to_stack();
            assert_eq!(stack[stack.len() - 7..], *tree.root().words());
            assert_eq!(Tree::from_stack(&stack), Ok(tree));
        }
    });
}

#[test]
fn lists_that_are_too_long_are_turned_back() {
    let mut reader = Reader::new();
    let token = Token::bare(Op::FLOAT, Span::default());
    let refused = Err(ReadError::Refused(Refusal::TooManyTokens));
    for len in [MOST_TOKENS + 1, 100_000, 3_000_000] {
        assert_eq!(reader.read(&vec![token; len], 6), refused);
    }
    let words = vec![0; 5 * (MOST_TOKENS + 1)];
    assert_eq!(
        reader.parse_words(&words, 6, Used::EMPTY, 0).err(),
        refused.err()
    );
    let longest = reader.read(&vec![token; MOST_TOKENS], 6);
    assert!(
        matches!(longest, Err(ReadError::Messages(_))),
        "4,096 tokens are read"
    );
}

fn limit(limit: usize) -> Limit {
    Limit::new(limit as u32).expect("1 to 4,096")
}

#[test]
fn lists_that_are_too_deep_are_turned_back() {
    let openers: Vec<Token> = (0..MOST_TOKENS)
        .map(|place| [Op::LEFT_BRACE, Op::LEFT_BRACKET, Op::LEFT_PARENTHESIS][place % 3])
        .map(|op| Token::bare(op, Span::default()))
        .collect();
    let read = |tokens: &[Token], limit| Reader::new().with_limit(limit).read(tokens, 6);
    for bracket in [1, 2, 64, MOST_TOKENS - 1] {
        let too_deep = Err(ReadError::TooDeep { token: bracket });
        assert_eq!(read(&openers, limit(bracket)), too_deep);
        assert_eq!(read(&openers[..bracket + 1], limit(bracket)), too_deep);
        let within = read(&openers[..bracket], limit(bracket));
        assert!(matches!(within, Err(ReadError::Messages(_))), "{bracket}");
    }
    let most = read(&openers, Limit::MOST);
    assert!(matches!(most, Err(ReadError::Messages(_))));
    // A closer that closes none takes none, one that does not match takes one.
    let list: Tokens = ") ( ] ( } [ a".parse().expect("the notation");
    assert!(matches!(read(&list, limit(1)), Err(ReadError::Messages(_))));
    // Whatever is in the used set.
    let list: Tokens = "((a))".parse().expect("the notation");
    let mut reader = Reader::new().with_limit(limit(1));
    for used in [Used::EMPTY, Used::FULL, Used::exact(&list)] {
        let words = list.words();
        let too_deep = ReadError::TooDeep { token: 1 };
        assert_eq!(reader.parse(&list, 6, used, 5), Err(too_deep));
        assert_eq!(reader.parse_words(&words, 6, used, 5), Err(too_deep));
    }
    assert_eq!((Limit::new(0), Limit::new(4_097)), (None, None));
    assert_eq!(Limit::new(u32::MAX), None);
}

#[test]
fn within_its_limit_a_list_reads_as_at_the_greatest() {
    let mut unlimited = Reader::new();
    for seed in 0..2_000 {
        let list = random_list(&mut Rng(seed), 40);
        // The notation of random lists has one bracket in another at the most.
        let read = unlimited.read(&list, 5);
        let mut deepest = Reader::new().with_limit(limit(1));
        assert_eq!(deepest.read(&list, 5), read);
        assert_eq!(deepest.limit().get(), 1);
    }
}

/// A sum of so many operands, which has no bracket.
fn sum(operands: usize) -> Tokens {
    let text = format!("a{}", " + b".repeat(operands - 1));
    text.parse().expect("the notation")
}

#[test]
fn a_settled_sum_is_as_deep_as_it_has_operands_but_two() {
    for operands in [3, 4, 10, 300, 1_000] {
        let list = sum(operands);
        let depth = operands - 2;
        let settle = |limit| Lifter::new().with_limit_to(limit).settle(&list, 6);
        let settled = settle(limit(depth)).expect("it is within its depth");
        assert_eq!(settled.tokens.len(), list.len() + 2 * depth);
        if depth > 1 {
            let Err(LiftError::TooDeep {
                token, is_written, ..
            }) = settle(limit(depth - 1))
            else {
                panic!("{operands} operands nest {depth} deep");
            };
            assert_eq!((token, is_written), (depth - 1, true));
        }
        // Both versions read it alike, so it is left alone, whatever the limit.
        let mut lifter = Lifter::new().with_limit_to(limit(1));
        assert!(
            lifter
                .lift(&list)
                .from(4)
                .to(6)
                .is_ok_and(|lifted| !lifted.changed)
        );
    }
}

#[test]
fn many_readers_in_parallel() {
    let lists: Vec<Tokens> = (0..400)
        .map(|seed| random_list(&mut Rng(seed), 40))
        .collect();
    let read = |reader: &mut Reader| -> Vec<_> {
        let calls = lists
            .iter()
            .flat_map(|list| [4, 5, 6].map(|version| (list, version)));
        calls
            .map(|(list, version)| reader.read(list, version))
            .collect()
    };
    let alone = read(&mut Reader::new());
    assert!(alone.iter().filter(|read| read.is_ok()).count() > 100);
    std::thread::scope(|scope| {
        let threads: Vec<_> = (0..8)
            .map(|_| scope.spawn(|| read(&mut Reader::new())))
            .collect();
        for thread in threads {
            assert!(thread.join().expect("nothing panics") == alone);
        }
    });
}

/// A list of operands and operators, often a tree.
fn random_list(rng: &mut Rng, most: usize) -> Tokens {
    let between = [
        "+", "-", "*", "/", "<", "==", "&&", "||", "??", "?", ":", ",", "- -", "!",
    ];
    let mut text = String::from("a");
    for _ in 0..rng.below(most / 2) {
        let operator = between[rng.below(between.len())];
        let operand = ["a", "!b", "-c", "(d)", "sin(e)", "query_function(a, b)"];
        let operand = operand[rng.below(operand.len())];
        text += &format!(" {operator} {operand}");
    }
    text.parse().expect("the notation")
}

/// A list, and the words of one of its tokens.
fn words_with(change: impl Fn(&mut Vec<u32>)) -> Result<(), ReadError> {
    let list: Tokens = "a + b".parse().expect("the notation");
    let mut words = list.words();
    let used = Used::exact(&list);
    change(&mut words);
    Reader::new().parse_words(&words, 6, used, 5).map(|_| ())
}

#[test]
fn every_refusal_of_the_reader_is_mapped_or_cannot_happen() {
    let refused = |refusal| Err(ReadError::Refused(refusal));
    assert_eq!(words_with(|_| {}), Ok(()));
    // 1: words only; a token has five.
    let cut = words_with(|words| words.truncate(14));
    assert_eq!(cut, refused(Refusal::NotWhole));
    // 2: above. 3 to 5: the buffers are the reader's own. 6: a used set cannot have another bit.
    assert_eq!(Used::from_halves(0, 1 << 47), None);
    assert_eq!(Used::from_halves(u64::MAX, (1 << 47) - 1), Some(Used::FULL));
    // 7: the source length is the caller's number.
    let list: Tokens = "a".parse().expect("the notation");
    let mut reader = Reader::new();
    let mut long = |source_len| reader.parse(&list, 6, Used::exact(&list), source_len);
    assert!(long(Span::LAST).is_ok());
    assert_eq!(
        long(Span::LAST + 1).err(),
        refused(Refusal::SourceTooLong).err()
    );
    assert_eq!(long(u32::MAX).err(), refused(Refusal::SourceTooLong).err());
    let huge = Reader::new()
        .parse_words(&[], 6, Used::EMPTY, u64::MAX)
        .err();
    assert_eq!(huge, refused(Refusal::SourceTooLong).err());
    // 8 to 11: words only; an operator, a payload and a span are always such as a word can hold.
    let kind = words_with(|words| words[6] = 0);
    assert_eq!(kind, refused(Refusal::WrongKind { word: 6 }));
    let operator = words_with(|words| words[5] = 1 << 29 | 111);
    assert_eq!(operator, refused(Refusal::UnknownOperator { word: 5 }));
    let above_hosts = words_with(|words| words[5] = 1 << 29 | 4 << 12);
    assert_eq!(above_hosts, refused(Refusal::UnknownOperator { word: 5 }));
    let payload = words_with(|words| words[5] |= 13 << 8);
    assert_eq!(payload, refused(Refusal::UnknownPayload { word: 5 }));
    let other = words_with(|words| words[13] |= 1);
    assert_eq!(other, refused(Refusal::OtherBits { word: 13 }));
    let above_number = words_with(|words| words[5] |= 1 << 16);
    assert_eq!(above_number, refused(Refusal::OtherBits { word: 5 }));
    // 17: a limit is legal. 18: above, and after every word.
    let deep: Tokens = "((a".parse().expect("the notation");
    let mut words = deep.words();
    words[14] = 0;
    let mut reader = Reader::new().with_limit(Limit::new(1).expect("a limit"));
    let bad_word = reader.read_words(&words, 6).map(|_| ());
    assert_eq!(bad_word, refused(Refusal::WrongKind { word: 14 }));
    assert_eq!((Op::new(111), Op::new(1_024)), (None, None));
    assert_eq!(Span::new(0, 1 << 29), None);
}

#[test]
fn every_refusal_of_the_writer_is_mapped_or_cannot_happen() {
    // 14: above. 15: the writer's list has room for every list that is written.
    let mut writer = Writer::new();
    let mut write = |words: &[u32]| writer.write_words(words).map(|_| ());
    assert_eq!(write(&[0]), Err(WriteError::NotATree { word: 0 }));
    let bare = |op| Token::bare(op, Span::default());
    let array = Tree::from_nodes([(bare(Op::NEGATE), 1), (bare(Op::ARRAY), 0)]);
    let array = array.expect("one tree");
    assert_eq!(write(array.words()), Err(WriteError::NotPlain { node: 1 }));
    let counted = Tree::from_nodes([(bare(Op::FLOAT), usize::MAX)]);
    assert_eq!(counted.map_err(|why| why.word), Err(Token::WORDS));
    let endless = Tree::from_nodes(std::iter::repeat((bare(Op::NEGATE), 1)));
    assert_eq!(
        endless.map_err(|why| why.word),
        Err(Tree::NODE_WORDS * 12_287 + Token::WORDS)
    );
    let two = Tree::from_nodes(std::iter::repeat((bare(Op::FLOAT), 0)));
    assert_eq!(two.map_err(|why| why.word), Err(Tree::NODE_WORDS));
    // A seventh word is looked at for its kind alone; a close that it has no room for cannot be put into it.
    let closed = |close| Tree::from_closed_nodes([(bare(Op::FLOAT), 0, close)]);
    assert_eq!(
        closed(Span::LAST).map(|tree| tree.root().close()),
        Ok(Span::LAST)
    );
    assert_eq!(closed(Span::LAST + 1).map_err(|why| why.word), Err(6));
}

#[test]
fn every_refusal_of_stack_order_is_mapped_or_cannot_happen() {
    // 12 and 25: a tree's words are one tree, and the output is as long as they are. 24: words only.
    let import = |words: &[u32]| Tree::from_stack(words).map_err(|why| why.word);
    let bare = |op| Token::bare(op, Span::default());
    let leaf = Tree::from_nodes([(bare(Op::FLOAT), 0)]).expect("a leaf");
    let leaf = leaf.words();
    assert_eq!(import(&[]).err(), Some(0));
    assert_eq!(import(&[0]).err(), Some(0));
    assert_eq!(import(&leaf[..6]).err(), Some(6));
    assert_eq!(import(&leaf.repeat(2)).err(), Some(14));
    let not = Tree::from_nodes([(bare(Op::LOGICAL_NOT), 1), (bare(Op::FLOAT), 0)]);
    let not = not.expect("two nodes");
    assert_eq!(import(not.words()).err(), Some(Token::WORDS));
    assert_eq!(import(&not.to_stack()), Ok(not));
    // Of many leaves the 12,288th would need a 12,289th node above it, however many follow.
    for leaves in [12_288, 12_289, 300_000] {
        let word = Tree::NODE_WORDS * 12_287 + Token::WORDS;
        assert_eq!(import(&leaf.repeat(leaves)).err(), Some(word));
    }
    let why = Tree::from_stack(&[0]).expect_err("no tree");
    assert_eq!(why.to_string(), "the words are not one tree: word 0");
}

#[test]
fn nothing_panics_on_words_of_any_kind() {
    let mut rng = Rng(7);
    let (mut reader, mut writer) = (Reader::new(), Writer::new());
    let (mut trees, mut stacks) = (0, 0);
    for round in 0..60_000 {
        let len = rng.below(if round % 100 == 0 { 3_000 } else { 60 });
        let kinds = 5 + rng.below(3);
        let mut word = |place: usize| {
            let kind = place % kinds + 1;
            // Value halves without a value, so that now and then all of it is sound.
            let low = if matches!(kind, 4 | 5) {
                0
            } else {
                rng.below(3)
            };
            ((kind << 29) | low) as u32
        };
        let mut words: Vec<u32> = (0..len).map(&mut word).collect();
        if rng.below(2) == 0 && len > 0 {
            words[rng.below(len)] = rng.bits() as u32;
        }
        let used = Used::exact_words(&words);
        let version = rng.bits() as i16;
        let _ = reader.parse_words(&words, version, used, rng.bits() >> 34);
        let _ = writer.write_words(&words);
        if let Ok(tree) = Tree::from_stack(&words) {
            stacks += 1;
            assert_eq!(tree.to_stack(), words);
        }
        if let Ok(tree) = Tree::from_words(words) {
            trees += 1;
            assert_eq!(
                tree.nodes().filter(|node| node.parent().is_none()).count(),
                1
            );
            let _ = (tree.to_string(), tree.without_brackets());
            assert_eq!(Tree::from_stack(&tree.to_stack()), Ok(tree));
        }
    }
    assert!(trees > 50 && stacks > 50, "{trees} trees, {stacks} stacks");
}
