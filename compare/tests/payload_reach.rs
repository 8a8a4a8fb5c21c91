//! How far one name can reach (card 6), through the C convention: lists and trees with one payload changed, and mistakes that let it reach
//! further. Without the static library nothing of this is built.
#![cfg(library)]

use compare::payload_calls::{self, PayloadCall};
use compare::payload_pairs::{Entries, Entry, Library, Pairs, Tally};
use compare::payload_reach::{Left, Payload, Reach, WriteLeft, token_in};
use compare::rereading::Lists;
use compare::writer_model::Written;
use oracle::generate::Rng;
use oracle::lines::case_of;
use oracle::refusal::Call;
use oracle::words::{NODE_WORDS, TOKEN_WORDS, Token, decode_tree};

/// What the payloads of all lists reached, none of them too far.
fn read(pairs: impl Iterator<Item = PayloadCall>) -> Tally {
    let mut library = Pairs::<Library>::default();
    for pair in pairs {
        if let Err(difference) = library.list(&pair) {
            panic!("{difference}");
        }
    }
    library.tally
}

/// Messages 8 and 9 are the only ones that tell what a token carries.
fn only_8_and_9_differ(tally: &Tally, least: u64) {
    let apart = tally.messages_apart;
    assert!(apart[8] > least && apart[9] > least, "{tally:?}");
    let all: u64 = apart.iter().sum();
    assert_eq!(apart[8] + apart[9], all, "{tally:?}");
}

#[test]
fn generated_lists() {
    let tally = read(payload_calls::generated(1).take(200_000));
    assert!(tally.trees_apart > 20_000, "{tally:?}");
    assert!(tally.trees_equal > 2_000, "{tally:?}");
    only_8_and_9_differ(&tally, 2_000);
}

#[test]
fn every_short_list_of_host_math_minuses_semicolons_and_brackets() {
    let tally = read(payload_calls::every_short_list(4));
    assert!(tally.trees_apart > 20_000, "{tally:?}");
    assert!(tally.trees_equal > 10_000, "{tally:?}");
    only_8_and_9_differ(&tally, 2_000);
}

#[test]
fn every_short_list_over_the_generators_alphabets() {
    let tally = read(payload_calls::every_list_compared(4));
    assert!(tally.trees_apart > 2_000, "{tally:?}");
    only_8_and_9_differ(&tally, 200);
}

#[test]
fn every_version() {
    let tally = read(payload_calls::every_version(4));
    assert_eq!(tally.read_pairs(), 4 << 16);
    assert_eq!(tally.trees_apart + tally.trees_equal, 4 << 16);
}

#[test]
fn from_tree_to_written_list() {
    let mut pairs = Pairs::<Library>::default();
    for pair in payload_calls::trees(2).take(100_000) {
        if let Err(difference) = pairs.tree(&pair) {
            panic!("{difference}");
        }
    }
    let tally = pairs.tally;
    assert!(tally.lists_apart > 50_000, "{tally:?}");
    assert!(tally.lists_equal > 2_000, "{tally:?}");
    assert!(tally.refused[13] > 10_000, "{tally:?}");
    assert!(
        tally.refused[14] > 10 && tally.refused[15] > 100,
        "{tally:?}"
    );
    assert_eq!(tally.refused[12], 0, "{tally:?}");
}

#[test]
fn list_tree_written_list_and_tree() {
    let mut pairs = Pairs::<Library>::default();
    let mut rng = Rng::new(3);
    let lists = Lists::new(3).zip(Lists::scripts(4));
    for case in lists.flat_map(|(one, other)| [one, other]).take(60_000) {
        let Some(pair) = PayloadCall::any(&mut rng, Call::of(&case)) else {
            continue;
        };
        if let Err(difference) = pairs.chain(&mut rng, &pair) {
            panic!("{difference}");
        }
    }
    let tally = pairs.tally;
    assert!(tally.again_apart > 20_000, "{tally:?}");
    assert!(tally.again_equal > 1_000, "{tally:?}");
    // Every node that a payload of a list reaches is written.
    let again = (tally.again_apart, tally.again_equal);
    assert_eq!((tally.lists_apart, tally.lists_equal), again);
}

/// Where some payloads go, by the list, the token, and what is reached.
#[test]
fn known_reaches() {
    use Reach::{Messages, Tree};
    let known: [(&str, usize, Reach); 22] = [
        ("a", 0, Tree(Some(0))),
        // 9(a,6(b)): the minus becomes the 9, and the 6 that is made carries nothing.
        ("a - b", 0, Tree(Some(1))),
        ("a - b", 1, Tree(Some(0))),
        ("a - b", 2, Tree(Some(3))),
        ("- b", 0, Tree(Some(0))),
        // 9(a,b): the first minus becomes the 9, and the second is gone.
        ("a - - b", 1, Tree(Some(0))),
        ("a - - b", 2, Tree(None)),
        // 73(73(a),73(b)): no semicolon becomes a node.
        ("a ; b ;", 0, Tree(Some(2))),
        ("a ; b ;", 1, Tree(None)),
        ("a ; b ;", 2, Tree(Some(4))),
        ("a ; b ;", 3, Tree(None)),
        // 73(73(40(4(a,73)))): one that is kept as a leaf.
        ("40 ( a ; ) ;", 3, Tree(Some(5))),
        ("40 ( a ; ) ;", 5, Tree(None)),
        ("( a )", 0, Tree(Some(0))),
        ("( a )", 2, Tree(None)),
        ("41 [ b ]", 0, Tree(Some(0))),
        ("41 [ b ]", 1, Tree(None)),
        ("110 ( )", 0, Tree(Some(0))),
        ("110", 0, Messages(Some(4))),
        ("109 a", 0, Messages(Some(4))),
        ("109 a", 1, Messages(None)),
        ("a ->", 0, Messages(None)),
    ];
    let mut pairs = Pairs::<Library>::default();
    for (list, token, reached) in known {
        let pair = PayloadCall {
            call: Call::of(&case_of(list)),
            token,
            payload: Payload::new(12, 0xABCD_0123),
        };
        assert_eq!(pairs.list(&pair), Ok(reached), "{list}, token {token}");
    }
    // A name under another variant than 12 is not told.
    let mut pair = PayloadCall {
        call: Call::of(&case_of("110")),
        token: 0,
        payload: Payload::new(11, 7),
    };
    Payload::new(3, 7).put(TOKEN_WORDS, &mut pair.call.list, 0);
    assert_eq!(pairs.list(&pair), Ok(Messages(None)));
}

/// A mistake put into what a reader, or a writer, leaves of a list, or of a tree.
type ReadSlip = fn(&Call, &mut Left);
type WriteSlip = fn(&[u32], &mut WriteLeft);

/// The library with mistakes put in.
struct Slipped {
    library: Library,
    read: ReadSlip,
    write: WriteSlip,
}

impl Entries for Slipped {
    fn stir(&mut self) {
        self.library.stir();
    }

    fn read(&mut self, entry: Entry, call: &Call) -> Result<Left, String> {
        let mut left = self.library.read(entry, call)?;
        (self.read)(call, &mut left);
        Ok(left)
    }

    fn write(&mut self, tree: &[u32], room: usize) -> WriteLeft {
        let mut left = self.library.write(tree, room);
        (self.write)(tree, &mut left);
        left
    }
}

fn slipped(read: ReadSlip, write: WriteSlip) -> Pairs<Slipped> {
    Pairs {
        entries: Slipped {
            library: Library::default(),
            read,
            write,
        },
        tally: Tally::default(),
    }
}

/// How many pairs are compared before one differs; what differs is printed (`--nocapture`).
fn shown_after<T>(
    name: &str,
    pairs: impl Iterator<Item = T>,
    mut compared: impl FnMut(T) -> Option<String>,
) {
    let mut shown = pairs.map(&mut compared).enumerate();
    let first = shown.find_map(|(number, why)| Some((number, why?)));
    let (number, why) = first.unwrap_or_else(|| panic!("{name} is not found"));
    println!("{name}: after {number} pairs\n{why}");
}

fn tokens_of(call: &Call) -> impl Iterator<Item = Token> {
    let tokens = 0..call.list.len() / TOKEN_WORDS;
    tokens.map(|token| token_in(TOKEN_WORDS, &call.list, token))
}

/// The payload of the list's first token, as a number that is 0 only for none.
fn first_payload(call: &Call) -> u32 {
    let token = token_in(TOKEN_WORDS, &call.list, 0);
    u32::from(token.variant) << 16 | token.value & 0xFFFF
}

/// A reader that copies the first token's payload to the root.
fn first_payload_to_the_root(call: &Call, left: &mut Left) {
    if left.nodes > 0 {
        let first = Payload::in_words(TOKEN_WORDS, &call.list, 0);
        first.put(NODE_WORDS, &mut left.tree, 0);
    }
}

/// The 6 that a binary minus makes keeps the payload that its 9 has.
fn made_minus_keeps_the_payload(_: &Call, left: &mut Left) {
    let nodes = decode_tree(&left.tree[..NODE_WORDS * left.nodes]).unwrap_or_default();
    for sum in 0..nodes.len() {
        if nodes[sum].token.op != 9 || nodes[sum].children != 2 {
            continue;
        }
        // The second operand stands behind all of the first.
        let (mut second, mut awaited) = (sum + 1, 1);
        while awaited > 0 {
            awaited = awaited - 1 + nodes[second].children;
            second += 1;
        }
        let (sum, made) = (nodes[sum].token, nodes[second].token);
        if made.op == 6 && (made.start, made.end) == (sum.start, sum.end) {
            Payload::of(&sum).put(NODE_WORDS, &mut left.tree, second);
        }
    }
}

/// The statements and their root keep the payload of the first semicolon.
fn made_statements_keep_the_payload(call: &Call, left: &mut Left) {
    let nodes = decode_tree(&left.tree[..NODE_WORDS * left.nodes]).unwrap_or_default();
    let Some(semicolon) = tokens_of(call).find(|token| token.op == 73) else {
        return;
    };
    for (number, node) in nodes.iter().enumerate() {
        if node.token.op == 73 && node.children > 0 {
            Payload::of(&semicolon).put(NODE_WORDS, &mut left.tree, number);
        }
    }
}

/// Message 8 tells the value twice.
fn message_8_tells_the_value_twice(_: &Call, left: &mut Left) {
    if left.records > 0 && left.messages[0] == 8 {
        left.messages[5] = left.messages[4];
    }
}

/// Message 9 tells the value in its span's end.
fn message_9_ends_by_the_value(_: &Call, left: &mut Left) {
    if left.records > 0 && left.messages[0] == 9 {
        left.messages[2] ^= left.messages[4];
        left.messages[4] = 0;
    }
}

/// A host math call without a host's name is no call.
fn math_asks_for_a_variant(call: &Call, left: &mut Left) {
    let unnamed = tokens_of(call).any(|token| token.op == 110 && token.variant != 12);
    if left.nodes > 0 && unnamed {
        (left.nodes, left.records) = (0, 1);
    }
}

/// A node with the value that it had before it was blanked.
fn blank_with_a_value(_: &Call, left: &mut Left) {
    if left.nodes > 0 && Payload::in_words(NODE_WORDS, &left.tree, 0) == Payload::BLANK {
        left.tree[4] |= 1;
    }
}

fn rule_by_the_payload(call: &Call, left: &mut Left) {
    if let Some(rule) = left.rules.first_mut().filter(|_| left.nodes > 0) {
        *rule ^= u8::from(first_payload(call) != 0);
    }
}

fn work_by_the_payload(call: &Call, left: &mut Left) {
    left.work[63] = first_payload(call);
}

fn word_behind_the_tree_by_the_payload(call: &Call, left: &mut Left) {
    if let Some(word) = left.tree.get_mut(NODE_WORDS * left.nodes) {
        *word = first_payload(call);
    }
}

/// Of messages too, whatever they tell.
fn second_record_by_the_payload(call: &Call, left: &mut Left) {
    left.messages[12] = first_payload(call);
}

#[test]
fn mistakes_of_a_reader_are_found() {
    let slips: [(&str, ReadSlip); 11] = [
        ("first payload to the root", first_payload_to_the_root),
        ("made minus keeps it", made_minus_keeps_the_payload),
        ("made statements keep it", made_statements_keep_the_payload),
        ("message 8 tells it twice", message_8_tells_the_value_twice),
        ("message 9 ends by it", message_9_ends_by_the_value),
        ("math asks for a variant", math_asks_for_a_variant),
        ("blank with a value", blank_with_a_value),
        ("rule by it", rule_by_the_payload),
        ("work by it", work_by_the_payload),
        ("word behind by it", word_behind_the_tree_by_the_payload),
        ("second record by it", second_record_by_the_payload),
    ];
    for (name, slip) in slips {
        let mut pairs = slipped(slip, |_, _| {});
        let lists = payload_calls::every_short_list(4);
        shown_after(name, lists, |pair| pairs.list(&pair).err());
        let mut pairs = slipped(slip, |_, _| {});
        let lists = payload_calls::generated(5).take(20_000);
        shown_after(name, lists, |pair| pairs.list(&pair).err());
    }
}

/// The tokens that are written.
fn tokens(left: &WriteLeft) -> usize {
    match left.answer {
        Written::Tokens(tokens) => tokens,
        Written::Refused(..) => 0,
    }
}

/// A written closer keeps its opener's payload.
fn closer_keeps_the_payload(_: &[u32], left: &mut WriteLeft) {
    let mut open = Vec::new();
    for token in 0..tokens(left) {
        match token_in(TOKEN_WORDS, &left.list, token).op {
            4 => open.push(Payload::in_words(TOKEN_WORDS, &left.list, token)),
            5 => {
                let payload = open.pop().expect("written brackets match");
                payload.put(TOKEN_WORDS, &mut left.list, token);
            }
            _ => {}
        }
    }
}

/// A written semicolon, or an added closer, has the payload of the token before it.
fn added_token_has_the_payload_before_it(_: &[u32], left: &mut WriteLeft) {
    for token in 1..tokens(left) {
        if matches!(token_in(TOKEN_WORDS, &left.list, token).op, 5 | 73) {
            let before = Payload::in_words(TOKEN_WORDS, &left.list, token - 1);
            before.put(TOKEN_WORDS, &mut left.list, token);
        }
    }
}

/// A tree is not plain where its root carries a host's name.
fn plain_asks_for_a_variant(tree: &[u32], left: &mut WriteLeft) {
    if token_in(NODE_WORDS, tree, 0).variant == 12 {
        left.answer = Written::Refused(13, 0);
    }
}

/// The place of answer 13 tells the payload.
fn place_by_the_payload(tree: &[u32], left: &mut WriteLeft) {
    if let Written::Refused(13, place) = &mut left.answer {
        *place += usize::from(token_in(NODE_WORDS, tree, 0).variant);
    }
}

fn word_behind_the_list_by_the_payload(tree: &[u32], left: &mut WriteLeft) {
    let behind = TOKEN_WORDS * tokens(left);
    if let Some(word) = left.list.get_mut(behind) {
        *word = token_in(NODE_WORDS, tree, 0).value;
    }
}

#[test]
fn mistakes_of_a_writer_are_found() {
    let slips: [(&str, WriteSlip, bool); 5] = [
        ("closer keeps it", closer_keeps_the_payload, true),
        (
            "added token has it",
            added_token_has_the_payload_before_it,
            true,
        ),
        ("plain asks for a variant", plain_asks_for_a_variant, true),
        ("13 places by it", place_by_the_payload, false),
        (
            "word behind by it",
            word_behind_the_list_by_the_payload,
            true,
        ),
    ];
    for (name, slip, in_chains) in slips {
        let mut pairs = slipped(|_, _| {}, slip);
        let trees = payload_calls::trees(5).take(10_000);
        shown_after(name, trees, |pair| pairs.tree(&pair).err());
        if !in_chains {
            continue;
        }
        let mut rng = Rng::new(8);
        let chain = |case| {
            let pair = PayloadCall::any(&mut rng, Call::of(&case))?;
            pairs.chain(&mut rng, &pair).err()
        };
        shown_after(name, Lists::new(6).take(10_000), chain);
    }
}
