//! The calls and trees of which one payload is changed (card 6).

use crate::calls;
use crate::payload_reach::{Payload, token_in};
use crate::plain_trees;
use crate::rule_calls;
use crate::writer_model::is_call;
use oracle::generate::alphabets::Alphabet;
use oracle::generate::{Mixed, Rng, dress};
use oracle::refusal::{Call, refusal};
use oracle::words::{
    Case, FULL_SET, LAST_VARIANT, NODE_WORDS, TOKEN_WORDS, Token, bit, decode_list, decode_tree,
    tree_words,
};

/// A call that is not turned back, and another payload for one of its tokens.
#[derive(Clone, Debug)]
pub struct PayloadCall {
    pub call: Call,
    pub token: usize,
    pub payload: Payload,
}

impl PayloadCall {
    /// The call with the other payload.
    pub fn changed(&self) -> Call {
        let mut changed = self.call.clone();
        self.payload.put(TOKEN_WORDS, &mut changed.list, self.token);
        changed
    }

    /// Another payload for a token of a list, in one of three for a query or a math call where there is one; none where the call is turned
    /// back or its list is empty.
    pub fn any(rng: &mut Rng, call: Call) -> Option<Self> {
        if refusal(&call).is_some() {
            return None;
        }
        let tokens = decode_list(&call.list)?;
        let called = |token: &usize| is_call(tokens[*token].op);
        let calls: Vec<usize> = (0..tokens.len()).filter(called).collect();
        let token = match (tokens.len(), &calls[..]) {
            (0, _) => return None,
            (_, calls @ [_, ..]) if rng.chance(33) => *rng.pick(calls),
            (len, _) => rng.below(len),
        };
        let payload = Payload::of(&tokens[token]).other(rng);
        Some(Self {
            call,
            token,
            payload,
        })
    }
}

/// A host's math call put into a list, in one of three at its end: message 8 or 9 tells its value, if nothing comes before them.
fn with_host_math(rng: &mut Rng, mut case: Case) -> Case {
    let place = match rng.below(3) {
        0 => case.tokens.len(),
        _ => rng.below(case.tokens.len() + 1),
    };
    let (op, start) = (*rng.pick(&[109, 110]), rng.below(100) as u32);
    let token = Token {
        op,
        variant: LAST_VARIANT,
        value: rng.bits() as u32,
        start,
        end: start + 4,
    };
    case.tokens.insert(place, token);
    case.used = (case.used.0 | bit(op).0, case.used.1 | bit(op).1);
    case
}

/// Lists with one payload changed, without end: two in three are those of the comparison with the Rust, of up to 24 tokens or of up to 300,
/// and one in three has a host's math call put in.
pub fn generated(seed: u64) -> impl Iterator<Item = PayloadCall> {
    let mut rng = Rng::new(seed ^ 0x4A3E);
    let mut short = calls::generated(seed ^ 0x4A3E, 24);
    let mut long = calls::generated(seed ^ 0x4A3F, 300);
    let mut mixed = Mixed::new(seed ^ 0x4A40, 16);
    let mut hosted = calls::hosted(seed ^ 0x4A41, 24);
    let pairs = std::iter::repeat_with(move || {
        let call = match rng.below(300) {
            0..2 => long.next(),
            2..50 => hosted.next(),
            50..200 => short.next(),
            _ => mixed
                .next()
                .map(|case| Call::of(&with_host_math(&mut rng, case))),
        };
        PayloadCall::any(&mut rng, call?)
    });
    pairs.flatten()
}

/// Host math calls, minuses, semicolons, brackets.
static NAMED: [Alphabet; 2] = [
    Alphabet {
        name: "host math, minuses, semicolons, brackets",
        ops: &[61, 6, 9, 73, 4, 5, 109, 110],
        ending: &[],
        versions_differ: false,
    },
    Alphabet {
        name: "host math, minuses, statements",
        ops: &[61, 6, 73, 71, 4, 5, 110],
        ending: &[73],
        versions_differ: false,
    },
];

/// The list under its exact used set, the full one, and the full one without `=` and `;`, which leaves semicolons as they are. It is read
/// as it is, and with a name of its own under variant 12 in each token.
fn dressed(tokens: Vec<Token>, version: i16) -> impl Iterator<Item = Call> {
    let named = |(place, token): (usize, &Token)| Token {
        variant: LAST_VARIANT,
        value: 0x0003_0007 * (place as u32 + 1),
        ..*token
    };
    let named: Vec<Token> = tokens.iter().enumerate().map(named).collect();
    let no_statements = (FULL_SET.0, FULL_SET.1 & !(bit(71).1 | bit(73).1));
    [tokens, named].into_iter().flat_map(move |tokens| {
        let case = Case::exact(tokens, version);
        let sets = [case.used, FULL_SET, no_statements];
        sets.map(|used| {
            Call::of(&Case {
                used,
                ..case.clone()
            })
        })
    })
}

/// The call with each token's payload blanked, under variant 12 with another value, and under another variant.
fn every_change(call: Call) -> impl Iterator<Item = PayloadCall> {
    let tokens = call.list.len() / TOKEN_WORDS;
    (0..tokens).flat_map(move |token| {
        let call = call.clone();
        let given = token_in(TOKEN_WORDS, &call.list, token);
        let others = [
            Payload::BLANK,
            Payload::new(LAST_VARIANT, given.value ^ 0x8001_0100),
            Payload::new(1, given.value),
        ];
        let others = others
            .into_iter()
            .filter(move |other| *other != Payload::of(&given));
        others.map(move |payload| PayloadCall {
            call: call.clone(),
            token,
            payload,
        })
    })
}

/// Every list of up to `most` operators, host math calls, minuses, semicolons and brackets, at 4, 5 and 6 under three used sets, with each
/// token's payload changed.
pub fn every_short_list(most: usize) -> impl Iterator<Item = PayloadCall> {
    let lists = NAMED.iter().flat_map(move |all| all.every_list(most));
    let dressed = lists.flat_map(|ops| {
        let at = |version| dressed(dress::plain(&ops), version);
        [4, 5, 6].map(at).into_iter().flatten()
    });
    dressed.flat_map(every_change)
}

/// The same of every list over the alphabets of the comparison with the Rust, under their exact used sets.
pub fn every_list_compared(most: usize) -> impl Iterator<Item = PayloadCall> {
    calls::over_alphabets(most).flat_map(every_change)
}

/// Lists that versions read otherwise, at every version, with one payload changed.
pub fn every_version(seed: u64) -> impl Iterator<Item = PayloadCall> {
    let mut rng = Rng::new(seed ^ 0x7E25);
    rule_calls::every_version().filter_map(move |call| PayloadCall::any(&mut rng, call.call))
}

/// A tree that passes answer 12, a list's length in words, and another payload for one of its nodes.
#[derive(Clone, Debug)]
pub struct PayloadTree {
    pub tree: Vec<u32>,
    pub room: usize,
    pub node: usize,
    pub payload: Payload,
}

impl PayloadTree {
    /// The tree with the other payload.
    pub fn changed(&self) -> Vec<u32> {
        let mut changed = self.tree.clone();
        self.payload.put(NODE_WORDS, &mut changed, self.node);
        changed
    }
}

/// Trees with one payload changed, without end: plain ones, plain ones with one thing changed, and of any shape. One in a thousand may be
/// too long to be written, and one in twenty is lent too short a list, as likely as not.
pub fn trees(seed: u64) -> impl Iterator<Item = PayloadTree> {
    let mut rng = Rng::new(seed ^ 0x73EE);
    let pairs = std::iter::repeat_with(move || {
        let most = match rng.below(1_000) {
            0 => 4_096,
            1..20 => 300,
            _ => 24,
        };
        let size = 1 + rng.below(most);
        let nodes = match rng.below(10) {
            0 => plain_trees::any_shape(&mut rng, size),
            1..3 => {
                let plain = plain_trees::any(&mut rng, size);
                plain_trees::disturbed(&mut rng, plain)
            }
            _ => plain_trees::any(&mut rng, size),
        };
        let tree = tree_words(&nodes);
        // A node with another number of children may leave no tree.
        decode_tree(&tree)?;
        let node = rng.below(nodes.len());
        Some(PayloadTree {
            room: match rng.below(20) {
                0 => TOKEN_WORDS * rng.below(4 * nodes.len() + 1),
                _ => 4 * TOKEN_WORDS * nodes.len(),
            },
            payload: Payload::in_words(NODE_WORDS, &tree, node).other(&mut rng),
            tree,
            node,
        })
    });
    pairs.flatten()
}

#[cfg(test)]
mod tests {
    use super::*;
    use crate::payload_reach::payload_apart;
    use crate::writer_model::shape_fault;

    /// The two lists differ in the one token, and both are accepted.
    fn sound(pair: &PayloadCall) {
        let changed = pair.changed();
        let tokens = changed.list.len() / TOKEN_WORDS;
        let apart = payload_apart(TOKEN_WORDS, tokens, &pair.call.list, &changed.list);
        assert_eq!(apart, Ok(Some(pair.token)), "{pair:?}");
        assert_eq!(refusal(&pair.call), None, "{pair:?}");
        assert_eq!(refusal(&changed), None, "{pair:?}");
    }

    #[test]
    fn accepted_lists_that_differ_in_one_payload() {
        generated(1).take(20_000).for_each(|pair| sound(&pair));
        every_short_list(2).for_each(|pair| sound(&pair));
        every_list_compared(2).for_each(|pair| sound(&pair));
    }

    #[test]
    fn trees_that_differ_in_one_payload() {
        for pair in trees(1).take(5_000) {
            let changed = pair.changed();
            let nodes = pair.tree.len() / NODE_WORDS;
            let apart = payload_apart(NODE_WORDS, nodes, &pair.tree, &changed);
            assert_eq!(apart, Ok(Some(pair.node)));
            assert_eq!(shape_fault(&changed), None);
        }
    }
}
