//! A call of the parse entry with a rule buffer beside what it has to leave: what the parse entry leaves without it, and of a tree the
//! rule of each node in front of the rule buffer, with all other bytes as they were, those around the lent slice too. The rules are
//! those that the Rust's passes mark; where the Rust is not at hand, the tree is the parse entry's and the rules are the table's.

use crate::library::{self, Read};
use crate::reading::{Buffers, Expected, GUARD, Lent, MOVES, case_of, expected};
use crate::smallest::{shown, smallest};
use oracle::generate::Rng;
use oracle::refusal::{Call, RuleCall, rule_bytes, rule_refusal};
use oracle::rules::{LAST_RULE, of_tree};
use oracle::words::decode_tree;

/// How many calls were compared, and what was expected of them.
#[derive(Copy, Clone, Debug)]
pub struct Tally {
    pub calls: u64,
    pub trees: u64,
    pub messages: u64,
    pub refused: u64,
    /// How many of the refused calls were so for their rule buffer.
    pub short: u64,
    /// How many nodes each rule made.
    pub rules: [u64; LAST_RULE as usize + 1],
}

impl Default for Tally {
    fn default() -> Self {
        Self {
            calls: 0,
            trees: 0,
            messages: 0,
            refused: 0,
            short: 0,
            rules: [0; LAST_RULE as usize + 1],
        }
    }
}

impl Tally {
    fn count(&mut self, expected: &Expected, rules: &[u8]) {
        self.calls += 1;
        match expected {
            Expected::Tree(_) => self.trees += 1,
            Expected::Messages(_) => self.messages += 1,
            Expected::Refused(number, _) => {
                self.refused += 1;
                self.short += u64::from(*number == 16);
            }
            Expected::Something => {}
        }
        for rule in rules {
            self.rules[usize::from(*rule)] += 1;
        }
    }
}

/// The buffers of calls with rules, one call after the other.
#[derive(Default)]
pub struct Ruling {
    buffers: Buffers,
    noise: Vec<u8>,
    moved: usize,
    rules: Lent<u8>,
    pub tally: Tally,
}

impl Ruling {
    /// Compares all calls; `progress` is called for each.
    pub fn all(
        &mut self,
        calls: impl Iterator<Item = RuleCall>,
        mut progress: impl FnMut(),
    ) -> Result<(), String> {
        for call in calls {
            self.call(&call)?;
            progress();
        }
        Ok(())
    }

    /// Compares a call, and what its parts would be without it: a difference is told of the smallest call that shows it.
    pub fn call(&mut self, call: &RuleCall) -> Result<(), String> {
        let compared = self.expected(call).and_then(|(expected, rules)| {
            self.tally.count(&expected, &rules);
            self.call_expecting(call, &expected, &rules)
        });
        compared.map_err(|_| self.told(call))
    }

    /// What a call has to leave: the parse entry's part, and the bytes in front of the rule buffer.
    fn expected(&mut self, call: &RuleCall) -> Result<(Expected, Vec<u8>), String> {
        if let Some(refused) = rule_refusal(call) {
            let refused = Expected::Refused(refused.number, refused.place as usize);
            return Ok((refused, Vec::new()));
        }
        let expected = match expected(&call.call) {
            Expected::Something => self.without_rules(&call.call)?,
            known => known,
        };
        let rules = match &expected {
            Expected::Tree(words) => rules_of(&call.call, words)?,
            _ => Vec::new(),
        };
        Ok((expected, rules))
    }

    /// What the parse entry leaves of the same call.
    fn without_rules(&mut self, call: &Call) -> Result<Expected, String> {
        Ok(match self.buffers.call(call, &Expected::Something)? {
            Read::Tree(nodes) => Expected::Tree(self.buffers.tree(nodes).to_vec()),
            Read::Messages(count) => Expected::Messages(self.buffers.records(count)),
            Read::Refused(number, place) => Expected::Refused(number, place),
        })
    }

    /// Makes the call; how what it left differs from what is expected.
    fn call_expecting(
        &mut self,
        call: &RuleCall,
        expected: &Expected,
        front: &[u8],
    ) -> Result<(), String> {
        let len = call.rules_len as usize;
        self.stretch(len);
        self.moved = (self.moved + 1) % MOVES;
        let noise = &self.noise[self.moved..];
        self.rules.fill(noise, len);
        let rules = self.rules.slice();
        let entry =
            |list: &[u32], tree: &mut [u32], messages: &mut [u32], work: &mut [u32], given| {
                library::parse_rules(list, tree, messages, work, rules, given)
            };
        self.buffers.call_by(entry, &call.call, expected)?;
        self.rules.judge("rule", noise, front)
    }

    /// Makes the noise long enough for a slice of `len` bytes, wherever it starts. No byte of it is a rule's number.
    fn stretch(&mut self, len: usize) {
        let mut rng = Rng::new(self.noise.len() as u64);
        while self.noise.len() < len + 2 * GUARD + MOVES {
            let above = usize::from(u8::MAX - LAST_RULE);
            self.noise.push(LAST_RULE + 1 + rng.below(above) as u8);
        }
    }

    /// What differs on the smallest call that shows a difference.
    fn told(&mut self, call: &RuleCall) -> String {
        let surplus = call.rules_len as i64 - rule_bytes(call.call.list.len()) as i64;
        let with_rules = |call: &Call| RuleCall {
            rules_len: rule_bytes(call.list.len()).saturating_add_signed(surplus),
            call: call.clone(),
        };
        let least = smallest(call.call.clone(), |call| {
            self.difference(&with_rules(call)).is_some()
        });
        let least = with_rules(&least);
        let why = self.difference(&least);
        let why = why.unwrap_or_else(|| "once different".to_string());
        let bytes = least.rules_len;
        format!(
            "{why}\n{}, a rule buffer of {bytes} bytes",
            shown(&least.call)
        )
    }

    fn difference(&mut self, call: &RuleCall) -> Option<String> {
        let compared = self
            .expected(call)
            .and_then(|(expected, rules)| self.call_expecting(call, &expected, &rules));
        compared.err()
    }
}

/// The rules of the tree with these words that a call is answered with.
fn rules_of(call: &Call, words: &[u32]) -> Result<Vec<u8>, String> {
    let nodes = decode_tree(words).ok_or("the words are no tree")?;
    let nodes = nodes.iter().map(|node| (&node.token, node.children));
    let rules = of_tree(&case_of(call), nodes);
    rules.ok_or_else(|| "no rules for the tree".to_string())
}
