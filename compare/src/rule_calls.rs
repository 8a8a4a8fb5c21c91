//! The calls that the parse entry with a rule buffer is compared over.

use crate::calls;
use oracle::generate::{Rng, dress};
use oracle::refusal::{Call, RuleCall, rule_bytes};
use oracle::words::Case;

/// Rule buffers for calls: three in five of exactly the length that is asked for, most others longer, and one in sixteen too short.
pub fn with_rules(seed: u64, calls: impl Iterator<Item = Call>) -> impl Iterator<Item = RuleCall> {
    let mut rng = Rng::new(seed ^ 0x2071E);
    calls.map(move |call| {
        let asked = rule_bytes(call.list.len());
        let rules_len = match rng.below(16) {
            0..10 => asked,
            10 => asked.saturating_sub(1 + rng.below(asked as usize + 1) as u64),
            11..14 => asked + 1 + rng.below(3) as u64,
            _ => asked + rng.below(100) as u64,
        };
        RuleCall { call, rules_len }
    })
}

/// Each of the calls with a rule buffer of none, of one byte too few, of two bytes a token, of exactly three, and of one more.
fn with_each_length(calls: impl Iterator<Item = Call>) -> impl Iterator<Item = RuleCall> {
    calls.flat_map(|call| {
        let asked = rule_bytes(call.list.len());
        let mut lens = vec![0, asked.saturating_sub(1), asked / 3 * 2, asked, asked + 1];
        lens.sort_unstable();
        lens.dedup();
        lens.into_iter().map(move |rules_len| RuleCall {
            call: call.clone(),
            rules_len,
        })
    })
}

/// Every refusal at its limits, alone and with each other, with rule buffers that are too short and long enough: 16 in every order
/// with the others, among them bad words and lists of up to `most` brackets that are too deep.
pub fn limits(most: usize) -> impl Iterator<Item = RuleCall> {
    let calls = calls::limits().chain(calls::nesting(most));
    with_each_length(calls)
}

/// Lists that versions pair otherwise (all comparisons and equalities, logic, conditionals, a script with both), at all 65,536 versions.
pub fn every_version() -> impl Iterator<Item = RuleCall> {
    let lists = [
        vec![61, 50, 61, 54, 61, 52, 61, 53, 61, 51, 61, 55, 61],
        vec![61, 57, 61, 56, 61, 54, 61, 57, 61],
        vec![61, 59, 61, 60, 61, 59, 61, 60, 61],
        vec![43, 71, 61, 55, 61, 50, 61, 73, 74, 6, 43, 54, 61, 73],
    ];
    lists.into_iter().flat_map(|ops| {
        let tokens = dress::plain(&ops);
        (i16::MIN..=i16::MAX).map(move |version| {
            let call = Call::of(&Case::exact(tokens.clone(), version));
            let rules_len = rule_bytes(call.list.len());
            RuleCall { call, rules_len }
        })
    })
}
