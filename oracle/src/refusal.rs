//! Where the entry turns a call back: answers 1 to 11 of document 01's table, 9 and 11 as card 7 has
//! them, and card 8's 17 after the 7 and 18 after the words, the first failure winning; with a rule
//! buffer card 5's 16 after the 5. Written from the documents; the Rust has no part of it.

use crate::nesting::{MOST_NESTING, too_deep};
use crate::words::{
    Case, LAST_OP, LAST_PLACE, LAST_VARIANT, MOST_TOKENS, TOKEN_WORDS, TREE_WORDS, is_host, kind,
    list_words, low, number_in,
};

/// What the entry is lent and given. Only the lengths of the lent buffers count.
#[derive(Clone, Debug, PartialEq, Eq)]
pub struct Call {
    pub list: Vec<u32>,
    pub tree_len: u64,
    pub messages_len: u64,
    pub work_len: u64,
    pub used: (u64, u64),
    pub source_len: u64,
    pub version: i16,
    pub limit: u32,
}

/// The number of an answer and its place.
#[derive(Copy, Clone, Debug, PartialEq, Eq)]
pub struct Refusal {
    pub number: u32,
    pub place: u32,
}

impl Call {
    /// The call of a case, with buffers of exactly the lengths that are asked for, and the greatest
    /// nesting limit.
    pub fn of(case: &Case) -> Self {
        let tokens = case.tokens.len() as u64;
        Self {
            list: list_words(&case.tokens),
            tree_len: TREE_WORDS as u64 * tokens,
            messages_len: 16,
            work_len: 64 * tokens + 64,
            used: case.used,
            source_len: u64::from(case.source_len),
            version: case.version,
            limit: MOST_NESTING,
        }
    }

    /// The same call under another nesting limit.
    pub fn at_limit(self, limit: u32) -> Self {
        Self { limit, ..self }
    }
}

/// What the entry with a rule buffer is lent and given.
#[derive(Clone, Debug, PartialEq, Eq)]
pub struct RuleCall {
    pub call: Call,
    /// Bytes of the rule buffer.
    pub rules_len: u64,
}

/// The bytes of the rule buffer that a list of so many words is read with: three for each whole token.
pub fn rule_bytes(list_words: usize) -> u64 {
    3 * (list_words / TOKEN_WORDS) as u64
}

/// The answer that turns a call with a rule buffer back, if one does: 16 is looked at where 1 to 5
/// were not answered, and before all others.
pub fn rule_refusal(call: &RuleCall) -> Option<Refusal> {
    let refused = refusal(&call.call);
    if refused.is_some_and(|refused| refused.number <= 5) {
        return refused;
    }
    if call.rules_len < rule_bytes(call.call.list.len()) {
        return Some(Refusal {
            number: 16,
            place: 0,
        });
    }
    refused
}

/// The answer that turns the call back, if one does.
pub fn refusal(call: &Call) -> Option<Refusal> {
    let tokens = (call.list.len() / TOKEN_WORDS) as u64;
    let whole: [(u32, bool); 8] = [
        (1, !call.list.len().is_multiple_of(TOKEN_WORDS)),
        (2, tokens > MOST_TOKENS as u64),
        (3, call.tree_len < TREE_WORDS as u64 * tokens),
        (4, call.messages_len < 16),
        (5, call.work_len < 64 * tokens + 64),
        (6, call.used.1 >> (LAST_OP - 63) != 0),
        (7, call.source_len > u64::from(LAST_PLACE)),
        (17, !(1..=MOST_NESTING).contains(&call.limit)),
    ];
    if let Some(&(number, _)) = whole.iter().find(|(_, fails)| *fails) {
        return Some(Refusal { number, place: 0 });
    }
    word_refusal(&call.list).or_else(|| nesting_refusal(call))
}

/// The first opener with which more brackets are open than the limit, of a list without a bad word.
fn nesting_refusal(call: &Call) -> Option<Refusal> {
    let ops = call
        .list
        .iter()
        .step_by(TOKEN_WORDS)
        .map(|&word| number_in(word));
    let token = too_deep(ops, call.limit)?;
    Some(Refusal {
        number: 18,
        place: token as u32,
    })
}

/// The first word that turns a list of whole tokens back.
fn word_refusal(list: &[u32]) -> Option<Refusal> {
    let mut variant = 0;
    for (index, &word) in list.iter().enumerate() {
        let place = index as u32;
        let expected = (index % TOKEN_WORDS) as u32 + 1;
        let bits = low(word);
        if kind(word) != expected {
            return Some(Refusal { number: 8, place });
        }
        let other_bits = match expected {
            1 => {
                variant = bits >> 8 & 0xF;
                let op = number_in(word);
                if op > LAST_OP && !is_host(op) {
                    return Some(Refusal { number: 9, place });
                }
                if variant > u32::from(LAST_VARIANT) {
                    return Some(Refusal { number: 10, place });
                }
                bits >> 16 != 0
            }
            2 | 3 => false,
            _ if variant == 0 => bits != 0,
            _ => bits >> 16 != 0,
        };
        if other_bits {
            return Some(Refusal { number: 11, place });
        }
    }
    None
}

#[cfg(test)]
mod tests {
    use super::*;
    use crate::words::{FULL_SET, Token, exact_set, with_number, word};

    fn sound(tokens: usize) -> Call {
        let token = Token {
            op: 61,
            variant: 1,
            value: 0x1234_5678,
            start: 7,
            end: 3,
        };
        let tokens = vec![token; tokens];
        Call::of(&Case {
            used: exact_set(&tokens),
            source_len: LAST_PLACE,
            version: 6,
            tokens,
        })
    }

    fn answer(change: impl FnOnce(&mut Call)) -> Option<(u32, u32)> {
        let mut call = sound(3);
        change(&mut call);
        refusal(&call).map(|refused| (refused.number, refused.place))
    }

    #[test]
    fn a_sound_call_is_not_turned_back() {
        for tokens in [0, 1, 2, 4095, 4096] {
            assert_eq!(refusal(&sound(tokens)), None, "{tokens} tokens");
        }
        assert_eq!(answer(|call| call.used = FULL_SET), None);
        assert_eq!(answer(|call| call.used = (0, 0)), None);
    }

    #[test]
    fn two_words_answer_1_and_4097_tokens_answer_2() {
        let mut short = sound(0);
        short.list = vec![0; 2];
        assert_eq!(
            refusal(&short),
            Some(Refusal {
                number: 1,
                place: 0
            })
        );
        assert_eq!(
            refusal(&sound(4097)),
            Some(Refusal {
                number: 2,
                place: 0
            })
        );
    }

    #[test]
    fn the_length_is_judged_before_the_count() {
        let mut long = sound(4097);
        long.list.push(0);
        assert_eq!(
            refusal(&long),
            Some(Refusal {
                number: 1,
                place: 0
            })
        );
    }

    #[test]
    fn each_buffer_is_one_word_too_short() {
        assert_eq!(answer(|call| call.tree_len -= 1), Some((3, 0)));
        let trees = [(18, false), (20, false), (21, true), (22, true)];
        for (words, taken) in trees {
            let answer = answer(|call| call.tree_len = words * 3);
            assert_eq!(answer.is_none(), taken, "{words} words a token");
        }
        assert_eq!(answer(|call| call.messages_len -= 1), Some((4, 0)));
        assert_eq!(answer(|call| call.work_len -= 1), Some((5, 0)));
    }

    #[test]
    fn a_used_bit_above_110_and_a_long_source() {
        assert_eq!(answer(|call| call.used.1 |= 1 << 46), None);
        assert_eq!(answer(|call| call.used.1 |= 1 << 47), Some((6, 0)));
        assert_eq!(answer(|call| call.used.1 |= 1 << 63), Some((6, 0)));
        assert_eq!(answer(|call| call.source_len = 536_870_912), Some((7, 0)));
    }

    #[test]
    fn a_word_is_judged_by_kind_operator_variant_and_other_bits_in_this_order() {
        assert_eq!(answer(|call| call.list[5] = word(2, !0 >> 3)), Some((8, 5)));
        assert_eq!(answer(|call| call.list[5] = word(1, !0 >> 3)), Some((9, 5)));
        assert_eq!(answer(|call| call.list[5] = word(1, 111)), Some((9, 5)));
        let variant_13 = word(1, 110 | 13 << 8 | 1 << 16);
        assert_eq!(answer(|call| call.list[5] = variant_13), Some((10, 5)));
        let bit_16 = word(1, 110 | 12 << 8 | 1 << 16);
        assert_eq!(answer(|call| call.list[5] = bit_16), Some((11, 5)));
        assert_eq!(
            answer(|call| call.list[8] = word(4, 1 << 16)),
            Some((11, 8))
        );
        assert_eq!(
            answer(|call| call.list[9] = word(5, 1 << 28)),
            Some((11, 9))
        );
    }

    #[test]
    fn hosts_are_256_to_1023_and_no_other_number_is_above_110() {
        for op in 0..=0xFFF {
            let head = with_number(word(1, 12 << 8), op);
            let legal = matches!(op, 0..=110 | 256..=1023);
            let wanted = (!legal).then_some((9, 5));
            assert_eq!(answer(|call| call.list[5] = head), wanted, "{op}");
            // The number is judged before the variant, the variant before a bit from 16 on.
            let high = head | 13 << 8 | 1 << 28;
            let wanted = Some(if legal { (10, 5) } else { (9, 5) });
            assert_eq!(answer(|call| call.list[5] = high), wanted, "{op}");
        }
    }

    #[test]
    fn a_host_opens_and_closes_nothing() {
        // Each has the lower eight bits of a bracket.
        for host in [256, 258, 260, 513, 515, 517, 768] {
            let hosts = |call: &mut Call| {
                for token in 0..3 {
                    call.list[5 * token] = with_number(word(1, 1 << 8), host);
                }
                call.limit = 1;
            };
            assert_eq!(answer(hosts), None, "{host}");
        }
    }

    #[test]
    fn under_variant_0_both_value_halves_are_zero() {
        let bare = word(1, 61);
        assert_eq!(answer(|call| call.list[5] = bare), Some((11, 8)));
        let lower_only = |call: &mut Call| {
            call.list[5] = bare;
            call.list[8] = word(4, 0);
        };
        assert_eq!(answer(lower_only), Some((11, 9)));
    }

    #[test]
    fn a_limit_is_1_to_4096() {
        for limit in [1, 2, 4095, 4096] {
            assert_eq!(answer(|call| call.limit = limit), None, "{limit}");
        }
        for limit in [0, 4097, 1 << 16, u32::MAX] {
            assert_eq!(answer(|call| call.limit = limit), Some((17, 0)), "{limit}");
        }
        // After the source length, before the words.
        let longer = |call: &mut Call| (call.limit, call.source_len) = (0, 1 << 40);
        assert_eq!(answer(longer), Some((7, 0)));
        let bad_word = |call: &mut Call| (call.limit, call.list[0]) = (0, 0);
        assert_eq!(answer(bad_word), Some((17, 0)));
    }

    #[test]
    fn nesting_is_judged_by_tokens_and_after_every_word() {
        let deep = |call: &mut Call| {
            for token in 0..3 {
                call.list[5 * token] = word(1, 4 | 1 << 8);
            }
        };
        assert_eq!(answer(deep), None);
        for limit in [1, 2] {
            let at_limit = |call: &mut Call| {
                deep(call);
                call.limit = limit;
            };
            assert_eq!(answer(at_limit), Some((18, limit)));
            // Whatever is in the used set.
            let unused = |call: &mut Call| {
                at_limit(call);
                call.used = (0, 0);
            };
            assert_eq!(answer(unused), Some((18, limit)));
            let bad_word = |call: &mut Call| {
                at_limit(call);
                call.list[14] = 0;
            };
            assert_eq!(answer(bad_word), Some((8, 14)));
        }
    }

    #[test]
    fn a_rule_buffer_has_three_bytes_a_token_and_comes_after_5() {
        type Change = fn(&mut Call);
        let answer = |rules_len: u64, change: Change| {
            let mut call = sound(3);
            change(&mut call);
            let refused = rule_refusal(&RuleCall { call, rules_len });
            refused.map(|refused| (refused.number, refused.place))
        };
        for (bytes, taken) in [(0, false), (3, false), (8, false), (9, true), (10, true)] {
            let wanted = (!taken).then_some((16, 0));
            assert_eq!(answer(bytes, |_| {}), wanted, "{bytes} bytes");
        }
        let before: [(u32, Change); 4] = [
            (1, |call| call.list.push(0)),
            (3, |call| call.tree_len = 0),
            (4, |call| call.messages_len = 0),
            (5, |call| call.work_len = 0),
        ];
        for (number, change) in before {
            assert_eq!(answer(8, change), Some((number, 0)));
            assert_eq!(answer(9, change), Some((number, 0)));
        }
        let after: [(u32, u32, Change); 6] = [
            (6, 0, |call| call.used.1 = u64::MAX),
            (7, 0, |call| call.source_len = 1 << 40),
            (17, 0, |call| call.limit = 0),
            (8, 14, |call| call.list[14] = 0),
            (9, 5, |call| call.list[5] = word(1, 111)),
            (18, 1, |call| {
                call.list[0] = word(1, 4 | 1 << 8);
                call.list[5] = word(1, 4 | 1 << 8);
                call.limit = 1;
            }),
        ];
        for (number, place, change) in after {
            assert_eq!(answer(8, change), Some((16, 0)), "{number}");
            assert_eq!(answer(9, change), Some((number, place)));
        }
        let none = RuleCall {
            call: sound(0),
            rules_len: 0,
        };
        assert_eq!(rule_refusal(&none), None);
        let many = RuleCall {
            call: sound(4097),
            rules_len: 0,
        };
        assert_eq!(rule_refusal(&many).map(|refused| refused.number), Some(2));
    }

    #[test]
    fn the_first_failure_wins() {
        let later_and_earlier = |call: &mut Call| {
            call.list[3] = 0;
            call.list[1] = 0;
        };
        assert_eq!(answer(later_and_earlier), Some((8, 1)));
        let all = |call: &mut Call| {
            call.list[0] = 0;
            call.source_len = 1 << 40;
            call.used.1 = u64::MAX;
            call.work_len = 0;
            call.messages_len = 0;
        };
        assert_eq!(answer(all), Some((4, 0)));
    }
}
