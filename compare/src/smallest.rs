//! The smallest call that still shows a difference, found by taking tokens out and making the rest plain; and the smallest input of a
//! program.

use oracle::hosts::STAND_IN;
use oracle::nesting::MOST_NESTING;
use oracle::refusal::Call;
use oracle::words::{TOKEN_WORDS, TREE_WORDS, exact_set, is_host, number_in, with_number, word};

/// Takes out runs of tokens and makes the others plain for as long as the call still differs.
pub fn smallest(mut call: Call, mut differs: impl FnMut(&Call) -> bool) -> Call {
    loop {
        let before = call.clone();
        call = fewer_tokens(call, &mut differs);
        call = plainer(call, &mut differs);
        if call == before {
            return call;
        }
    }
}

fn fewer_tokens(mut call: Call, differs: &mut impl FnMut(&Call) -> bool) -> Call {
    let mut run = (call.list.len() / TOKEN_WORDS).max(1);
    while run > 0 {
        let mut at = 0;
        while (at + run) * TOKEN_WORDS <= call.list.len() {
            let mut less = call.clone();
            less.list.drain(at * TOKEN_WORDS..(at + run) * TOKEN_WORDS);
            less.tree_len = less.tree_len.saturating_sub((TREE_WORDS * run) as u64);
            less.work_len = less.work_len.saturating_sub(64 * run as u64);
            if differs(&less) {
                call = less;
            } else {
                at += 1;
            }
        }
        run /= 2;
    }
    call
}

fn plainer(mut call: Call, differs: &mut impl FnMut(&Call) -> bool) -> Call {
    let mut change = |call: &mut Call, make: &dyn Fn(&mut Call)| {
        let mut changed = call.clone();
        make(&mut changed);
        if changed != *call && differs(&changed) {
            *call = changed;
        }
    };
    for token in 0..call.list.len() / TOKEN_WORDS {
        let at = token * TOKEN_WORDS;
        let place = token as u32;
        change(&mut call, &|call| {
            call.list[at] = with_number(word(1, 0), number_in(call.list[at]));
            call.list[at + 3] = word(4, 0);
            call.list[at + 4] = word(5, 0);
        });
        change(&mut call, &|call| {
            if is_host(number_in(call.list[at])) {
                call.list[at] = with_number(call.list[at], STAND_IN);
            }
        });
        change(&mut call, &|call| {
            call.list[at + 1] = word(2, place);
            call.list[at + 2] = word(3, place + 1);
        });
    }
    change(&mut call, &|call| {
        if let Some(tokens) = oracle::words::decode_list(&call.list) {
            call.used = exact_set(&tokens);
        }
    });
    change(&mut call, &|call| {
        call.source_len = (call.list.len() / TOKEN_WORDS) as u64
    });
    for version in [4, 5, 6] {
        change(&mut call, &|call| call.version = version);
    }
    change(&mut call, &|call| call.limit = MOST_NESTING);
    call
}

/// Takes out runs of bytes for as long as the input still differs.
pub fn smallest_input(mut input: Vec<u8>, differs: impl Fn(&[u8]) -> bool) -> Vec<u8> {
    let mut run = input.len();
    while run > 0 {
        let mut at = 0;
        while at + run <= input.len() {
            let less = [&input[..at], &input[at + run..]].concat();
            if differs(&less) {
                input = less;
            } else {
                at += run;
            }
        }
        run /= 2;
    }
    input
}

/// The call as a person reads it.
pub fn shown(call: &Call) -> String {
    let ops: Vec<u16> = call
        .list
        .iter()
        .step_by(TOKEN_WORDS)
        .map(|word| number_in(*word))
        .collect();
    format!(
        "operators {ops:?} at version {}, used set {:#x} {:#x}, source length {}, limit {},\n\
         buffers of {}, {} and {} words, list words {:x?}",
        call.version,
        call.used.0,
        call.used.1,
        call.source_len,
        call.limit,
        call.tree_len,
        call.messages_len,
        call.work_len,
        call.list,
    )
}

#[cfg(test)]
mod tests {
    use super::*;
    use oracle::generate::Mixed;

    #[test]
    fn only_the_bytes_that_make_the_difference_are_left() {
        let input: Vec<u8> = (0..=255).cycle().take(10_000).collect();
        let mut least = smallest_input(input, |input| {
            input.contains(&7) && input.iter().filter(|byte| **byte == 200).count() > 1
        });
        least.sort_unstable();
        assert_eq!(least, [7, 200, 200]);
    }

    #[test]
    fn only_what_makes_the_difference_is_left() {
        let minuses = |call: &Call| {
            let first_words = call.list.iter().step_by(TOKEN_WORDS);
            first_words.filter(|word| number_in(**word) == 6).count()
        };
        let calls = Mixed::new(3, 40).map(|case| Call::of(&case));
        for call in calls.filter(|call| minuses(call) >= 2).take(50) {
            let least = smallest(call.at_limit(9), |call| minuses(call) >= 2);
            assert_eq!(least.list.len(), 2 * TOKEN_WORDS);
            assert_eq!((least.tree_len, least.work_len), (42, 192));
            assert_eq!(
                (least.used, least.source_len, least.version, least.limit),
                ((64, 0), 2, 6, MOST_NESTING)
            );
        }
    }
}
