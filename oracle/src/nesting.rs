//! How deep the brackets of a list nest: the open count of card 8, written from its sentence. The
//! Rust has no part of it. The count goes by the list alone, whatever the used set.

use crate::words::Token;

/// The greatest nesting limit.
pub const MOST_NESTING: u32 = 4096;

/// How many brackets are open after an operator: an opener adds one, any closer takes one unless
/// none is open.
fn open_after(open: u32, op: u16) -> u32 {
    match op {
        0 | 2 | 4 => open + 1,
        1 | 3 | 5 => open.saturating_sub(1),
        _ => open,
    }
}

/// The first of these operators with which more brackets are open than the limit.
pub fn too_deep(ops: impl IntoIterator<Item = u16>, limit: u32) -> Option<usize> {
    let mut open = 0;
    ops.into_iter().position(|op| {
        open = open_after(open, op);
        open > limit
    })
}

/// The least limit that a list is within.
pub fn least_limit(tokens: &[Token]) -> u32 {
    let mut open = 0;
    let after = tokens.iter().map(|token| {
        open = open_after(open, token.op);
        open
    });
    after.fold(1, u32::max)
}

#[cfg(test)]
mod tests {
    use super::*;
    use crate::generate::alphabets::ALPHABETS;
    use crate::generate::dress;

    /// The open count after the last operator without going along the list: openers less closers,
    /// and what the closers took with nothing open put back.
    fn open(ops: &[u16]) -> i32 {
        let one = |op: &u16| match op {
            0 | 2 | 4 => 1,
            1 | 3 | 5 => -1,
            _ => 0,
        };
        let mut sums = (0..=ops.len()).map(|len| ops[..len].iter().map(one).sum::<i32>());
        let least: i32 = sums.clone().min().expect("the empty list's is 0");
        sums.next_back().expect("the list's own") - least
    }

    #[test]
    fn the_count_is_the_one_that_no_walk_finds() {
        let brackets = &ALPHABETS[0];
        assert_eq!(brackets.name, "brackets");
        for ops in brackets.every_list(6) {
            let counts: Vec<i32> = (1..=ops.len()).map(|len| open(&ops[..len])).collect();
            for limit in 1..=4 {
                let first = counts.iter().position(|&open| open > limit as i32);
                assert_eq!(too_deep(ops.clone(), limit), first, "{ops:?} at {limit}");
                // Only an opener goes above.
                assert!(first.is_none_or(|place| matches!(ops[place], 0 | 2 | 4)));
            }
            let least = counts.iter().copied().fold(1, i32::max);
            assert_eq!(least_limit(&dress::plain(&ops)), least as u32, "{ops:?}");
        }
    }

    #[test]
    fn a_closer_takes_one_whatever_it_matches_and_none_where_none_is_open() {
        assert_eq!(too_deep([4, 1, 4, 3, 4], 1), None);
        assert_eq!(too_deep([5, 5, 5, 4, 2], 1), Some(4));
        assert_eq!(too_deep([4, 0, 2], 2), Some(2));
        assert_eq!(too_deep([4; 4096], 4095), Some(4095));
        assert_eq!(too_deep([4; 4096], 4096), None);
    }
}
