//! Four slips that a quick trial does not show, planted in copies of the pass files (`build.rs`
//! makes them). The generator has to expose each within a few thousand lists.

use crate::generate::alphabets::ONE_OF_EACH;
use crate::generate::{Mixed, dress};
use crate::hosts::answered;
use crate::lines::{case_of, notation};
use crate::vectors::{Stored, stored};
use crate::words::{Answer, Case};

macro_rules! slip {
    ($name:ident, $file:literal) => {
        mod $name {
            pub(crate) mod compile {
                include!(concat!(env!("OUT_DIR"), "/slips/", $file, "/compile.rs"));
                pub(crate) use cx::{Cx, Failed, Pass, answer};
            }
        }
    };
}

slip!(equal_rank, "equal_rank");
slip!(pointer_stops, "pointer_stops");
slip!(no_second_walk, "no_second_walk");
slip!(semicolons_everywhere, "semicolons_everywhere");

type Reader = fn(&Case) -> Answer;

/// How many lists of a seed are read before the slip shows; the bound is what the tests ask for.
const WITHIN: usize = 3_000;

fn lists_before_the_slip_shows(slipped: Reader, seed: u64) -> Option<usize> {
    Mixed::new(seed, 12)
        .take(WITHIN)
        .position(|case| slipped(&case) != crate::answer_case(&case))
}

/// Prints how soon it shows, from twenty seeds and in the kept answers (`--nocapture`).
fn exposed(slipped: Reader) {
    let seeds: Vec<usize> = (1..=20)
        .map(|seed| {
            lists_before_the_slip_shows(slipped, seed)
                .unwrap_or_else(|| panic!("{WITHIN} lists of seed {seed} show nothing"))
        })
        .collect();
    let kept = stored()
        .iter()
        .filter(
            |stored| matches!(stored, Stored::Answered { case, answer, .. } if answered(slipped, case) != *answer),
        )
        .count();
    assert!(kept > 0, "the kept answers show nothing");
    println!("shown after {seeds:?} lists, and by {kept} kept answers");
}

/// What a list is read as with the slip, and without it.
fn readings(slipped: Reader, list: &str) -> (Answer, Answer) {
    let case = case_of(list);
    (slipped(&case), crate::answer_case(&case))
}

fn trees(slipped: Reader, list: &str) -> (String, String) {
    let (with, without) = readings(slipped, list);
    (notation(with.nodes()), notation(without.nodes()))
}

#[test]
fn equal_rank_of_times_and_divide_is_exposed() {
    let (with, without) = trees(equal_rank::compile::answer, "a * b / c");
    assert_eq!(with, "20(31(a,b),c)");
    assert_eq!(without, "31(a,20(b,c))");
    exposed(equal_rank::compile::answer);
}

#[test]
fn stopping_after_a_failed_pointer_pass_is_exposed() {
    let (with, without) = readings(pointer_stops::compile::answer, "a ->");
    assert_eq!(with.records().len(), 1);
    assert_eq!(without.records().len(), 2);
    exposed(pointer_stops::compile::answer);
}

#[test]
fn leaving_out_the_second_walk_of_an_unfolded_left_side_is_exposed() {
    let (with, without) = readings(no_second_walk::compile::answer, "a + + + b");
    assert_eq!(notation(with.nodes()), "9(9(a,9),b)");
    assert_eq!(without.records().len(), 1);
    exposed(no_second_walk::compile::answer);
}

#[test]
fn a_semicolon_pass_that_enters_every_node_is_exposed() {
    let (with, without) = trees(semicolons_everywhere::compile::answer, "40 ( a ; ) ;");
    assert_eq!(with, "73(73(40(4(73(73(a))))))");
    assert_eq!(without, "73(73(40(4(a,73))))");
    exposed(semicolons_everywhere::compile::answer);
}

/// No list of fewer than `len` tokens shows the slip, whatever its operators.
fn hidden_below(len: usize, slipped: Reader) {
    for ops in ONE_OF_EACH.every_list(len - 1) {
        let case = Case::exact(dress::plain(&ops), 6);
        assert_eq!(slipped(&case), crate::answer_case(&case), "{ops:?}");
    }
}

#[test]
fn no_shorter_list_has_a_left_side_that_is_walked_again() {
    let (with, without) = readings(no_second_walk::compile::answer, "a + + + b");
    assert_ne!(with, without);
    hidden_below(5, no_second_walk::compile::answer);
}

#[test]
fn no_shorter_list_keeps_a_semicolon_as_a_leaf() {
    let (with, without) = readings(semicolons_everywhere::compile::answer, "[ ; ] ;");
    assert_ne!(with, without);
    hidden_below(4, semicolons_everywhere::compile::answer);
}

/// Where the second walk makes a difference it is this one: it ends in message 12.
#[test]
fn the_second_walk_of_an_unfolded_left_side_never_succeeds() {
    let mut different = 0;
    for case in Mixed::new(3, 12).take(100_000) {
        let answer = crate::answer_case(&case);
        if no_second_walk::compile::answer(&case) != answer {
            different += 1;
            assert_eq!(answer.records()[0][0], 12, "{case:?}");
        }
    }
    assert!(different > 50);
    println!("{different} of 100000 lists have such a left side");
}
