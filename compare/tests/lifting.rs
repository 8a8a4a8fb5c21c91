//! The lift entry through the C convention, beside the model; where the Rust is not at hand, the model reads by the library. Without the
//! static library nothing of this is built.
#![cfg(library)]

use compare::calls;
use compare::lifting::{Lifts, Tally};
use oracle::generate::Rng;
use oracle::refusal::Call;

/// Lifts all lists between every two versions.
fn compared(calls: impl Iterator<Item = Call>) -> Tally {
    let (mut lifts, mut rng) = (Lifts::default(), Rng::new(41));
    for call in calls {
        if let Err(difference) = lifts.list(&call, &mut rng) {
            panic!("{difference}");
        }
    }
    lifts.tally
}

#[test]
fn generated_lists() {
    let tally = compared(calls::generated(31, 24).take(6_000));
    assert!(tally.iter().all(|&calls| calls > 300), "{tally:?}");
    compared(calls::generated(32, 300).take(200));
    compared(calls::generated(33, 4_096).take(10));
}

#[test]
fn lists_with_hosts_and_brackets() {
    compared(calls::hosted(34, 24).take(2_000));
    let tally = compared(calls::bracketed(35, 16).take(2_000));
    assert!(tally[4] > 300, "{tally:?}");
}

#[test]
fn every_refusal_at_its_limits() {
    let tally = compared(calls::limits());
    assert!(tally[3] > 1_000, "{tally:?}");
}
