//! Lists on both sides of the grammar's border, beside the Rust.
#![cfg(library)]

use compare::border::{self, PLACES, VERSIONS};
use compare::comparison::Comparison;
use compare::library::Read;
use compare::reading::{Buffers, Expected};
use oracle::lines::tokens_of;
use oracle::refusal::Call;
use oracle::words::Case;
use std::collections::BTreeSet;

/// Compares all calls; the counts of trees and messages.
fn compared(calls: impl Iterator<Item = Call>) -> (u64, u64) {
    let mut comparison = Comparison::default();
    if let Err(difference) = comparison.all(calls, || {}) {
        panic!("{difference}");
    }
    (comparison.tally.trees, comparison.tally.messages)
}

#[test]
fn both_sides_of_each_place_are_read_as_the_rust_reads_them() {
    let (trees, messages) = compared(border::some());
    if oracle::COMPARED {
        assert!(trees > 10_000 && messages > 10_000, "{trees} {messages}");
    }
}

#[test]
fn lists_beside_texts_are_read_as_the_rust_reads_them() {
    let (trees, messages) = compared(border::beside_texts(1).take(30_000));
    if oracle::COMPARED {
        assert!(trees > 3_000 && messages > 10_000, "{trees} {messages}");
    }
}

#[test]
fn the_inside_of_each_place_is_a_tree_at_every_version() {
    let (mut buffers, mut names) = (Buffers::default(), BTreeSet::new());
    for place in &PLACES {
        assert!(names.insert(place.name), "{}", place.name);
        assert_ne!(place.inside, place.outside, "{}", place.name);
        for version in VERSIONS {
            let call = Call::of(&Case::exact(tokens_of(place.inside), version));
            let read = buffers.call(&call, &Expected::Something);
            assert!(
                matches!(read, Ok(Read::Tree(_))),
                "{}: {read:?}",
                place.name
            );
        }
    }
}
