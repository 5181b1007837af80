//! The tuned store beside the reference, on random memory, random parts and random
//! trip lists.

use random_calls::{compare, store_of, Reference};
use random_lists::{trip_lists_by, TripLists};
use random_parts::part_store_of;

store_of!(
    /// The tuned store.
    Tuned,
    tuned
);
part_store_of!(Tuned, tuned::part);
trip_lists_by!(Tuned, tuned::trips);

/// Trip lists by words.
struct ByWords;

trip_lists_by!(ByWords, tuned::trip_words);

#[test]
fn the_tuned_store_is_the_reference() {
    let mut calls = 0;
    for seed in 1..=6 {
        let tally = compare::<Reference, Tuned>(seed, 60_000).unwrap();
        assert_eq!(tally.missing(), [], "seed {seed}");
        calls += tally.calls();
    }
    assert!(calls >= 360_000);
}

#[test]
fn the_tuned_store_on_a_part_is_the_reference() {
    for seed in 1..=3 {
        let tally = random_parts::compare::<Reference, Tuned>(seed, 12_000).unwrap();
        assert_eq!(tally.missing(), [""; 0], "seed {seed}");
    }
}

#[test]
fn histories_of_the_tuned_store_on_a_part_are_those_of_the_reference() {
    let tally = random_parts::check::<Reference, Tuned>(1, 120).unwrap();
    assert_eq!(tally.missing(), [""; 0]);
}

fn trip_lists_are_those_of_the_reference<L: TripLists>() {
    for seed in 1..=3 {
        let tally = random_lists::compare::<Reference, L>(seed, 20_000).unwrap();
        assert_eq!(tally.missing(), [""; 0], "seed {seed}");
    }
}

#[test]
fn tuned_trip_lists_are_those_of_the_reference() {
    trip_lists_are_those_of_the_reference::<Tuned>();
}

#[test]
fn trip_lists_by_words_are_those_of_the_reference() {
    trip_lists_are_those_of_the_reference::<ByWords>();
}
