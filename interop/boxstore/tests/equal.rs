//! The archive beside the reference, on random memory and random trip lists.

use random_calls::{compare, store_of, Reference};
use random_lists::trip_lists_by;

store_of!(
    /// The proved code.
    Archive,
    boxstore::raw
);
trip_lists_by!(Archive, boxstore::raw);

#[test]
fn the_archive_is_the_reference() {
    for seed in 1..=3 {
        let tally = compare::<Reference, Archive>(seed, 60_000).unwrap();
        assert_eq!(tally.missing(), [], "seed {seed}");
    }
}

#[test]
fn trip_lists_of_the_archive_are_those_of_the_reference() {
    for seed in 1..=3 {
        let tally = random_lists::compare::<Reference, Archive>(seed, 20_000).unwrap();
        assert_eq!(tally.missing(), [""; 0], "seed {seed}");
    }
}
