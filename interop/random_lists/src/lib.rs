//! Compares two implementations of trip lists on random lists: ones that keep
//! all rules, of all lengths, ones with a fault or two, and random bytes; with
//! places, indexes and numbers at and beyond every limit, and buffers of right
//! and wrong lengths. Joins are compared on pairs of such lists, with and without
//! common trips and conflicts. One implementation is held against laws of its own
//! as well.

mod call;
mod compare;
mod laws;
mod random_list;
mod random_pair;
mod reference_lists;
mod shrink;
mod trip_lists;

pub use call::Call;
pub use compare::{compare, Check, Difference, Tally};
pub use trip_lists::TripLists;
