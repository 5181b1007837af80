//! The archive beside the reference: single calls on arbitrary memory, which
//! `random_calls` makes, calls on trip lists, which `random_lists` makes, and
//! whole histories with lost power, which this crate makes and judges by model
//! files as well.

mod check;
mod history;
mod run;
mod shrink;
mod tally;

pub use check::{check, Failure};
pub use history::{History, Step};
pub use tally::Tally;

random_calls::store_of!(
    /// The proved code, over its archive.
    Archive,
    boxstore::raw
);

random_lists::trip_lists_by!(Archive, boxstore::raw);
