//! Compares two stores on append-only parts: call by call, on random parts and
//! memory, and through histories with cuts after each step.

mod check;
mod compare;
mod history;
mod memory;
mod pair;
mod part_store;
pub mod program;
mod random_part;
mod reference_store;
pub mod stepwise;

pub use check::{check, Failure, HistoryTally};
pub use compare::{compare, Difference, Tally};
pub use history::{Event, History};
pub use memory::{Condition, PartMemory};
pub use pair::Pair;
pub use part_store::PartStore;
pub use random_calls::{MemoryMut, MemoryRef};
pub use stepwise::Stepwise;
