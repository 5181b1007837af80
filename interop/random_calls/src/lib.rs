//! Compares two stores call by call, on random memory: sound cache states,
//! nearly sound ones and random bytes; buffers of right and wrong lengths; all
//! calls of `boxstore.h` on a store, with numbers at and beyond every limit.

mod call;
mod compare;
mod guarded;
mod memory;
mod pair;
mod random_memory;
mod reference_store;
mod shrink;
mod store;
mod text;

pub use call::{any_number, random_bytes, smaller, with_smaller_numbers, Call, Ran};
pub use compare::{compare, Difference, Tally};
pub use guarded::{guarded, Element, Guarded};
pub use memory::{Memory, MemoryMut, MemoryRef, MemoryVec};
pub use pair::{looked, same_answer, zeros_follow, Answered, Pair, BESIDE};
pub use random_memory::{fill, other_length, size, GuardedMemory};
pub use reference_store::{beside_state, decode, encode, look_word, with_state, word, Reference};
pub use store::Store;
pub use text::Bytes;

/// Whether `compare` finds each of these faults of a `Faulty` in so many tries:
/// beside a right implementation, or beside the faulty one `itself`.
#[macro_export]
macro_rules! faults_found {
    (itself, $tries:literal: $($fault:literal)*) => {
        [$(compare::<Faulty<$fault>, Faulty<$fault>>(1, $tries).is_err()),*]
    };
    ($right:ident, $tries:literal: $($fault:literal)*) => {
        [$(compare::<$right, Faulty<$fault>>(1, $tries).is_err()),*]
    };
}
