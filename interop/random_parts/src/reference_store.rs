//! The reference, with the cache state as bytes.

use random_calls::{beside_state, look_word, with_state, MemoryMut, MemoryRef, Reference};
use reference::part;
use reference::part_store;

use crate::part_store::PartStore;

// The numbers that the reference has of its own are these.
const _: () = assert!(
    part_store::PART_LEN == layout::PART_BYTES
        && part::BLOCK == layout::BLOCK_BYTES
        && part::RECORD == layout::RECORD_BYTES
);

impl PartStore for Reference {
    fn format(part: &mut [u8], m: MemoryMut<'_>, budget: usize) -> u32 {
        with_state(m.state, |state| {
            part_store::format(part, m.media, m.sizes, state, budget)
        })
    }

    fn mount(part: &mut [u8], m: MemoryMut<'_>, budget: usize) -> u32 {
        with_state(m.state, |state| {
            part_store::mount(part, m.media, m.sizes, state, budget)
        })
    }

    fn read(part: &[u8], m: MemoryRef<'_>, file: usize, position: usize, buffer: &mut [u8]) -> u32 {
        beside_state(m.state, |state| {
            part_store::read(
                part, m.media, m.sizes, m.frames, state, file, position, buffer,
            )
        })
    }

    fn look_count(part: &[u8], m: MemoryRef<'_>, file: usize, position: usize) -> u32 {
        beside_state(m.state, |state| {
            part_store::look_count(part, m.media, m.sizes, m.frames, state, file, position)
        })
    }

    fn look(part: &[u8], m: MemoryRef<'_>, file: usize, position: usize) -> u64 {
        look_word(m, |state| {
            part_store::look(part, m.media, m.sizes, m.frames, state, file, position)
        })
    }

    fn write(part: &[u8], m: MemoryMut<'_>, file: usize, position: usize, bytes: &[u8]) -> u32 {
        with_state(m.state, |state| {
            part_store::write(
                part, m.media, m.sizes, m.frames, state, file, position, bytes,
            )
        })
    }

    fn truncate(part: &[u8], m: MemoryMut<'_>, file: usize, n: usize) -> u32 {
        with_state(m.state, |state| {
            part_store::truncate(part, m.media, m.sizes, m.frames, state, file, n)
        })
    }

    fn sync(part: &mut [u8], m: MemoryMut<'_>, file: usize, budget: usize) -> u32 {
        with_state(m.state, |state| {
            part_store::sync(part, m.media, m.sizes, m.frames, state, file, budget)
        })
    }
}
