//! What is compared: the calls of a store on an append-only part.

use random_calls::{MemoryMut, MemoryRef};

/// A store on a part, whose image, frames and state are the memory beside it. It
/// says what each call may write. An answer is 65,536 * number + count.
pub trait PartStore {
    /// Empties all files.
    fn format(part: &mut [u8], memory: MemoryMut<'_>, budget: usize) -> u32;
    /// Replays the part into the image, and brings the device up.
    fn mount(part: &mut [u8], memory: MemoryMut<'_>, budget: usize) -> u32;
    /// Copies bytes of a file into the buffer.
    fn read(
        part: &[u8],
        memory: MemoryRef<'_>,
        file: usize,
        position: usize,
        buffer: &mut [u8],
    ) -> u32;
    /// Counts the bytes up to the end of a page or of the file.
    fn look_count(part: &[u8], memory: MemoryRef<'_>, file: usize, position: usize) -> u32;
    /// Tells where the bytes up to the end of a page lie: 2^32 * offset +
    /// 65,536 * source + count.
    fn look(part: &[u8], memory: MemoryRef<'_>, file: usize, position: usize) -> u64;
    /// Puts bytes into cached pages.
    fn write(part: &[u8], memory: MemoryMut<'_>, file: usize, position: usize, bytes: &[u8])
        -> u32;
    /// Gives a file `n` bytes.
    fn truncate(part: &[u8], memory: MemoryMut<'_>, file: usize, n: usize) -> u32;
    /// Appends the changes of a file to the part.
    fn sync(part: &mut [u8], memory: MemoryMut<'_>, file: usize, budget: usize) -> u32;
}

/// Makes a type a [`PartStore`] whose calls are those of a module, over the slices
/// that are lent to them: `part_store_of!(Name, path::of::module)`.
#[macro_export]
macro_rules! part_store_of {
    ($name:ident, $($module:ident)::+) => {
        impl $crate::PartStore for $name {
            fn format(part: &mut [u8], m: $crate::MemoryMut<'_>, budget: usize) -> u32 {
                $($module)::+::format(part, m.media, m.sizes, m.state, budget)
            }
            fn mount(part: &mut [u8], m: $crate::MemoryMut<'_>, budget: usize) -> u32 {
                $($module)::+::mount(part, m.media, m.sizes, m.state, budget)
            }
            fn read(
                part: &[u8],
                m: $crate::MemoryRef<'_>,
                file: usize,
                position: usize,
                buffer: &mut [u8],
            ) -> u32 {
                $($module)::+::read(
                    part, m.media, m.sizes, m.frames, m.state, file, position, buffer,
                )
            }
            fn look_count(
                part: &[u8],
                m: $crate::MemoryRef<'_>,
                file: usize,
                position: usize,
            ) -> u32 {
                $($module)::+::look_count(
                    part, m.media, m.sizes, m.frames, m.state, file, position,
                )
            }
            fn look(part: &[u8], m: $crate::MemoryRef<'_>, file: usize, position: usize) -> u64 {
                $($module)::+::look(
                    part, m.media, m.sizes, m.frames, m.state, file, position,
                )
            }
            fn write(
                part: &[u8],
                m: $crate::MemoryMut<'_>,
                file: usize,
                position: usize,
                bytes: &[u8],
            ) -> u32 {
                $($module)::+::write(
                    part, m.media, m.sizes, m.frames, m.state, file, position, bytes,
                )
            }
            fn truncate(part: &[u8], m: $crate::MemoryMut<'_>, file: usize, n: usize) -> u32 {
                $($module)::+::truncate(
                    part, m.media, m.sizes, m.frames, m.state, file, n,
                )
            }
            fn sync(part: &mut [u8], m: $crate::MemoryMut<'_>, file: usize, budget: usize) -> u32 {
                $($module)::+::sync(
                    part, m.media, m.sizes, m.frames, m.state, file, budget,
                )
            }
        }
    };
}
