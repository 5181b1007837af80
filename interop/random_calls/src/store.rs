//! What is compared: the calls of `boxstore.h` on a store.

use crate::memory::{MemoryMut, MemoryRef};

/// A store, as `boxstore.h` describes it, which says what each call may write.
/// An answer is 65,536 * number + count.
pub trait Store {
    /// Makes the state the down state.
    fn down(state: &mut [u8]) -> u32;
    /// Empties all files.
    fn format(memory: MemoryMut<'_>, budget: usize) -> u32;
    /// Brings the device up.
    fn mount(memory: MemoryMut<'_>, budget: usize) -> u32;
    /// Copies bytes of a file into the buffer.
    fn read(memory: MemoryRef<'_>, file: usize, position: usize, buffer: &mut [u8]) -> u32;
    /// Puts bytes into cached pages.
    fn write(memory: MemoryMut<'_>, file: usize, position: usize, bytes: &[u8]) -> u32;
    /// Gives a file `n` bytes.
    fn truncate(memory: MemoryMut<'_>, file: usize, n: usize) -> u32;
    /// Stores a file.
    fn sync(memory: MemoryMut<'_>, file: usize, budget: usize) -> u32;
    /// Counts the bytes up to the end of a page or of the file.
    fn look_count(memory: MemoryRef<'_>, file: usize, position: usize) -> u32;
    /// Tells where the bytes up to the end of a page lie: 2^32 * offset +
    /// 65,536 * source + count.
    fn look(memory: MemoryRef<'_>, file: usize, position: usize) -> u64;
    /// The truncate rule on a logical size, a floor and a stored size.
    fn truncate_sizes(sizes: &mut [u32], n: usize, greatest: u32) -> u32;
    /// The media write of a page.
    fn write_page(page: &mut [u8], bytes: &[u8]) -> u32;
    /// The media write of a stored size.
    fn write_size(memory: MemoryMut<'_>, file: usize, n: usize) -> u32;
    /// The media write that clears a file from `n` on.
    fn trim(memory: MemoryMut<'_>, file: usize, n: usize) -> u32;
}

/// A type whose [`Store`] is a module with a function for each call, over the
/// slices that `boxstore.h` lends to it: `store_of!(Name, path::of::module)`.
#[macro_export]
macro_rules! store_of {
    ($(#[$attribute:meta])* $name:ident, $($module:ident)::+) => {
        $(#[$attribute])*
        pub struct $name;

        impl $crate::Store for $name {
            #[inline(always)]
            fn down(state: &mut [u8]) -> u32 {
                $($module)::+::down(state)
            }
            #[inline(always)]
            fn format(m: $crate::MemoryMut<'_>, budget: usize) -> u32 {
                $($module)::+::format(m.media, m.sizes, m.state, budget)
            }
            #[inline(always)]
            fn mount(m: $crate::MemoryMut<'_>, budget: usize) -> u32 {
                $($module)::+::mount(m.media, m.sizes, m.state, budget)
            }
            #[inline(always)]
            fn read(
                m: $crate::MemoryRef<'_>,
                file: usize,
                position: usize,
                buffer: &mut [u8],
            ) -> u32 {
                $($module)::+::read(m.media, m.sizes, m.frames, m.state, file, position, buffer)
            }
            #[inline(always)]
            fn write(m: $crate::MemoryMut<'_>, file: usize, position: usize, bytes: &[u8]) -> u32 {
                $($module)::+::write(m.media, m.sizes, m.frames, m.state, file, position, bytes)
            }
            #[inline(always)]
            fn truncate(m: $crate::MemoryMut<'_>, file: usize, n: usize) -> u32 {
                $($module)::+::truncate(m.media, m.sizes, m.frames, m.state, file, n)
            }
            #[inline(always)]
            fn sync(m: $crate::MemoryMut<'_>, file: usize, budget: usize) -> u32 {
                $($module)::+::sync(m.media, m.sizes, m.frames, m.state, file, budget)
            }
            #[inline(always)]
            fn look_count(m: $crate::MemoryRef<'_>, file: usize, position: usize) -> u32 {
                $($module)::+::look_count(m.media, m.sizes, m.frames, m.state, file, position)
            }
            #[inline(always)]
            fn look(m: $crate::MemoryRef<'_>, file: usize, position: usize) -> u64 {
                $($module)::+::look(m.media, m.sizes, m.frames, m.state, file, position)
            }
            #[inline(always)]
            fn truncate_sizes(sizes: &mut [u32], n: usize, greatest: u32) -> u32 {
                $($module)::+::truncate_sizes(sizes, n, greatest)
            }
            #[inline(always)]
            fn write_page(page: &mut [u8], bytes: &[u8]) -> u32 {
                $($module)::+::write_page(page, bytes)
            }
            #[inline(always)]
            fn write_size(m: $crate::MemoryMut<'_>, file: usize, n: usize) -> u32 {
                $($module)::+::write_size(m.media, m.sizes, file, n)
            }
            #[inline(always)]
            fn trim(m: $crate::MemoryMut<'_>, file: usize, n: usize) -> u32 {
                $($module)::+::trim(m.media, m.sizes, file, n)
            }
        }
    };
}
