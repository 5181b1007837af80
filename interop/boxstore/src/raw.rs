//! The calls of `boxstore.h`, each as one safe function over slices.
//!
//! A call borrows all memory that it works on, and keeps nothing. Numbers,
//! lengths and contents are free: a slice of another length than the call
//! needs is refused as SHAPE. `boxstore.h` says what each call does and how
//! the bytes of the cache state are laid out; [`Error::decode`] takes an
//! answer apart.
//!
//! [`Error::decode`]: crate::Error::decode

#![allow(unsafe_code)]

/// Makes a safe function of each call of the archive.
macro_rules! calls {
    ($($(#[$doc:meta])* fn $name:ident($($arguments:tt)*) -> $answer:ty = $symbol:ident;)*) => {
        $(call! { [$(#[$doc])* $name $answer = $symbol] [] [] $($arguments)*, })*
    };
}

/// Makes one of them, argument by argument: in the first list what the function
/// takes, in the second what it gives the archive, a slice as pointer and length.
macro_rules! call {
    ($call:tt [$($taken:tt)*] [$($given:tt)*] $slice:ident: &mut [$element:ty], $($rest:tt)*) => {
        call! {
            $call [$($taken)* $slice: &mut [$element],]
            [$($given)* $slice.as_mut_ptr() => *mut $element, $slice.len() => usize,] $($rest)*
        }
    };
    ($call:tt [$($taken:tt)*] [$($given:tt)*] $slice:ident: &[$element:ty], $($rest:tt)*) => {
        call! {
            $call [$($taken)* $slice: &[$element],]
            [$($given)* $slice.as_ptr() => *const $element, $slice.len() => usize,] $($rest)*
        }
    };
    ($call:tt [$($taken:tt)*] [$($given:tt)*] $number:ident: $type:ty, $($rest:tt)*) => {
        call! { $call [$($taken)* $number: $type,] [$($given)* $number => $type,] $($rest)* }
    };
    (
        [$(#[$doc:meta])* $name:ident $answer:ty = $symbol:ident]
        [$($argument:ident: $type:ty,)*] [$($value:expr => $c_type:ty,)*]
    ) => {
        $(#[$doc])*
        pub fn $name($($argument: $type),*) -> $answer {
            // SAFETY: as in boxstore.h, with size_t as usize.
            unsafe extern "C" {
                fn $symbol($(_: $c_type),*) -> $answer;
            }
            // SAFETY: a slice's pointer is not null, is aligned, and has as many
            // elements behind it as its length says, 0 included; a slice borrowed
            // mutably overlaps no other, and a shared one is only read.
            unsafe { $symbol($($value),*) }
        }
    };
}

calls! {
    /// `boxstore_down`: the state becomes the down state.
    fn down(state: &mut [u8]) -> u32 = boxstore_down;

    /// `boxstore_format`: empties all files. The count is the media writes.
    fn format(
        media: &mut [u8], sizes: &mut [u32], state: &mut [u8], budget: usize
    ) -> u32 = boxstore_format;

    /// `boxstore_mount`: brings the device up. The count is the media writes.
    fn mount(
        media: &mut [u8], sizes: &mut [u32], state: &mut [u8], budget: usize
    ) -> u32 = boxstore_mount;

    /// `boxstore_read`: copies bytes of a file into the front of the buffer, and
    /// counts them.
    fn read(
        media: &[u8], sizes: &[u32], frames: &[u8], state: &[u8],
        file: usize, position: usize, buffer: &mut [u8]
    ) -> u32 = boxstore_read;

    /// `boxstore_write`: puts bytes into cached pages, and counts them.
    fn write(
        media: &[u8], sizes: &[u32], frames: &mut [u8], state: &mut [u8],
        file: usize, position: usize, bytes: &[u8]
    ) -> u32 = boxstore_write;

    /// `boxstore_truncate`: the file has `n` bytes after it. The count is 0.
    fn truncate(
        media: &[u8], sizes: &[u32], frames: &mut [u8], state: &mut [u8],
        file: usize, n: usize
    ) -> u32 = boxstore_truncate;

    /// `boxstore_sync`: stores a file. The count is the media writes.
    fn sync(
        media: &mut [u8], sizes: &mut [u32], frames: &[u8], state: &mut [u8],
        file: usize, budget: usize
    ) -> u32 = boxstore_sync;

    /// `boxstore_look_count`: counts the bytes from the position to the end of
    /// its page or to the logical size, the nearer.
    fn look_count(
        media: &[u8], sizes: &[u32], frames: &[u8], state: &[u8],
        file: usize, position: usize
    ) -> u32 = boxstore_look_count;

    /// `boxstore_look`: where the bytes from the position on lie, as one word
    /// that [`looked`] resolves. Its count is 0 on a refusal, which
    /// [`look_count`] tells.
    fn look(
        media: &[u8], sizes: &[u32], frames: &[u8], state: &[u8],
        file: usize, position: usize
    ) -> u64 = boxstore_look;

    /// `boxstore_truncate_sizes`: the truncate rule on three numbers, the logical
    /// size, floor and stored size of a file.
    fn truncate_sizes(sizes: &mut [u32], n: usize, greatest: u32) -> u32
        = boxstore_truncate_sizes;

    /// `boxstore_write_page`: the media write of a page by itself.
    fn write_page(page: &mut [u8], bytes: &[u8]) -> u32 = boxstore_write_page;

    /// `boxstore_write_size`: the media write of a stored size by itself.
    fn write_size(media: &[u8], sizes: &mut [u32], file: usize, n: usize) -> u32
        = boxstore_write_size;

    /// `boxstore_trim`: the media write that clears a file from `n` on and stores
    /// `n` as its size, by itself.
    fn trim(media: &mut [u8], sizes: &mut [u32], file: usize, n: usize) -> u32 = boxstore_trim;

    /// `boxstore_read_trip`: puts down the trip at a place of a trip list as four
    /// numbers, and counts the trips of the list.
    fn read_trip(list: &[u8], place: usize, trip: &mut [u32]) -> u32 = boxstore_read_trip;

    /// `boxstore_next_trip`: puts down the trip of the line at an index of a trip
    /// list, whose minute is to be at least `least`. The count is the index after
    /// the line, or 0 at the end of the list.
    fn next_trip(list: &[u8], at: usize, least: usize, trip: &mut [u32]) -> u32
        = boxstore_next_trip;

    /// `boxstore_write_trips`: writes a trip list in its one spelling into the
    /// front of the buffer, and counts the bytes.
    fn write_trips(list: &[u8], buffer: &mut [u8]) -> u32 = boxstore_write_trips;

    /// `boxstore_join_trips`: joins two trip lists into one, in its one spelling, in
    /// the front of the buffer, and counts the bytes.
    fn join_trips(first: &[u8], second: &[u8], buffer: &mut [u8]) -> u32 = boxstore_join_trips;
}

/// The part that a look names, of the media and the frames that it was given.
///
/// # Panics
///
/// Where the word names bytes that the slice has not, which no look on the
/// same slices does.
pub fn looked<'a>(look: u64, media: &'a [u8], frames: &'a [u8]) -> &'a [u8] {
    let offset = (look >> 32) as usize;
    let count = (look & 65_535) as usize;
    let source = if look >> 16 & 1 == 1 { frames } else { media };
    &source[offset..offset + count]
}
