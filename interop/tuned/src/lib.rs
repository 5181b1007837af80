//! The store of document 01 and the trip lists of document 02 once more, written
//! for speed: the yardstick of the benchmark. The calls have the signatures of
//! `boxstore::raw`, and the same result on every input, but for where an empty
//! look lies. Those on trip lists are there twice, in [`trips`] and [`trip_words`].
//!
//! The cache state is worked on in place, in its bytes. Nothing is allocated, and
//! a byte is moved only where the call's result needs it moved. No call is
//! inlined into its caller, as those of a linked archive are not.

pub mod part;
mod part_log;
mod part_steps;
mod state;
mod trip_lines;
pub mod trip_words;
pub mod trips;

use layout::{
    floor_at, logical_at, put_size, size, slot_at, FILES, FILE_BYTES, FRAMES_BYTES, MEDIA_BYTES,
    PAGES, PAGE_BYTES, SLOTS, SLOT_BYTES, STATE_BYTES, STATE_LOGICAL, STATE_MOUNTED, STATE_SLOTS,
};
use state::Slots;

const SHAPE: u32 = 2 << 16;
const MEDIA: u32 = 3 << 16;
const BOOKS: u32 = 4 << 16;
const DOWN: u32 = 5 << 16;
const NO_FILE: u32 = 6 << 16;
const RANGE: u32 = 7 << 16;
const NO_ROOM: u32 = 8 << 16;
const CUT: u32 = 9 << 16;

/// The tests of a call on a mounted device, SHAPE to NO FILE. Finds the slots of
/// the pages in passing.
#[inline(always)]
fn admit(
    media: &[u8],
    sizes: &[u32],
    frames: &[u8],
    state: &[u8],
    file: usize,
    slots: &mut Slots,
) -> Result<(), u32> {
    let (Ok(sizes), Ok(state)) = (
        <&[u32; FILES]>::try_from(sizes),
        <&[u8; STATE_BYTES]>::try_from(state),
    ) else {
        return Err(SHAPE);
    };
    if media.len() != MEDIA_BYTES || frames.len() != FRAMES_BYTES {
        return Err(SHAPE);
    }
    // One pass over the sizes for MEDIA and for BOOKS.
    let order = state::sizes_in_order(sizes, state);
    if !order.stored {
        return Err(MEDIA);
    }
    if !order.cached || !slots.find(state) {
        return Err(BOOKS);
    }
    match state[STATE_MOUNTED] {
        1 => {}
        0 if state::is_down(state) => return Err(DOWN),
        _ => return Err(BOOKS),
    }
    if file >= FILES {
        return Err(NO_FILE);
    }
    Ok(())
}

/// Makes the state the down state.
#[inline(never)]
pub fn down(state: &mut [u8]) -> u32 {
    if state.len() != STATE_BYTES {
        return SHAPE;
    }
    state.fill(0);
    0
}

/// Copies current bytes into the front of the buffer.
#[inline(never)]
pub fn read(
    media: &[u8],
    sizes: &[u32],
    frames: &[u8],
    state: &[u8],
    file: usize,
    position: usize,
    buffer: &mut [u8],
) -> u32 {
    let mut slots = Slots::none();
    if let Err(refused) = admit(media, sizes, frames, state, file, &mut slots) {
        return refused;
    }
    if position > FILE_BYTES {
        return RANGE;
    }
    let logical = size(state, logical_at(file));
    let end = position + buffer.len().min(logical.saturating_sub(position));
    let count = end - position;
    if count == 0 {
        return 0;
    }
    let floor = size(state, floor_at(file));
    let buffer = &mut buffer[..count];
    let bytes = &media[file * FILE_BYTES..(file + 1) * FILE_BYTES];
    let mut at = position;
    while at < end {
        let mut page = at / PAGE_BYTES;
        let stop;
        if let Some(slot) = slots.get(file, page) {
            stop = (PAGE_BYTES * (page + 1)).min(end);
            let start = PAGE_BYTES * slot + at % PAGE_BYTES;
            buffer[at - position..stop - position]
                .copy_from_slice(&frames[start..start + (stop - at)]);
        } else {
            // pages that are not cached, in one piece
            page += 1;
            while PAGE_BYTES * page < end && slots.get(file, page).is_none() {
                page += 1;
            }
            stop = (PAGE_BYTES * page).min(end);
            copy_stored(
                bytes,
                floor,
                at,
                &mut buffer[at - position..stop - position],
            );
        }
        at = stop;
    }
    count as u32
}

/// Copies bytes of a file that are not cached: the media's below the floor,
/// zeros from there on.
#[inline(always)]
fn copy_stored(file: &[u8], floor: usize, position: usize, buffer: &mut [u8]) {
    let stored = floor.saturating_sub(position).min(buffer.len());
    let (front, rest) = buffer.split_at_mut(stored);
    // A call of the C library for no byte takes its time too.
    if !front.is_empty() {
        front.copy_from_slice(&file[position..position + stored]);
    }
    if !rest.is_empty() {
        rest.fill(0);
    }
}

/// Puts bytes into cached pages.
#[inline(never)]
pub fn write(
    media: &[u8],
    sizes: &[u32],
    frames: &mut [u8],
    state: &mut [u8],
    file: usize,
    position: usize,
    bytes: &[u8],
) -> u32 {
    let mut slots = Slots::none();
    if let Err(refused) = admit(media, sizes, frames, state, file, &mut slots) {
        return refused;
    }
    if bytes.len() > FILE_BYTES || position > FILE_BYTES - bytes.len() {
        return RANGE;
    }
    if bytes.is_empty() {
        return 0;
    }
    let stored = &media[file * FILE_BYTES..(file + 1) * FILE_BYTES];
    let floor = size(state, floor_at(file));
    let end = position + bytes.len();
    let mut free = 0;
    let mut at = position;
    while at < end {
        let page = at / PAGE_BYTES;
        let start = PAGE_BYTES * page;
        let stop = (start + PAGE_BYTES).min(end);
        let slot = if let Some(slot) = slots.get(file, page) {
            slot
        } else {
            while free < SLOTS && state[slot_at(free)] == 1 {
                free += 1;
            }
            if free == SLOTS {
                break;
            }
            // The bytes that this write does not replace.
            let frame = &mut frames[PAGE_BYTES * free..PAGE_BYTES * (free + 1)];
            copy_stored(stored, floor, start, &mut frame[..at - start]);
            copy_stored(stored, floor, stop, &mut frame[stop - start..]);
            state[slot_at(free)..slot_at(free) + SLOT_BYTES]
                .copy_from_slice(&[1, file as u8, page as u8]);
            free
        };
        let from = PAGE_BYTES * slot + (at - start);
        frames[from..from + (stop - at)].copy_from_slice(&bytes[at - position..stop - position]);
        at = stop;
    }
    if at == position {
        return NO_ROOM;
    }
    let logical = size(state, logical_at(file));
    put_size(state, logical_at(file), logical.max(at));
    (at - position) as u32
}

/// Gives a file `n` bytes.
#[inline(never)]
pub fn truncate(
    media: &[u8],
    sizes: &[u32],
    frames: &mut [u8],
    state: &mut [u8],
    file: usize,
    n: usize,
) -> u32 {
    let mut slots = Slots::none();
    if let Err(refused) = admit(media, sizes, frames, state, file, &mut slots) {
        return refused;
    }
    if n > FILE_BYTES {
        return RANGE;
    }
    let floor = size(state, floor_at(file));
    put_size(state, floor_at(file), floor.min(n));
    put_size(state, logical_at(file), n);
    for page in n / PAGE_BYTES..PAGES {
        let Some(slot) = slots.get(file, page) else {
            continue;
        };
        if PAGE_BYTES * page < n {
            frames[PAGE_BYTES * slot + n % PAGE_BYTES..PAGE_BYTES * (slot + 1)].fill(0);
        } else {
            free_slot(state, slot);
        }
    }
    0
}

#[inline(always)]
fn free_slot(state: &mut [u8], slot: usize) {
    state[slot_at(slot)..slot_at(slot) + SLOT_BYTES].fill(0);
}

/// Stores a file. Each media write is carried out whole, in its order.
#[inline(never)]
pub fn sync(
    media: &mut [u8],
    sizes: &mut [u32],
    frames: &[u8],
    state: &mut [u8],
    file: usize,
    budget: usize,
) -> u32 {
    let mut slots = Slots::none();
    if let Err(refused) = admit(media, sizes, frames, state, file, &mut slots) {
        return refused;
    }
    let logical = size(state, logical_at(file));
    let floor = size(state, floor_at(file));
    let mut done = 0;
    let cut = |state: &mut [u8]| {
        state.fill(0);
        CUT + budget as u32
    };

    let bytes = &mut media[file * FILE_BYTES..(file + 1) * FILE_BYTES];
    if floor < sizes[file] as usize {
        if done == budget {
            return cut(state);
        }
        bytes[floor..].fill(0);
        sizes[file] = floor as u32;
        done += 1;
    }
    for (page, bytes) in bytes.chunks_exact_mut(PAGE_BYTES).enumerate() {
        let Some(slot) = slots.get(file, page) else {
            continue;
        };
        if done == budget {
            return cut(state);
        }
        bytes.copy_from_slice(&frames[PAGE_BYTES * slot..PAGE_BYTES * (slot + 1)]);
        free_slot(state, slot);
        done += 1;
    }
    if logical != floor {
        if done == budget {
            return cut(state);
        }
        sizes[file] = logical as u32;
        put_size(state, floor_at(file), logical);
        done += 1;
    }
    done as u32
}

/// The bytes from a position to the end of its page or of the file.
#[inline(always)]
fn count_in_page(state: &[u8], file: usize, position: usize) -> usize {
    let logical = size(state, logical_at(file));
    (PAGE_BYTES * (position / PAGE_BYTES + 1))
        .min(logical)
        .saturating_sub(position)
}

/// Counts the bytes up to the end of a page or of the file.
#[inline(never)]
pub fn look_count(
    media: &[u8],
    sizes: &[u32],
    frames: &[u8],
    state: &[u8],
    file: usize,
    position: usize,
) -> u32 {
    if let Err(refused) = admit(media, sizes, frames, state, file, &mut Slots::none()) {
        return refused;
    }
    if position > FILE_BYTES {
        return RANGE;
    }
    count_in_page(state, file, position) as u32
}

/// Tells where the bytes up to the end of a page lie.
#[inline(never)]
pub fn look(
    media: &[u8],
    sizes: &[u32],
    frames: &[u8],
    state: &[u8],
    file: usize,
    position: usize,
) -> u64 {
    let mut slots = Slots::none();
    if admit(media, sizes, frames, state, file, &mut slots).is_err() {
        return 0;
    }
    if position > FILE_BYTES {
        return 0;
    }
    let count = count_in_page(state, file, position);
    if count == 0 {
        return 0;
    }
    let page = position / PAGE_BYTES;
    let (offset, source, count) = if let Some(slot) = slots.get(file, page) {
        (PAGE_BYTES * slot + position % PAGE_BYTES, 1, count)
    } else {
        let floor = size(state, floor_at(file));
        let count = count.min(floor.saturating_sub(position));
        if count == 0 {
            return 0;
        }
        (FILE_BYTES * file + position, 0, count)
    };
    (offset as u64) << 32 | source << 16 | count as u64
}

/// Whether all bytes are 0.
#[inline(always)]
fn all_zero(bytes: &[u8]) -> bool {
    let zero = |bytes: &[u8]| bytes.iter().fold(0, |all, byte| all | byte) == 0;
    let chunks = bytes.chunks_exact(512);
    zero(chunks.remainder()) && chunks.into_iter().all(zero)
}

/// Brings the device up.
#[inline(never)]
pub fn mount(media: &mut [u8], sizes: &mut [u32], state: &mut [u8], budget: usize) -> u32 {
    if media.len() != MEDIA_BYTES || sizes.len() != FILES || state.len() != STATE_BYTES {
        return SHAPE;
    }
    if sizes.iter().any(|&size| size as usize > FILE_BYTES) {
        return MEDIA;
    }
    let mut trims = 0;
    for (bytes, &size) in media.chunks_exact_mut(FILE_BYTES).zip(sizes.iter()) {
        let past = &mut bytes[size as usize..];
        if all_zero(past) {
            continue;
        }
        if trims == budget {
            state.fill(0);
            return CUT + budget as u32;
        }
        past.fill(0);
        trims += 1;
    }
    bring_up(state, sizes);
    trims as u32
}

/// Makes the state that of a device just mounted.
#[inline(always)]
fn bring_up(state: &mut [u8], sizes: &[u32]) {
    state[STATE_MOUNTED] = 1;
    state[STATE_SLOTS..STATE_LOGICAL].fill(0);
    for (file, &size) in sizes.iter().enumerate() {
        put_size(state, logical_at(file), size as usize);
        put_size(state, floor_at(file), size as usize);
    }
}

/// Empties all files.
#[inline(never)]
pub fn format(media: &mut [u8], sizes: &mut [u32], state: &mut [u8], budget: usize) -> u32 {
    if media.len() != MEDIA_BYTES || sizes.len() != FILES || state.len() != STATE_BYTES {
        return SHAPE;
    }
    state.fill(0);
    let mut trims = 0;
    for (bytes, size) in media.chunks_exact_mut(FILE_BYTES).zip(sizes) {
        if *size == 0 && all_zero(bytes) {
            continue;
        }
        if trims == budget {
            return CUT + budget as u32;
        }
        bytes.fill(0);
        *size = 0;
        trims += 1;
    }
    trims as u32
}

/// The truncate rule on a logical size, a floor and a stored size.
#[inline(never)]
pub fn truncate_sizes(sizes: &mut [u32], n: usize, greatest: u32) -> u32 {
    let [logical, floor, stored] = sizes else {
        return SHAPE;
    };
    if *floor > *logical || *logical > greatest || *floor > *stored {
        return BOOKS;
    }
    if n > greatest as usize {
        return RANGE;
    }
    *logical = n as u32;
    *floor = (*floor).min(n as u32);
    0
}

/// The media write of a page.
#[inline(never)]
pub fn write_page(page: &mut [u8], bytes: &[u8]) -> u32 {
    if page.len() != PAGE_BYTES || bytes.len() != PAGE_BYTES {
        return SHAPE;
    }
    page.copy_from_slice(bytes);
    0
}

/// The media write of a stored size.
#[inline(never)]
pub fn write_size(media: &[u8], sizes: &mut [u32], file: usize, n: usize) -> u32 {
    if media.len() != MEDIA_BYTES || sizes.len() != FILES {
        return SHAPE;
    }
    if file >= FILES {
        return NO_FILE;
    }
    if n > FILE_BYTES {
        return RANGE;
    }
    sizes[file] = n as u32;
    0
}

/// The media write that clears a file from `n` on.
#[inline(never)]
pub fn trim(media: &mut [u8], sizes: &mut [u32], file: usize, n: usize) -> u32 {
    if media.len() != MEDIA_BYTES || sizes.len() != FILES {
        return SHAPE;
    }
    if file >= FILES {
        return NO_FILE;
    }
    if n > FILE_BYTES || n > sizes[file] as usize {
        return RANGE;
    }
    media[FILE_BYTES * file + n..FILE_BYTES * (file + 1)].fill(0);
    sizes[file] = n as u32;
    0
}
