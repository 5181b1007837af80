//! The lengths of a store's memory and the offsets in its cache state: the
//! numbers of `boxstore.h`, for all Rust code here but the reference, which has
//! its own.

#![no_std]

/// Number of files; they are numbered from 0.
pub const FILES: usize = 8;
/// Bytes in a page.
pub const PAGE_BYTES: usize = 256;
/// Pages in a file.
pub const PAGES: usize = 16;
/// Greatest size of a file.
pub const FILE_BYTES: usize = PAGES * PAGE_BYTES;
/// Pages that the cache holds, over all files together.
pub const SLOTS: usize = 24;
/// Bytes of the media.
pub const MEDIA_BYTES: usize = FILES * FILE_BYTES;
/// Bytes of the frames, which hold the cached pages.
pub const FRAMES_BYTES: usize = SLOTS * PAGE_BYTES;

/// Blocks of an append-only part, each erased as a whole.
pub const PART_BLOCKS: usize = 6;
/// Records of a block, each programmed as a whole.
pub const BLOCK_RECORDS: usize = 64;
/// Bytes of a record: its number, kind, file and page or size, then a page.
pub const RECORD_BYTES: usize = RECORD_PAGE + PAGE_BYTES;
/// Offset in a record of its number, four bytes, low byte first.
pub const RECORD_NUMBER: usize = 0;
/// Offset in a record of its kind.
pub const RECORD_KIND: usize = 4;
/// Offset in a record of its file.
pub const RECORD_FILE: usize = 5;
/// Offset in a record of its page or size, two bytes, low byte first.
pub const RECORD_FIELD: usize = 6;
/// Offset in a record of the bytes of its page.
pub const RECORD_PAGE: usize = 8;
/// Bytes of a block.
pub const BLOCK_BYTES: usize = BLOCK_RECORDS * RECORD_BYTES;
/// Bytes of an append-only part.
pub const PART_BYTES: usize = PART_BLOCKS * BLOCK_BYTES;
/// A record's kind where it is the media write of a page.
pub const KIND_PAGE: u8 = 1;
/// A record's kind where it is the media write of a stored size.
pub const KIND_SIZE: u8 = 2;
/// A record's kind where it is a trim.
pub const KIND_TRIM: u8 = 3;
/// A byte of a record that is not programmed.
pub const BLANK: u8 = 255;
/// The most pages and sizes of a part that are valid.
pub const MOST_VALID: usize = FILES * PAGES + FILES;

/// Greatest length of a trip list.
pub const LIST_BYTES: usize = 4096;
/// Numbers that a trip is told as: its minute, its metres, the index in the list
/// where its driver begins, and the length of that.
pub const TRIP_NUMBERS: usize = 4;

/// The most media writes that a sync needs, a trim, the pages and a size: a
/// budget that is never cut.
pub const SYNC_WRITES: usize = PAGES + 2;
/// The most media writes that a mount or a format needs, a trim of each file: a
/// budget that is never cut.
pub const MOUNT_WRITES: usize = FILES;

/// Steps that a sync on append-only flash never exceeds: before each media write
/// a copy of all that is valid, and an erase of every block.
pub const PART_SYNC_STEPS: usize = SYNC_WRITES * (MOST_VALID + PART_BLOCKS);
/// Steps that a mount or a format on append-only flash never exceeds.
pub const PART_MOUNT_STEPS: usize = MOUNT_WRITES * (MOST_VALID + PART_BLOCKS);

/// Offset in the cache state of the byte that is 1 where the device is mounted.
pub const STATE_MOUNTED: usize = 0;
/// Offset in the cache state of the slots.
pub const STATE_SLOTS: usize = STATE_MOUNTED + 1;
/// Offset in the cache state of the logical sizes.
pub const STATE_LOGICAL: usize = STATE_SLOTS + SLOT_BYTES * SLOTS;
/// Offset in the cache state of the floors.
pub const STATE_FLOOR: usize = STATE_LOGICAL + SIZE_BYTES * FILES;
/// Bytes of the cache state.
pub const STATE_BYTES: usize = STATE_FLOOR + SIZE_BYTES * FILES;
/// Bytes of a slot in the cache state: 1 where it is used, or 0; its file; its
/// page.
pub const SLOT_BYTES: usize = 3;
/// Bytes of a logical size or a floor in the cache state, low byte first.
pub const SIZE_BYTES: usize = 4;

/// Offset in the cache state of a slot.
#[inline(always)]
pub const fn slot_at(slot: usize) -> usize {
    STATE_SLOTS + SLOT_BYTES * slot
}

/// Offset in the cache state of the logical size of a file.
#[inline(always)]
pub const fn logical_at(file: usize) -> usize {
    STATE_LOGICAL + SIZE_BYTES * file
}

/// Offset in the cache state of the floor of a file.
#[inline(always)]
pub const fn floor_at(file: usize) -> usize {
    STATE_FLOOR + SIZE_BYTES * file
}

/// The size at an offset in a cache state.
///
/// # Panics
///
/// Where the state ends before it.
#[inline(always)]
pub fn size(state: &[u8], at: usize) -> usize {
    let bytes = state[at..at + SIZE_BYTES].try_into().expect("four bytes");
    u32::from_le_bytes(bytes) as usize
}

/// Puts a size, below 2^32, at an offset in a cache state.
///
/// # Panics
///
/// Where the state ends before it.
#[inline(always)]
pub fn put_size(state: &mut [u8], at: usize, size: usize) {
    state[at..at + SIZE_BYTES].copy_from_slice(&(size as u32).to_le_bytes());
}

#[cfg(test)]
mod tests {
    use super::*;

    #[test]
    fn a_size_has_its_low_byte_first() {
        let mut state = [0xff; STATE_BYTES];
        put_size(&mut state, floor_at(7), 0x0102);
        assert_eq!(state[STATE_BYTES - 5..], [0xff, 2, 1, 0, 0]);
        assert_eq!(size(&state, floor_at(7)), 0x0102);
        assert_eq!(size(&state, logical_at(7)), 0xffff_ffff);
    }
}
