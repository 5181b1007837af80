//! The reference, with the cache state as bytes.

use layout::{
    floor_at, logical_at, put_size, size, slot_at, FILES, MEDIA_BYTES, SLOTS, SLOT_BYTES,
    STATE_BYTES, STATE_MOUNTED,
};
use reference::store::{self, Answer, CacheState, FileSizes, Refusal, Slot};

use crate::memory::{MemoryMut, MemoryRef};
use crate::store::Store;

/// The reference as a [`Store`].
pub struct Reference;

// The numbers that the reference has of its own are these.
const _: () = assert!(
    store::FILES == FILES
        && store::FILE_MAX == layout::FILE_BYTES
        && store::PAGE == layout::PAGE_BYTES
        && store::SLOTS == SLOTS
        && store::MEDIA_LEN == MEDIA_BYTES
        && store::FRAMES_LEN == layout::FRAMES_BYTES
);

/// The state that these bytes tell; nothing where they have another length, or
/// a slot is neither used nor free.
pub fn decode(bytes: &[u8]) -> Option<CacheState> {
    if bytes.len() != STATE_BYTES {
        return None;
    }
    let mut state = CacheState {
        mounted: bytes[STATE_MOUNTED],
        slots: [Slot::FREE; SLOTS],
        logical: std::array::from_fn(|file| size(bytes, logical_at(file))),
        floor: std::array::from_fn(|file| size(bytes, floor_at(file))),
    };
    for (index, slot) in state.slots.iter_mut().enumerate() {
        let at = slot_at(index);
        *slot = Slot {
            used: match bytes[at] {
                0 => false,
                1 => true,
                _ => return None,
            },
            file: bytes[at + 1].into(),
            page: bytes[at + 2].into(),
        };
    }
    Some(state)
}

/// The bytes of a state, as the calls leave it.
pub fn encode(state: &CacheState, bytes: &mut [u8]) {
    bytes[STATE_MOUNTED] = state.mounted;
    for (index, slot) in state.slots.iter().enumerate() {
        let at = slot_at(index);
        bytes[at..at + SLOT_BYTES].copy_from_slice(&[
            slot.used.into(),
            slot.file as u8,
            slot.page as u8,
        ]);
    }
    for file in 0..FILES {
        put_size(bytes, logical_at(file), state.logical[file]);
        put_size(bytes, floor_at(file), state.floor[file]);
    }
}

/// An answer as a word: 65,536 * number + count.
pub fn word(answer: Answer) -> u32 {
    65_536 * u32::from(answer.number()) + answer.count() as u32
}

const SHAPE: u32 = 2 << 16;

/// A state that is sound beside no stored sizes: its mark is neither 0 nor 1.
const UNSOUND: CacheState = CacheState {
    mounted: 2,
    ..CacheState::DOWN
};

/// Carries out a call on the state in these bytes, which change only where the
/// call changes the state.
pub fn with_state(bytes: &mut [u8], call: impl FnOnce(&mut CacheState) -> Answer) -> u32 {
    if bytes.len() != STATE_BYTES {
        return SHAPE;
    }
    let before = decode(bytes).unwrap_or(UNSOUND);
    let mut state = before;
    let answer = call(&mut state);
    if state != before {
        encode(&state, bytes);
    }
    word(answer)
}

/// As [`with_state`], for calls that only read the state.
pub fn beside_state(bytes: &[u8], call: impl FnOnce(&CacheState) -> Answer) -> u32 {
    if bytes.len() != STATE_BYTES {
        return SHAPE;
    }
    word(call(&decode(bytes).unwrap_or(UNSOUND)))
}

/// A look as a word that tells where the bytes lie that it gives.
pub fn look_word<'a>(m: MemoryRef<'a>, look: impl FnOnce(&CacheState) -> &'a [u8]) -> u64 {
    if m.state.len() != STATE_BYTES {
        return 0;
    }
    let part = look(&decode(m.state).unwrap_or(UNSOUND));
    if part.is_empty() {
        return 0;
    }
    // The part lies in one of the two slices; its address tells which.
    let at = part.as_ptr() as usize;
    let (source, start) = if m.frames.as_ptr_range().contains(&part.as_ptr()) {
        (1, m.frames.as_ptr() as usize)
    } else {
        (0, m.media.as_ptr() as usize)
    };
    ((at - start) as u64) << 32 | source << 16 | part.len() as u64
}

fn media_write(result: Result<(), Refusal>) -> u32 {
    word(result.map_or_else(Answer::Refused, |()| Answer::Done(0)))
}

impl Store for Reference {
    fn down(state: &mut [u8]) -> u32 {
        if state.len() != STATE_BYTES {
            return SHAPE;
        }
        encode(&CacheState::DOWN, state);
        0
    }

    fn format(m: MemoryMut<'_>, budget: usize) -> u32 {
        with_state(m.state, |state| {
            store::format(m.media, m.sizes, state, budget)
        })
    }

    fn mount(m: MemoryMut<'_>, budget: usize) -> u32 {
        with_state(m.state, |state| {
            store::mount(m.media, m.sizes, state, budget)
        })
    }

    fn read(m: MemoryRef<'_>, file: usize, position: usize, buffer: &mut [u8]) -> u32 {
        beside_state(m.state, |state| {
            store::read(m.media, m.sizes, m.frames, state, file, position, buffer)
        })
    }

    fn write(m: MemoryMut<'_>, file: usize, position: usize, bytes: &[u8]) -> u32 {
        with_state(m.state, |state| {
            store::write(m.media, m.sizes, m.frames, state, file, position, bytes)
        })
    }

    fn truncate(m: MemoryMut<'_>, file: usize, n: usize) -> u32 {
        with_state(m.state, |state| {
            store::truncate(m.media, m.sizes, m.frames, state, file, n)
        })
    }

    fn sync(m: MemoryMut<'_>, file: usize, budget: usize) -> u32 {
        with_state(m.state, |state| {
            store::sync(m.media, m.sizes, m.frames, state, file, budget)
        })
    }

    fn look_count(m: MemoryRef<'_>, file: usize, position: usize) -> u32 {
        beside_state(m.state, |state| {
            store::look_count(m.media, m.sizes, m.frames, state, file, position)
        })
    }

    fn look(m: MemoryRef<'_>, file: usize, position: usize) -> u64 {
        look_word(m, |state| {
            store::look(m.media, m.sizes, m.frames, state, file, position)
        })
    }

    fn truncate_sizes(sizes: &mut [u32], n: usize, greatest: u32) -> u32 {
        let [logical, floor, stored] = *sizes else {
            return SHAPE;
        };
        let mut record = FileSizes {
            logical: logical as usize,
            floor: floor as usize,
            stored: stored as usize,
        };
        let answer = store::truncate_sizes(&mut record, n, greatest as usize);
        sizes.copy_from_slice(&[
            record.logical as u32,
            record.floor as u32,
            record.stored as u32,
        ]);
        word(answer)
    }

    fn write_page(page: &mut [u8], bytes: &[u8]) -> u32 {
        media_write(store::store_page(page, bytes))
    }

    fn write_size(m: MemoryMut<'_>, file: usize, n: usize) -> u32 {
        if m.media.len() != MEDIA_BYTES {
            return SHAPE;
        }
        media_write(store::store_size(m.sizes, file, n))
    }

    fn trim(m: MemoryMut<'_>, file: usize, n: usize) -> u32 {
        media_write(store::trim(m.media, m.sizes, file, n))
    }
}
