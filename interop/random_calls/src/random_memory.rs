//! Random memory for calls.

use std::fmt;

use layout::{
    floor_at, logical_at, put_size, slot_at, FILES, FILE_BYTES, FRAMES_BYTES, MEDIA_BYTES, PAGES,
    PAGE_BYTES, SIZE_BYTES, SLOTS, SLOT_BYTES, STATE_BYTES, STATE_MOUNTED,
};
use random_sessions::rng::Rng;
use reference::store::{CacheState, Slot};

use crate::guarded::Guarded;
use crate::memory::Memory;
use crate::reference_store::{decode, encode};
use crate::text::Bytes;

/// Memory with each slice between guards.
pub type GuardedMemory = Memory<Guarded<u8>, Guarded<u32>>;

impl GuardedMemory {
    /// Random memory: about half of it is sound and up. The rest has one thing
    /// wrong, or several, so that the order of the refusals shows.
    pub fn random(rng: &mut Rng) -> GuardedMemory {
        let mut memory = GuardedMemory::sound(rng);
        match rng.weighted(&[12, 1, 4, 2]) {
            0 => {}
            1 => memory.state.fill(0),
            2 => memory.spoil_state(rng),
            _ => memory.random_state(rng),
        }
        if rng.chance(12) {
            memory.spoil_sizes(rng);
        }
        if rng.chance(12) {
            memory.spoil_lengths(rng);
        }
        memory
    }

    /// Whether the guards of the four are as they were made.
    pub fn is_intact(&self) -> bool {
        self.media.is_intact()
            && self.sizes.is_intact()
            && self.frames.is_intact()
            && self.state.is_intact()
    }

    /// Whether the cache state is sound beside the stored sizes.
    pub fn is_sound(&self) -> bool {
        decode(&self.state).is_some_and(|state| state.is_sound(&self.sizes))
    }

    /// The number of ways to make memory simpler.
    pub const SIMPLER: usize = 3 + 6 * FILES + 2 * SLOTS;

    /// The memory with one thing made simpler, for each way another; nothing
    /// where it is simple there already.
    pub fn simpler(&self, way: usize) -> Option<GuardedMemory> {
        let mut memory = self.clone();
        let Memory {
            media,
            sizes,
            frames,
            state,
        } = &mut memory;
        let file = way % FILES;
        let (logical, floor) = (logical_at(file), floor_at(file));
        let slot = way % SLOTS;
        match way / FILES {
            0 => clear(media, file * FILE_BYTES, FILE_BYTES),
            1 => clear(sizes, file, 1),
            2 => clear(state, floor, SIZE_BYTES),
            3 => {
                clear(state, logical, SIZE_BYTES);
                clear(state, floor, SIZE_BYTES);
            }
            4 => {
                clear(sizes, file, 1);
                clear(state, logical, SIZE_BYTES);
                clear(state, floor, SIZE_BYTES);
            }
            5 if state.len() >= floor + SIZE_BYTES => {
                state.copy_within(floor..floor + SIZE_BYTES, logical)
            }
            5 => {}
            6..=8 => clear(state, slot_at(slot), SLOT_BYTES),
            9..=11 => clear(frames, slot * PAGE_BYTES, PAGE_BYTES),
            _ => [media, frames, state][way % FILES].fill(0),
        }
        (memory != *self).then_some(memory)
    }

    /// Gives the memory a sound state that is up, for its stored sizes, and any
    /// frames.
    pub fn put_sound_state(&mut self, rng: &mut Rng) {
        let mut state = CacheState {
            mounted: 1,
            ..CacheState::DOWN
        };
        for file in 0..FILES {
            (state.floor[file], state.logical[file]) =
                pending_sizes(rng, self.sizes[file] as usize);
        }
        cache_pages(rng, &mut state);
        fill(rng, &mut self.frames);
        encode(&state, &mut self.state);
    }

    /// Memory with a sound state that is up.
    fn sound(rng: &mut Rng) -> GuardedMemory {
        let mut memory = GuardedMemory::new();
        let mut state = CacheState {
            mounted: 1,
            ..CacheState::DOWN
        };
        fill(rng, &mut memory.frames);
        for file in 0..FILES {
            let stored = size(rng, FILE_BYTES);
            memory.sizes[file] = stored as u32;
            (state.floor[file], state.logical[file]) = pending_sizes(rng, stored);

            let bytes = &mut memory.media[file * FILE_BYTES..(file + 1) * FILE_BYTES];
            match rng.below(4) {
                // bytes past the stored size, as a sync that was cut leaves
                0 => fill(rng, bytes),
                // a single one
                1 if stored < FILE_BYTES => {
                    fill(rng, &mut bytes[..stored]);
                    bytes[rng.between(stored, FILE_BYTES - 1)] = 1;
                }
                2 => {}
                _ => fill(rng, &mut bytes[..stored]),
            }
        }
        cache_pages(rng, &mut state);
        encode(&state, &mut memory.state);
        memory
    }

    /// Alters the state in one place, so that it is mostly no longer sound.
    pub fn spoil_state(&mut self, rng: &mut Rng) {
        let slot = slot_at(rng.below(SLOTS));
        let file = rng.below(FILES);
        match rng.below(6) {
            0 => self.state[STATE_MOUNTED] = rng.pick(&[0, 2, 3, 128, 255]),
            1 => {
                let other = slot_at(rng.below(SLOTS));
                self.state.copy_within(other..other + SLOT_BYTES, slot);
            }
            2 => {
                self.state[slot + rng.below(SLOT_BYTES)] =
                    rng.pick(&[0, 1, 2, 7, 8, 15, 16, 128, 255])
            }
            3 => {
                let value = rng.pick(&[0, 1, 4_096, 4_097, 8_192, 1 << 31, u32::MAX as usize]);
                let at = rng.pick(&[logical_at(file), floor_at(file)]);
                put_size(&mut self.state, at, value);
            }
            4 => {
                let at = rng.below(STATE_BYTES);
                self.state[at] ^= 1 << rng.below(8);
            }
            // down, but for one byte
            _ => {
                let at = rng.below(STATE_BYTES);
                self.state.fill(0);
                self.state[at] = rng.pick(&[0, 1, 255]);
            }
        }
    }

    /// Alters a stored size.
    pub fn spoil_sizes(&mut self, rng: &mut Rng) {
        let value = rng.pick(&[0, 1, 4_095, 4_096, 4_097, 65_536, 1 << 31, u32::MAX]);
        self.sizes[rng.below(FILES)] = value;
    }

    /// Makes the state random bytes.
    pub fn random_state(&mut self, rng: &mut Rng) {
        let greatest = rng.pick(&[1, 2, 16, 255]);
        for byte in self.state.iter_mut() {
            *byte = rng.between(0, greatest) as u8;
        }
        if rng.chance(70) {
            self.state[STATE_MOUNTED] = 1;
        }
    }

    /// Gives one of the four another length, or several.
    pub fn spoil_lengths(&mut self, rng: &mut Rng) {
        loop {
            match rng.below(4) {
                0 => self.media.resize(other_length(rng, MEDIA_BYTES), 1),
                1 => self.sizes.resize(other_length(rng, FILES), 1),
                2 => self.frames.resize(other_length(rng, FRAMES_BYTES), 1),
                _ => self.state.resize(other_length(rng, STATE_BYTES), 0),
            }
            if rng.chance(80) {
                return;
            }
        }
    }
}

/// The cache state decoded, and of the rest what is not 0.
impl fmt::Display for GuardedMemory {
    fn fmt(&self, f: &mut fmt::Formatter<'_>) -> fmt::Result {
        writeln!(f, "  stored sizes {:?}", self.sizes)?;
        match decode(&self.state) {
            Some(state) => {
                let mark = match state.mounted {
                    0 => "down".to_owned(),
                    1 => "mounted".to_owned(),
                    other => format!("mark {other}"),
                };
                writeln!(f, "  state: {mark}")?;
                writeln!(f, "    logical sizes {:?}", state.logical)?;
                writeln!(f, "    floors {:?}", state.floor)?;
                for (index, slot) in state.slots.iter().enumerate() {
                    if *slot != Slot::FREE {
                        let use_of = if slot.used { "file" } else { "free, file" };
                        writeln!(
                            f,
                            "    slot {index}: {use_of} {} page {}",
                            slot.file, slot.page
                        )?;
                    }
                }
            }
            None => writeln!(f, "  state: {} bytes {:?}", self.state.len(), self.state)?,
        }
        for (name, bytes, piece) in [
            ("media of file", &self.media, FILE_BYTES),
            ("frames of slot", &self.frames, PAGE_BYTES),
        ] {
            for (index, bytes) in bytes.chunks(piece).enumerate() {
                if bytes.iter().any(|&byte| byte != 0) {
                    writeln!(f, "  {name} {index}: {}", Bytes(bytes))?;
                }
            }
        }
        write!(
            f,
            "  lengths: media {}, sizes {}, frames {}, state {}",
            self.media.len(),
            self.sizes.len(),
            self.frames.len(),
            self.state.len()
        )
    }
}

/// Another length than this, or seldom the same.
pub fn other_length(rng: &mut Rng, length: usize) -> usize {
    match rng.below(6) {
        0 => rng.below(2 * length),
        _ => rng.pick(&[0, 1, length - 1, length + 1, 2 * length]),
    }
}

/// Makes a part 0, where it is there.
fn clear<T: Default + Clone>(values: &mut [T], start: usize, length: usize) {
    if let Some(part) = values.get_mut(start..start + length) {
        part.fill(T::default());
    }
}

/// A size up to `limit`, often at a limit or at the border of a page.
pub fn size(rng: &mut Rng, limit: usize) -> usize {
    match rng.below(6) {
        0 => 0,
        1 => limit,
        2 => (rng.below(PAGES + 1) * PAGE_BYTES).min(limit),
        3 => (rng.below(PAGES + 1) * PAGE_BYTES + 1).min(limit),
        _ => rng.between(0, limit),
    }
}

/// A floor and a logical size that are sound beside a stored size.
fn pending_sizes(rng: &mut Rng, stored: usize) -> (usize, usize) {
    let floor = if rng.chance(60) {
        stored
    } else {
        size(rng, stored)
    };
    let logical = if rng.chance(60) {
        floor
    } else {
        floor + size(rng, FILE_BYTES - floor)
    };
    (floor, logical)
}

/// Caches some pages, in a state with all slots free.
fn cache_pages(rng: &mut Rng, state: &mut CacheState) {
    let used = match rng.below(4) {
        0 => 0,
        1 => SLOTS,
        2 => rng.below(4),
        _ => rng.below(SLOTS + 1),
    };
    // few files, so that they have several pages cached
    let files = rng.between(2, FILES);
    let spread = rng.chance(50);
    let mut taken = 0;
    while taken < used {
        let (file, page) = (rng.below(files), rng.below(PAGES));
        let slot = if spread { rng.below(SLOTS) } else { taken };
        if !state.slots[slot].used && state.slot_of(file, page).is_none() {
            state.slots[slot] = Slot {
                used: true,
                file,
                page,
            };
            taken += 1;
        }
    }
}

/// Fills a slice with random bytes.
pub fn fill(rng: &mut Rng, bytes: &mut [u8]) {
    for chunk in bytes.chunks_mut(8) {
        let random = rng.next_u64().to_le_bytes();
        chunk.copy_from_slice(&random[..chunk.len()]);
    }
}
