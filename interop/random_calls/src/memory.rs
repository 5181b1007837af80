//! The memory of a store.

use std::ops::{Deref, DerefMut};

use layout::{slot_at, FILES, FRAMES_BYTES, MEDIA_BYTES, PAGE_BYTES, SLOTS, STATE_BYTES};

/// The memory of a store. `B` stands for bytes and `N` for numbers: slices,
/// vectors, guarded ones, or a `bool` that tells something of them.
#[derive(Copy, Debug, PartialEq, Eq)]
pub struct Memory<B, N> {
    /// The bytes of the media.
    pub media: B,
    /// The stored sizes.
    pub sizes: N,
    /// The bytes of the cached pages.
    pub frames: B,
    /// The cache state.
    pub state: B,
}

/// Memory lent to a call that only reads it.
pub type MemoryRef<'a> = Memory<&'a [u8], &'a [u32]>;
/// Memory lent to a call that may write some of it.
pub type MemoryMut<'a> = Memory<&'a mut [u8], &'a mut [u32]>;
/// Memory in vectors.
pub type MemoryVec = Memory<Vec<u8>, Vec<u32>>;

impl<B: Clone, N: Clone> Clone for Memory<B, N> {
    fn clone(&self) -> Memory<B, N> {
        Memory {
            media: self.media.clone(),
            sizes: self.sizes.clone(),
            frames: self.frames.clone(),
            state: self.state.clone(),
        }
    }

    fn clone_from(&mut self, other: &Memory<B, N>) {
        self.media.clone_from(&other.media);
        self.sizes.clone_from(&other.sizes);
        self.frames.clone_from(&other.frames);
        self.state.clone_from(&other.state);
    }
}

impl<B: From<Vec<u8>>, N: From<Vec<u32>>> Memory<B, N> {
    /// Media all 0, down.
    pub fn new() -> Memory<B, N> {
        Memory {
            media: vec![0; MEDIA_BYTES].into(),
            sizes: vec![0; FILES].into(),
            frames: vec![0; FRAMES_BYTES].into(),
            state: vec![0; STATE_BYTES].into(),
        }
    }
}

impl<B: From<Vec<u8>>, N: From<Vec<u32>>> Default for Memory<B, N> {
    fn default() -> Memory<B, N> {
        Memory::new()
    }
}

impl<B: Deref<Target = [u8]>, N: Deref<Target = [u32]>> Memory<B, N> {
    /// Lends it for reading.
    #[inline(always)]
    pub fn lend(&self) -> MemoryRef<'_> {
        Memory {
            media: &self.media,
            sizes: &self.sizes,
            frames: &self.frames,
            state: &self.state,
        }
    }

    /// Whether the four have the lengths that calls need.
    pub fn has_right_lengths(&self) -> bool {
        self.media.len() == MEDIA_BYTES
            && self.sizes.len() == FILES
            && self.frames.len() == FRAMES_BYTES
            && self.state.len() == STATE_BYTES
    }

    /// What of another memory differs, if something does. Of the frames only
    /// those of used slots, where `used_only` says so.
    pub fn difference(&self, other: &Memory<B, N>, used_only: bool) -> Option<String> {
        let (one, two) = (self.lend(), other.lend());
        let what = if one.media != two.media {
            "media"
        } else if one.sizes != two.sizes {
            "stored sizes"
        } else if one.state != two.state {
            "cache states"
        } else if used_only {
            let slot = (0..SLOTS).find(|&slot| {
                let frame = slot * PAGE_BYTES..(slot + 1) * PAGE_BYTES;
                one.state[slot_at(slot)] == 1 && one.frames[frame.clone()] != two.frames[frame]
            })?;
            return Some(format!("frames of slot {slot}"));
        } else if one.frames != two.frames {
            "frames"
        } else {
            return None;
        };
        Some(what.to_owned())
    }
}

impl From<MemoryRef<'_>> for MemoryVec {
    fn from(memory: MemoryRef<'_>) -> MemoryVec {
        Memory {
            media: memory.media.to_vec(),
            sizes: memory.sizes.to_vec(),
            frames: memory.frames.to_vec(),
            state: memory.state.to_vec(),
        }
    }
}

impl<B: DerefMut<Target = [u8]>, N: DerefMut<Target = [u32]>> Memory<B, N> {
    /// Lends it for writing.
    #[inline(always)]
    pub fn lend_mut(&mut self) -> MemoryMut<'_> {
        Memory {
            media: &mut self.media,
            sizes: &mut self.sizes,
            frames: &mut self.frames,
            state: &mut self.state,
        }
    }
}
