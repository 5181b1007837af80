//! A box with an append-only part: the buffers that go from one call to the
//! next.

use crate::part_store::{self, PART_LEN};
use crate::store::{Answer, CacheState, FILES, FRAMES_LEN, MEDIA_LEN};

/// The part, its image, the frames and the cache state of one box.
#[derive(Clone, Debug, PartialEq, Eq)]
pub struct PartDevice {
    /// The bytes of the part.
    pub part: Vec<u8>,
    /// The media bytes of the image.
    pub media: Vec<u8>,
    /// The stored sizes of the image.
    pub sizes: Vec<u32>,
    /// The bytes of the cached pages (document 01: the held bytes).
    pub frames: Vec<u8>,
    /// The cache state (document 01: the books).
    pub state: CacheState,
}

impl Default for PartDevice {
    fn default() -> Self {
        PartDevice {
            part: vec![255; PART_LEN],
            media: vec![0; MEDIA_LEN],
            sizes: vec![0; FILES],
            frames: vec![0; FRAMES_LEN],
            state: CacheState::DOWN,
        }
    }
}

impl PartDevice {
    /// A box with a blank part, down.
    pub fn new() -> Self {
        Self::default()
    }

    /// Power is lost between calls: the part stays, the state is down, and
    /// image and frames become these bytes and sizes.
    pub fn lose_power(&mut self, media: &[u8], sizes: &[u32], frames: &[u8]) {
        self.media.copy_from_slice(media);
        self.sizes.copy_from_slice(sizes);
        self.frames.copy_from_slice(frames);
        self.state = CacheState::DOWN;
    }

    /// See [`part_store::read`].
    pub fn read(&self, file: usize, position: usize, buffer: &mut [u8]) -> Answer {
        part_store::read(
            &self.part,
            &self.media,
            &self.sizes,
            &self.frames,
            &self.state,
            file,
            position,
            buffer,
        )
    }

    /// See [`part_store::write`].
    pub fn write(&mut self, file: usize, position: usize, bytes: &[u8]) -> Answer {
        part_store::write(
            &self.part,
            &self.media,
            &self.sizes,
            &mut self.frames,
            &mut self.state,
            file,
            position,
            bytes,
        )
    }

    /// See [`part_store::truncate`].
    pub fn truncate(&mut self, file: usize, size: usize) -> Answer {
        part_store::truncate(
            &self.part,
            &self.media,
            &self.sizes,
            &mut self.frames,
            &mut self.state,
            file,
            size,
        )
    }

    /// See [`part_store::sync`].
    pub fn sync(&mut self, file: usize, budget: usize) -> Answer {
        part_store::sync(
            &mut self.part,
            &mut self.media,
            &mut self.sizes,
            &self.frames,
            &mut self.state,
            file,
            budget,
        )
    }

    /// See [`part_store::mount`].
    pub fn mount(&mut self, budget: usize) -> Answer {
        part_store::mount(
            &mut self.part,
            &mut self.media,
            &mut self.sizes,
            &mut self.state,
            budget,
        )
    }

    /// See [`part_store::format`].
    pub fn format(&mut self, budget: usize) -> Answer {
        part_store::format(
            &mut self.part,
            &mut self.media,
            &mut self.sizes,
            &mut self.state,
            budget,
        )
    }

    /// See [`part_store::look`].
    pub fn look(&self, file: usize, position: usize) -> &[u8] {
        part_store::look(
            &self.part,
            &self.media,
            &self.sizes,
            &self.frames,
            &self.state,
            file,
            position,
        )
    }

    /// See [`part_store::look_count`].
    pub fn look_count(&self, file: usize, position: usize) -> Answer {
        part_store::look_count(
            &self.part,
            &self.media,
            &self.sizes,
            &self.frames,
            &self.state,
            file,
            position,
        )
    }
}
