//! A box: the buffers that go from one call to the next.

use crate::store::{self, Answer, CacheState, FILES, FRAMES_LEN, MEDIA_LEN};

/// The media, stored sizes, frames and cache state of one box.
#[derive(Clone, Debug, PartialEq, Eq)]
pub struct Device {
    /// The media bytes.
    pub media: Vec<u8>,
    /// The stored sizes.
    pub sizes: Vec<u32>,
    /// The bytes of the cached pages (document 01: the held bytes).
    pub frames: Vec<u8>,
    /// The cache state (document 01: the books).
    pub state: CacheState,
}

impl Default for Device {
    fn default() -> Self {
        Device {
            media: vec![0; MEDIA_LEN],
            sizes: vec![0; FILES],
            frames: vec![0; FRAMES_LEN],
            state: CacheState::DOWN,
        }
    }
}

impl Device {
    /// A box with media all 0, down.
    pub fn new() -> Self {
        Self::default()
    }

    /// See [`store::read`].
    pub fn read(&self, file: usize, position: usize, buffer: &mut [u8]) -> Answer {
        store::read(
            &self.media,
            &self.sizes,
            &self.frames,
            &self.state,
            file,
            position,
            buffer,
        )
    }

    /// See [`store::write`].
    pub fn write(&mut self, file: usize, position: usize, bytes: &[u8]) -> Answer {
        store::write(
            &self.media,
            &self.sizes,
            &mut self.frames,
            &mut self.state,
            file,
            position,
            bytes,
        )
    }

    /// See [`store::truncate`].
    pub fn truncate(&mut self, file: usize, size: usize) -> Answer {
        store::truncate(
            &self.media,
            &self.sizes,
            &mut self.frames,
            &mut self.state,
            file,
            size,
        )
    }

    /// See [`store::sync`].
    pub fn sync(&mut self, file: usize, budget: usize) -> Answer {
        store::sync(
            &mut self.media,
            &mut self.sizes,
            &self.frames,
            &mut self.state,
            file,
            budget,
        )
    }

    /// See [`store::mount`].
    pub fn mount(&mut self, budget: usize) -> Answer {
        store::mount(&mut self.media, &mut self.sizes, &mut self.state, budget)
    }

    /// See [`store::format`].
    pub fn format(&mut self, budget: usize) -> Answer {
        store::format(&mut self.media, &mut self.sizes, &mut self.state, budget)
    }

    /// See [`store::look`].
    pub fn look(&self, file: usize, position: usize) -> &[u8] {
        store::look(
            &self.media,
            &self.sizes,
            &self.frames,
            &self.state,
            file,
            position,
        )
    }

    /// See [`store::look_count`].
    pub fn look_count(&self, file: usize, position: usize) -> Answer {
        store::look_count(
            &self.media,
            &self.sizes,
            &self.frames,
            &self.state,
            file,
            position,
        )
    }
}
