//! A store with its memory.

use core::fmt;

use crate::{raw, Error, FILES, FRAMES_BYTES, MEDIA_BYTES, SLOTS, STATE_BYTES, STATE_MOUNTED};
use layout::{logical_at, size, slot_at};

/// What the frames hold after a loss of power: neither zeros nor text.
const LOST: u8 = 0xa5;

/// A store of eight files, with the memory that it works on.
///
/// The media and the stored sizes stand for what survives a loss of power; the
/// cache does not. A device starts down: [mount](Device::mount) it before
/// other calls. A refused call leaves the device as it was, but for
/// [`Error::Cut`].
///
/// The memory is inline, 39,084 bytes. Where the stack is too small for it, the
/// device is a `static`, or in a `Box`.
#[derive(Clone)]
pub struct Device {
    media: [u8; MEDIA_BYTES],
    sizes: [u32; FILES],
    frames: [u8; FRAMES_BYTES],
    state: [u8; STATE_BYTES],
}

impl Device {
    /// A device whose media are all 0, down. All its files are empty.
    pub const fn new() -> Device {
        Device {
            media: [0; MEDIA_BYTES],
            sizes: [0; FILES],
            frames: [0; FRAMES_BYTES],
            state: [0; STATE_BYTES],
        }
    }

    /// A device with these media and stored sizes, down: one that is met after
    /// a loss of power. Byte i of file f is at 4,096 * f + i.
    ///
    /// [`Error::Shape`] where the media are not [`MEDIA_BYTES`] long. Contents
    /// and sizes are free; a mount refuses a stored size above 4,096.
    ///
    /// ```
    /// # use boxstore::{Device, MOUNT_WRITES};
    /// # fn main() -> Result<(), boxstore::Error> {
    /// # let (mut image, mut sizes) = Device::new().into_media();
    /// # image[0] = 7;
    /// # sizes[0] = 1;
    /// let mut device = Device::from_media(&image, sizes)?;
    /// device.mount(MOUNT_WRITES)?;
    /// for file in 0..boxstore::FILES {
    ///     println!("file {file}: {} bytes", device.len(file)?);
    /// }
    /// # assert_eq!(device.look(0, 0)?, [7]);
    /// # Ok(())
    /// # }
    /// ```
    pub fn from_media(media: &[u8], sizes: [u32; FILES]) -> Result<Device, Error> {
        let mut device = Device::new();
        device.media = media.try_into().map_err(|_| Error::Shape)?;
        device.sizes = sizes;
        Ok(device)
    }

    /// The media and the stored sizes: what survives a loss of power. What was
    /// not synced is gone.
    pub fn into_media(self) -> ([u8; MEDIA_BYTES], [u32; FILES]) {
        (self.media, self.sizes)
    }

    /// The bytes of the media.
    pub fn media(&self) -> &[u8; MEDIA_BYTES] {
        &self.media
    }

    /// The stored size of each file.
    pub fn sizes(&self) -> &[u32; FILES] {
        &self.sizes
    }

    /// The cache state: [`STATE_SLOTS`](crate::STATE_SLOTS) and the others say
    /// where its parts begin.
    pub fn state(&self) -> &[u8; STATE_BYTES] {
        &self.state
    }

    /// The bytes of the cached pages; slot k has those from 256 * k on.
    pub fn frames(&self) -> &[u8; FRAMES_BYTES] {
        &self.frames
    }

    /// [Cuts the power](Device::cut_power), and lends the media and the stored
    /// sizes: to be filled in place, as from a part that is read at the start.
    pub fn media_mut(&mut self) -> (&mut [u8; MEDIA_BYTES], &mut [u32; FILES]) {
        self.cut_power();
        (&mut self.media, &mut self.sizes)
    }

    /// Whether the device is mounted.
    pub fn is_mounted(&self) -> bool {
        self.state[STATE_MOUNTED] == 1
    }

    /// The number of pages that are cached, [`SLOTS`] at most. A write that
    /// needs more is cut short or refused, until a sync frees the pages of a
    /// file.
    pub fn cached_pages(&self) -> usize {
        (0..SLOTS)
            .filter(|&slot| self.state[slot_at(slot)] == 1)
            .count()
    }

    /// The logical size of a file: its bytes as read and write see them.
    pub fn len(&self, file: usize) -> Result<usize, Error> {
        // a look at 0 has the refusals of a read
        self.look_count(file, 0)?;
        Ok(size(&self.state, logical_at(file)))
    }

    /// Empties all files, in at most `budget` media writes, and answers how
    /// many it made. The device is down after it. For new media, and only
    /// there: it ends what the files hold.
    pub fn format(&mut self, budget: usize) -> Result<usize, Error> {
        Error::decode(raw::format(
            &mut self.media,
            &mut self.sizes,
            &mut self.state,
            budget,
        ))
    }

    /// Brings the device up, in at most `budget` media writes, and answers how
    /// many it made. No page is cached after it: where the device was up, what
    /// was not synced is gone.
    pub fn mount(&mut self, budget: usize) -> Result<usize, Error> {
        Error::decode(raw::mount(
            &mut self.media,
            &mut self.sizes,
            &mut self.state,
            budget,
        ))
    }

    /// Copies bytes of a file, from a position on, into the front of the
    /// buffer: as many as it takes, up to the logical size. Answers how many;
    /// 0 at or past the logical size. The rest of the buffer keeps its bytes.
    pub fn read(&self, file: usize, position: usize, buffer: &mut [u8]) -> Result<usize, Error> {
        Error::decode(raw::read(
            &self.media,
            &self.sizes,
            &self.frames,
            &self.state,
            file,
            position,
            buffer,
        ))
    }

    /// All bytes of a file. Needs the feature `std`.
    #[cfg(feature = "std")]
    pub fn read_all(&self, file: usize) -> Result<std::vec::Vec<u8>, Error> {
        let mut bytes = std::vec![0; crate::FILE_BYTES];
        let count = self.read(file, 0, &mut bytes)?;
        bytes.truncate(count);
        Ok(bytes)
    }

    /// Writes bytes to a file, from a position on, and answers how many.
    ///
    /// The bytes go into cached pages and reach the media with the next
    /// [sync](Device::sync) of the file. The answer is less than the bytes
    /// given where a page finds all 24 slots taken: sync a file, then write the
    /// rest. Where not even the first page finds one: [`Error::NoRoom`].
    ///
    /// ```
    /// # use boxstore::{Device, Error, MOUNT_WRITES, SYNC_WRITES};
    /// # fn main() -> Result<(), Error> {
    /// # let mut device = Device::new();
    /// # device.mount(MOUNT_WRITES)?;
    /// device.write(0, 0, &[1; 4096])?;
    /// assert_eq!(device.write(1, 0, &[2; 4096])?, 2048);
    /// assert_eq!(device.write(2, 0, &[3]), Err(Error::NoRoom));
    /// device.sync(0, SYNC_WRITES)?;
    /// assert_eq!(device.write(1, 2048, &[2; 2048])?, 2048);
    /// # Ok(())
    /// # }
    /// ```
    pub fn write(&mut self, file: usize, position: usize, bytes: &[u8]) -> Result<usize, Error> {
        Error::decode(raw::write(
            &self.media,
            &self.sizes,
            &mut self.frames,
            &mut self.state,
            file,
            position,
            bytes,
        ))
    }

    /// The file has `n` bytes after it: it is cut, or filled with zeros. Like
    /// a write, it reaches the media with the next sync of the file.
    pub fn truncate(&mut self, file: usize, n: usize) -> Result<(), Error> {
        let answer = raw::truncate(
            &self.media,
            &self.sizes,
            &mut self.frames,
            &mut self.state,
            file,
            n,
        );
        Error::decode(answer).map(drop)
    }

    /// Stores a file, in at most `budget` media writes, and answers how many
    /// it made. Its cached pages are free after it.
    pub fn sync(&mut self, file: usize, budget: usize) -> Result<usize, Error> {
        Error::decode(raw::sync(
            &mut self.media,
            &mut self.sizes,
            &self.frames,
            &mut self.state,
            file,
            budget,
        ))
    }

    /// The bytes of a file from a position on, to the end of their page at
    /// most, where they lie: never a copy.
    ///
    /// The slice may be shorter than [`look_count`](Device::look_count) says,
    /// or empty: the bytes that are left up to that count are zeros which no
    /// buffer has.
    pub fn look(&self, file: usize, position: usize) -> Result<&[u8], Error> {
        let look = raw::look(
            &self.media,
            &self.sizes,
            &self.frames,
            &self.state,
            file,
            position,
        );
        let part = raw::looked(look, &self.media, &self.frames);
        if part.is_empty() {
            self.look_count(file, position)?;
        }
        Ok(part)
    }

    /// The number of bytes from a position to the end of its page or to the
    /// logical size, the nearer; 0 at or past the logical size.
    pub fn look_count(&self, file: usize, position: usize) -> Result<usize, Error> {
        Error::decode(raw::look_count(
            &self.media,
            &self.sizes,
            &self.frames,
            &self.state,
            file,
            position,
        ))
    }

    /// The power goes: the media stay, the cached pages are lost, and the
    /// device is down.
    pub fn cut_power(&mut self) {
        self.frames.fill(LOST);
        self.state.fill(0);
    }
}

impl Default for Device {
    fn default() -> Device {
        Device::new()
    }
}

impl fmt::Debug for Device {
    fn fmt(&self, f: &mut fmt::Formatter<'_>) -> fmt::Result {
        f.debug_struct("Device")
            .field("mounted", &self.is_mounted())
            .field("logical", &Logical(self))
            .field("stored", &self.sizes)
            .field("cached_pages", &self.cached_pages())
            .finish_non_exhaustive()
    }
}

/// The logical sizes of a device, none where they are refused.
struct Logical<'a>(&'a Device);

impl fmt::Debug for Logical<'_> {
    fn fmt(&self, f: &mut fmt::Formatter<'_>) -> fmt::Result {
        let sizes = (0..FILES).flat_map(|file| self.0.len(file));
        f.debug_list().entries(sizes).finish()
    }
}

#[cfg(test)]
mod tests {
    use super::{Device, LOST};
    use crate::{raw, MOUNT_WRITES, STATE_BYTES};

    #[test]
    fn lost_power_leaves_no_cached_byte() {
        let mut device = Device::new();
        device.mount(MOUNT_WRITES).unwrap();
        device.write(3, 0, &[7; 600]).unwrap();
        assert!(device.frames.contains(&7));
        device.cut_power();
        assert!(device.frames.iter().all(|&byte| byte == LOST));
        assert_eq!(device.state, [0; STATE_BYTES]);
    }

    #[test]
    fn a_new_device_is_in_the_down_state() {
        let mut state = [1; STATE_BYTES];
        assert_eq!(raw::down(&mut state), 0);
        assert_eq!(Device::new().state, state);
    }
}
