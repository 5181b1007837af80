//! The calls on append-only flash. Each one reads the headers of all records
//! once, and compares the bytes that make the image with it, in place.

use layout::{
    floor_at, logical_at, put_size, size, FILES, FILE_BYTES, FRAMES_BYTES, PAGES, STATE_BYTES,
};

use crate::part_log::{Log, Media, Part};
use crate::part_steps::{Flash, MediaWrite, MediaWrites, Plan};
use crate::state::Slots;
use crate::{free_slot, CUT, MEDIA, SHAPE};

const DAMAGED: u32 = 12 << 16;
const EXHAUSTED: u32 = 13 << 16;

/// The tests of a call that needs the image, up to DAMAGED.
#[inline(always)]
fn admit(
    part: &[u8],
    media: &[u8],
    sizes: &[u32],
    frames: &[u8],
    state: &[u8],
) -> Result<Log, u32> {
    let (Ok(part), Ok(media), Ok(sizes)) = (
        <&Part>::try_from(part),
        <&Media>::try_from(media),
        <&[u32; FILES]>::try_from(sizes),
    ) else {
        return Err(SHAPE);
    };
    if frames.len() != FRAMES_BYTES || state.len() != STATE_BYTES {
        return Err(SHAPE);
    }
    if sizes.iter().any(|&size| size as usize > FILE_BYTES) {
        return Err(MEDIA);
    }
    Log::find(part)
        .filter(|log| log.is_image(part, media, sizes))
        .ok_or(DAMAGED)
}

/// Copies current bytes into the front of the buffer.
#[inline(never)]
#[allow(clippy::too_many_arguments)]
pub fn read(
    part: &[u8],
    media: &[u8],
    sizes: &[u32],
    frames: &[u8],
    state: &[u8],
    file: usize,
    position: usize,
    buffer: &mut [u8],
) -> u32 {
    match admit(part, media, sizes, frames, state) {
        Ok(_) => crate::read(media, sizes, frames, state, file, position, buffer),
        Err(refused) => refused,
    }
}

/// Puts bytes into cached pages.
#[inline(never)]
#[allow(clippy::too_many_arguments)]
pub fn write(
    part: &[u8],
    media: &[u8],
    sizes: &[u32],
    frames: &mut [u8],
    state: &mut [u8],
    file: usize,
    position: usize,
    bytes: &[u8],
) -> u32 {
    match admit(part, media, sizes, frames, state) {
        Ok(_) => crate::write(media, sizes, frames, state, file, position, bytes),
        Err(refused) => refused,
    }
}

/// Gives a file `n` bytes.
#[inline(never)]
pub fn truncate(
    part: &[u8],
    media: &[u8],
    sizes: &[u32],
    frames: &mut [u8],
    state: &mut [u8],
    file: usize,
    n: usize,
) -> u32 {
    match admit(part, media, sizes, frames, state) {
        Ok(_) => crate::truncate(media, sizes, frames, state, file, n),
        Err(refused) => refused,
    }
}

/// Counts the bytes up to the end of a page or of the file.
#[inline(never)]
pub fn look_count(
    part: &[u8],
    media: &[u8],
    sizes: &[u32],
    frames: &[u8],
    state: &[u8],
    file: usize,
    position: usize,
) -> u32 {
    match admit(part, media, sizes, frames, state) {
        Ok(_) => crate::look_count(media, sizes, frames, state, file, position),
        Err(refused) => refused,
    }
}

/// Tells where the bytes up to the end of a page lie.
#[inline(never)]
pub fn look(
    part: &[u8],
    media: &[u8],
    sizes: &[u32],
    frames: &[u8],
    state: &[u8],
    file: usize,
    position: usize,
) -> u64 {
    match admit(part, media, sizes, frames, state) {
        Ok(_) => crate::look(media, sizes, frames, state, file, position),
        Err(_) => 0,
    }
}

/// Stores a file, in its order of programs and erases.
#[inline(never)]
pub fn sync(
    part: &mut [u8],
    media: &mut [u8],
    sizes: &mut [u32],
    frames: &[u8],
    state: &mut [u8],
    file: usize,
    budget: usize,
) -> u32 {
    let log = match admit(part, media, sizes, frames, state) {
        Ok(log) => log,
        Err(refused) => return refused,
    };
    let mut slots = Slots::none();
    if let Err(refused) = crate::admit(media, sizes, frames, state, file, &mut slots) {
        return refused;
    }
    let flash = match Flash::new(part, media, sizes, frames, budget) {
        Ok(flash) => flash,
        Err(refused) => return refused,
    };

    let logical = size(state, logical_at(file));
    let floor = size(state, floor_at(file));
    let mut writes = MediaWrites::none();
    if floor < flash.sizes[file] as usize {
        writes.push_trim(&log, flash.part, file, floor);
    }
    for page in 0..PAGES {
        if let Some(slot) = slots.get(file, page) {
            let page = PAGES * file + page;
            writes.push(MediaWrite::Page { page, slot });
        }
    }
    if logical != floor {
        let size = logical;
        writes.push(MediaWrite::Size { file, size });
    }
    let Some(plan) = Plan::new(log, flash.part, frames, writes) else {
        return EXHAUSTED;
    };
    let Some(steps) = plan.make(flash) else {
        state.fill(0);
        return CUT + budget as u32;
    };
    for page in 0..PAGES {
        if let Some(slot) = slots.get(file, page) {
            free_slot(state, slot);
        }
    }
    put_size(state, floor_at(file), logical);
    steps as u32
}

/// Makes the image anew, and trims each file to the size that is told of it, if
/// one is. Leaves the state down.
#[inline(always)]
fn trim_anew(
    part: &mut [u8],
    media: &mut [u8],
    sizes: &mut [u32],
    state: &mut [u8],
    budget: usize,
    trim: impl Fn(&Log, &Part, usize) -> Option<usize>,
) -> Result<usize, u32> {
    if state.len() != STATE_BYTES {
        return Err(SHAPE);
    }
    let flash = Flash::new(part, media, sizes, &[], budget)?;
    let log = Log::find(flash.part).ok_or(DAMAGED)?;
    let mut writes = MediaWrites::none();
    for file in 0..FILES {
        if let Some(size) = trim(&log, flash.part, file) {
            writes.push_trim(&log, flash.part, file, size);
        }
    }
    let plan = Plan::new(log, flash.part, &[], writes).ok_or(EXHAUSTED)?;
    plan.log().replay(flash.part, flash.media, flash.sizes);
    state.fill(0);
    plan.make(flash).ok_or_else(|| CUT + budget as u32)
}

/// Brings the device up.
#[inline(never)]
pub fn mount(
    part: &mut [u8],
    media: &mut [u8],
    sizes: &mut [u32],
    state: &mut [u8],
    budget: usize,
) -> u32 {
    let trimmed = trim_anew(part, media, sizes, state, budget, |log, part, file| {
        let size = log.sizes[file] as usize;
        let past = log.has_bytes(part, file, size, FILE_BYTES);
        past.then_some(size)
    });
    match trimmed {
        Ok(steps) => {
            crate::bring_up(state, sizes);
            steps as u32
        }
        Err(refused) => refused,
    }
}

/// Empties all files.
#[inline(never)]
pub fn format(
    part: &mut [u8],
    media: &mut [u8],
    sizes: &mut [u32],
    state: &mut [u8],
    budget: usize,
) -> u32 {
    let trimmed = trim_anew(part, media, sizes, state, budget, |log, part, file| {
        let some = log.sizes[file] != 0 || log.has_bytes(part, file, 0, FILE_BYTES);
        some.then_some(0)
    });
    match trimmed {
        Ok(steps) => steps as u32,
        Err(refused) => refused,
    }
}
