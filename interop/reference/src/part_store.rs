//! The calls of a store on an append-only part. The media and the stored sizes
//! are the image of the part; the rest is as in [`crate::store`].

use crate::part::{Geometry, Image, Part, Write};
use crate::store::{
    self, Answer, CacheState, MediaWrite, Refusal, FILES, FRAMES_LEN, MEDIA_LEN, PAGE,
};

/// The part beside media of 32,768 bytes.
pub const GEOMETRY: Geometry = Geometry::SHORT;
/// Length of the part in bytes.
pub const PART_LEN: usize = GEOMETRY.part_len();

fn check_shape(part: &[u8], media: &[u8], sizes: &[u32]) -> Result<(), Refusal> {
    if part.len() != PART_LEN || media.len() != MEDIA_LEN || sizes.len() != FILES {
        return Err(Refusal::Shape);
    }
    Ok(())
}

fn decode(part: &[u8]) -> Result<Part, Refusal> {
    Part::decode(GEOMETRY, part).map_err(|_| Refusal::Damaged)
}

/// The checks of a call on a file that concern what is lent to it: SHAPE, MEDIA
/// and DAMAGED.
fn admit(part: &[u8], media: &[u8], sizes: &[u32], frames: &[u8]) -> Result<Part, Refusal> {
    check_shape(part, media, sizes)?;
    if frames.len() != FRAMES_LEN {
        return Err(Refusal::Shape);
    }
    store::check_stored(sizes)?;
    let part = decode(part)?;
    let image = part.replay();
    if image.media != media || image.sizes != sizes {
        return Err(Refusal::Damaged);
    }
    Ok(part)
}

/// Read; see [`store::read`].
#[allow(clippy::too_many_arguments)]
pub fn read(
    part: &[u8],
    media: &[u8],
    sizes: &[u32],
    frames: &[u8],
    state: &CacheState,
    file: usize,
    position: usize,
    buffer: &mut [u8],
) -> Answer {
    match admit(part, media, sizes, frames) {
        Ok(_) => store::read(media, sizes, frames, state, file, position, buffer),
        Err(refusal) => Answer::Refused(refusal),
    }
}

/// Look; see [`store::look`]. Its bytes are a part of the frames or of the
/// image.
pub fn look<'a>(
    part: &[u8],
    media: &'a [u8],
    sizes: &[u32],
    frames: &'a [u8],
    state: &CacheState,
    file: usize,
    position: usize,
) -> &'a [u8] {
    match admit(part, media, sizes, frames) {
        Ok(_) => store::look(media, sizes, frames, state, file, position),
        Err(_) => &[],
    }
}

/// The count call of look; see [`store::look_count`].
pub fn look_count(
    part: &[u8],
    media: &[u8],
    sizes: &[u32],
    frames: &[u8],
    state: &CacheState,
    file: usize,
    position: usize,
) -> Answer {
    match admit(part, media, sizes, frames) {
        Ok(_) => store::look_count(media, sizes, frames, state, file, position),
        Err(refusal) => Answer::Refused(refusal),
    }
}

/// Write; see [`store::write`].
#[allow(clippy::too_many_arguments)]
pub fn write(
    part: &[u8],
    media: &[u8],
    sizes: &[u32],
    frames: &mut [u8],
    state: &mut CacheState,
    file: usize,
    position: usize,
    bytes: &[u8],
) -> Answer {
    match admit(part, media, sizes, frames) {
        Ok(_) => store::write(media, sizes, frames, state, file, position, bytes),
        Err(refusal) => Answer::Refused(refusal),
    }
}

/// Truncate; see [`store::truncate`].
pub fn truncate(
    part: &[u8],
    media: &[u8],
    sizes: &[u32],
    frames: &mut [u8],
    state: &mut CacheState,
    file: usize,
    size: usize,
) -> Answer {
    match admit(part, media, sizes, frames) {
        Ok(_) => store::truncate(media, sizes, frames, state, file, size),
        Err(refusal) => Answer::Refused(refusal),
    }
}

/// Sync: as [`store::sync`], each media write a record of the part. The budget
/// and the count are steps.
pub fn sync(
    part: &mut [u8],
    media: &mut [u8],
    sizes: &mut [u32],
    frames: &[u8],
    state: &mut CacheState,
    file: usize,
    budget: usize,
) -> Answer {
    let admitted = admit(part, media, sizes, frames).and_then(|decoded| {
        store::admit(media, sizes, frames, state, file)?;
        Ok(decoded)
    });
    let decoded = match admitted {
        Ok(decoded) => decoded,
        Err(refusal) => return Answer::Refused(refusal),
    };
    let plan = store::sync_plan(state.sizes(sizes, file), state, file);
    let writes: Vec<(usize, Write)> = plan
        .into_iter()
        .map(|write| (file, sync_write(write, frames)))
        .collect();
    let mut synced = *state;
    synced.synced(file);
    append(part, media, sizes, state, decoded, &writes, budget, synced)
}

fn sync_write(write: MediaWrite, frames: &[u8]) -> Write {
    match write {
        MediaWrite::Trim { size } => Write::Trim { size },
        MediaWrite::Size { size } => Write::Size { size },
        MediaWrite::Page { page, slot } => {
            let mut bytes = Box::new([0; PAGE]);
            bytes.copy_from_slice(&frames[slot * PAGE..(slot + 1) * PAGE]);
            Write::Page { page, bytes }
        }
    }
}

/// Mount: replays the part into the image, and goes on as [`store::mount`].
pub fn mount(
    part: &mut [u8],
    media: &mut [u8],
    sizes: &mut [u32],
    state: &mut CacheState,
    budget: usize,
) -> Answer {
    let decoded = match check_shape(part, media, sizes).and_then(|()| decode(part)) {
        Ok(decoded) => decoded,
        Err(refusal) => return Answer::Refused(refusal),
    };
    let image = decoded.replay();
    let trims = trims(store::mount_plan(&image.media, &image.sizes));
    let after = store::mounted_state(&image.sizes);
    append(part, media, sizes, state, decoded, &trims, budget, after)
}

/// Format: replays the part into the image, and goes on as [`store::format`].
pub fn format(
    part: &mut [u8],
    media: &mut [u8],
    sizes: &mut [u32],
    state: &mut CacheState,
    budget: usize,
) -> Answer {
    let decoded = match check_shape(part, media, sizes).and_then(|()| decode(part)) {
        Ok(decoded) => decoded,
        Err(refusal) => return Answer::Refused(refusal),
    };
    let image = decoded.replay();
    let trims = trims(store::format_plan(&image.media, &image.sizes));
    let after = CacheState::DOWN;
    append(part, media, sizes, state, decoded, &trims, budget, after)
}

fn trims(plan: Vec<(usize, usize)>) -> Vec<(usize, Write)> {
    plan.into_iter()
        .map(|(file, size)| (file, Write::Trim { size }))
        .collect()
}

/// Appends media writes as far as the budget goes, and makes the image anew. The
/// state becomes `after` if it went all the way, else down.
#[allow(clippy::too_many_arguments)]
fn append(
    part: &mut [u8],
    media: &mut [u8],
    sizes: &mut [u32],
    state: &mut CacheState,
    decoded: Part,
    writes: &[(usize, Write)],
    budget: usize,
    after: CacheState,
) -> Answer {
    let steps = match decoded.steps(writes) {
        Ok(steps) => steps,
        Err(refusal) => return Answer::Refused(refusal),
    };
    for step in steps.iter().take(budget) {
        step.apply(part);
    }
    let left = decode(part).expect("steps do no damage");
    let Image {
        media: new_media,
        sizes: new_sizes,
    } = left.replay();
    media.copy_from_slice(&new_media);
    sizes.copy_from_slice(&new_sizes);
    if budget < steps.len() {
        *state = CacheState::DOWN;
        return Answer::Refused(Refusal::Cut(budget));
    }
    *state = after;
    Answer::Done(steps.len())
}
