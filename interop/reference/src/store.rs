//! The store: three media writes, the cache of pages above them, and the calls.
//!
//! Every call works on borrowed buffers: the media bytes, the stored sizes,
//! the frames (the bytes of the cached pages) and the cache state.

/// Number of files.
pub const FILES: usize = 8;
/// Greatest size of a file in bytes.
pub const FILE_MAX: usize = 4096;
/// Bytes in a page.
pub const PAGE: usize = 256;
/// Pages in a file.
pub const PAGES: usize = FILE_MAX / PAGE;
/// Pages the cache can hold, over all files together.
pub const SLOTS: usize = 24;
/// Length of the media in bytes.
pub const MEDIA_LEN: usize = FILES * FILE_MAX;
/// Length of the frames (document 01: the held bytes).
pub const FRAMES_LEN: usize = SLOTS * PAGE;

/// Why a call was turned down, in the order in which the reasons are checked.
#[derive(Clone, Copy, Debug, PartialEq, Eq, Hash)]
pub enum Refusal {
    /// LINE: the session line has none of the forms.
    Line,
    /// SHAPE: a lent slice has the wrong length.
    Shape,
    /// MEDIA: a stored size is above 4,096.
    Media,
    /// 12 of document 02: the append-only part is damaged, or its image differs
    /// from it.
    Damaged,
    /// BOOKS: the cache state is not sound.
    Books,
    /// DOWN: the store is not mounted.
    Down,
    /// NO FILE: the file number is above 7.
    NoFile,
    /// RANGE: a position, end or size is above 4,096.
    Range,
    /// NO ROOM: the first page of a write is not cached and the cache is full.
    NoRoom,
    /// 13 of document 02: the call needs a record number above the greatest.
    Exhausted,
    /// CUT: the budget ran out after this many media writes; on an append-only
    /// part, after this many steps.
    Cut(usize),
    /// TRIP FORM: a line of a trip list lacks the form.
    TripForm,
    /// TRIP ORDER: the minute of a trip is not above the one before.
    TripOrder,
    /// TRIP CONFLICT: two lists have different trips of the same minute.
    TripConflict,
    /// TRIPS TOO LONG: two lists joined have more than 4,096 bytes.
    TripsTooLong,
}

impl Refusal {
    /// The number of the refusal, 1 to 9 in document 01, those from 10 on in
    /// document 02.
    pub fn number(self) -> u8 {
        match self {
            Refusal::Line => 1,
            Refusal::Shape => 2,
            Refusal::Media => 3,
            Refusal::Books => 4,
            Refusal::Down => 5,
            Refusal::NoFile => 6,
            Refusal::Range => 7,
            Refusal::NoRoom => 8,
            Refusal::Cut(_) => 9,
            Refusal::TripForm => 10,
            Refusal::TripOrder => 11,
            Refusal::Damaged => 12,
            Refusal::Exhausted => 13,
            Refusal::TripConflict => 17,
            Refusal::TripsTooLong => 18,
        }
    }
}

/// What a call answers.
#[derive(Clone, Copy, Debug, PartialEq, Eq, Hash)]
pub enum Answer {
    /// The call did its work; the count is bytes or media writes.
    Done(usize),
    /// The call was turned down.
    Refused(Refusal),
}

impl Answer {
    /// 0 for done, else the number of the refusal.
    pub fn number(self) -> u8 {
        match self {
            Answer::Done(_) => 0,
            Answer::Refused(refusal) => refusal.number(),
        }
    }

    /// The count: 0 for every refusal but CUT.
    pub fn count(self) -> usize {
        match self {
            Answer::Done(count) | Answer::Refused(Refusal::Cut(count)) => count,
            Answer::Refused(_) => 0,
        }
    }

    /// The count of a call that was done.
    pub fn done(self) -> Option<usize> {
        match self {
            Answer::Done(count) => Some(count),
            Answer::Refused(_) => None,
        }
    }
}

// ---------------------------------------------------------------------------
// Media writes (document 01: stores)

/// PAGE: replaces the bytes of one page.
pub fn store_page(page: &mut [u8], bytes: &[u8]) -> Result<(), Refusal> {
    if page.len() != PAGE || bytes.len() != PAGE {
        return Err(Refusal::Shape);
    }
    page.copy_from_slice(bytes);
    Ok(())
}

/// SIZE: replaces the stored size of one file.
pub fn store_size(sizes: &mut [u32], file: usize, size: usize) -> Result<(), Refusal> {
    if sizes.len() != FILES {
        return Err(Refusal::Shape);
    }
    if file >= FILES {
        return Err(Refusal::NoFile);
    }
    if size > FILE_MAX {
        return Err(Refusal::Range);
    }
    sizes[file] = size as u32;
    Ok(())
}

/// TRIM: zeroes the bytes of one file from `size` on, and stores `size`, which
/// may not be above the stored size.
pub fn trim(media: &mut [u8], sizes: &mut [u32], file: usize, size: usize) -> Result<(), Refusal> {
    if media.len() != MEDIA_LEN || sizes.len() != FILES {
        return Err(Refusal::Shape);
    }
    if file >= FILES {
        return Err(Refusal::NoFile);
    }
    if size > FILE_MAX || size > sizes[file] as usize {
        return Err(Refusal::Range);
    }
    media[file * FILE_MAX + size..(file + 1) * FILE_MAX].fill(0);
    sizes[file] = size as u32;
    Ok(())
}

// ---------------------------------------------------------------------------
// Cache state

/// One place in the cache for a page.
#[derive(Clone, Copy, Debug, PartialEq, Eq)]
pub struct Slot {
    /// Whether the slot holds a page.
    pub used: bool,
    /// The file of the page; 0 in a free slot.
    pub file: usize,
    /// The number of the page in its file; 0 in a free slot.
    pub page: usize,
}

impl Slot {
    /// A slot that holds no page.
    pub const FREE: Slot = Slot {
        used: false,
        file: 0,
        page: 0,
    };
}

/// The cache state (document 01: the books).
#[derive(Clone, Copy, Debug, PartialEq, Eq)]
pub struct CacheState {
    /// 1 when mounted, 0 when down (document 01: the up mark).
    pub mounted: u8,
    /// The slots; slot k has the frame bytes from 256 × k on.
    pub slots: [Slot; SLOTS],
    /// The size of each file as its users see it (document 01: live size).
    pub logical: [usize; FILES],
    /// The smallest of the stored size and all truncates since the last sync
    /// or mount (document 01: cut size). Media bytes from here on are stale.
    pub floor: [usize; FILES],
}

impl CacheState {
    /// The state of a store that is not mounted (document 01: the down books).
    pub const DOWN: CacheState = CacheState {
        mounted: 0,
        slots: [Slot::FREE; SLOTS],
        logical: [0; FILES],
        floor: [0; FILES],
    };

    /// Whether the state is sound beside these stored sizes.
    pub fn is_sound(&self, sizes: &[u32]) -> bool {
        let mut seen = [[false; PAGES]; FILES];
        for slot in &self.slots {
            if slot.used {
                if slot.file >= FILES || slot.page >= PAGES || seen[slot.file][slot.page] {
                    return false;
                }
                seen[slot.file][slot.page] = true;
            } else if *slot != Slot::FREE {
                return false;
            }
        }
        if sizes.len() != FILES || !(0..FILES).all(|f| self.sizes(sizes, f).is_sound(FILE_MAX)) {
            return false;
        }
        match self.mounted {
            0 => *self == CacheState::DOWN,
            1 => true,
            _ => false,
        }
    }

    /// The slot that holds a page, if one does.
    pub fn slot_of(&self, file: usize, page: usize) -> Option<usize> {
        let wanted = Slot {
            used: true,
            file,
            page,
        };
        self.slots.iter().position(|slot| *slot == wanted)
    }

    /// A sync of a file was done: its pages are free and nothing is pending.
    pub(crate) fn synced(&mut self, file: usize) {
        for slot in &mut self.slots {
            if slot.used && slot.file == file {
                *slot = Slot::FREE;
            }
        }
        self.floor[file] = self.logical[file];
    }

    /// The first free slot.
    fn free_slot(&self) -> Option<usize> {
        self.slots.iter().position(|slot| !slot.used)
    }

    /// The size record of one file.
    pub(crate) fn sizes(&self, sizes: &[u32], file: usize) -> FileSizes {
        FileSizes {
            logical: self.logical[file],
            floor: self.floor[file],
            stored: sizes[file] as usize,
        }
    }
}

/// The three sizes of one file.
#[derive(Clone, Copy, Debug, PartialEq, Eq)]
pub struct FileSizes {
    /// The size as users see it (document 01: live size).
    pub logical: usize,
    /// The smallest pending size (document 01: cut size).
    pub floor: usize,
    /// The size on the media (document 01: stored size).
    pub stored: usize,
}

impl FileSizes {
    fn is_sound(&self, max: usize) -> bool {
        self.floor <= self.logical && self.logical <= max && self.floor <= self.stored
    }
}

/// The truncate rule on a size record: BOOKS for an unsound record, RANGE for
/// a size above `max`, and the record altered only if neither applies.
pub fn truncate_sizes(sizes: &mut FileSizes, size: usize, max: usize) -> Answer {
    if !sizes.is_sound(max) {
        return Answer::Refused(Refusal::Books);
    }
    if size > max {
        return Answer::Refused(Refusal::Range);
    }
    sizes.floor = sizes.floor.min(size);
    sizes.logical = size;
    Answer::Done(0)
}

// ---------------------------------------------------------------------------
// Checks shared by the calls

fn check_shape(media: &[u8], sizes: &[u32]) -> Result<(), Refusal> {
    if media.len() != MEDIA_LEN || sizes.len() != FILES {
        return Err(Refusal::Shape);
    }
    Ok(())
}

pub(crate) fn check_stored(sizes: &[u32]) -> Result<(), Refusal> {
    if sizes.iter().any(|&size| size as usize > FILE_MAX) {
        return Err(Refusal::Media);
    }
    Ok(())
}

/// The checks of a call on one file of a mounted store: SHAPE to NO FILE.
pub(crate) fn admit(
    media: &[u8],
    sizes: &[u32],
    frames: &[u8],
    state: &CacheState,
    file: usize,
) -> Result<(), Refusal> {
    check_shape(media, sizes)?;
    if frames.len() != FRAMES_LEN {
        return Err(Refusal::Shape);
    }
    check_stored(sizes)?;
    if !state.is_sound(sizes) {
        return Err(Refusal::Books);
    }
    if state.mounted == 0 {
        return Err(Refusal::Down);
    }
    if file >= FILES {
        return Err(Refusal::NoFile);
    }
    Ok(())
}

/// RANGE unless `position + length` is at most 4,096.
fn check_range(position: usize, length: usize) -> Result<(), Refusal> {
    match position.checked_add(length) {
        Some(end) if end <= FILE_MAX => Ok(()),
        _ => Err(Refusal::Range),
    }
}

// ---------------------------------------------------------------------------
// Calls on a mounted store

/// The live bytes of one page: its frame if it is cached, else the media below
/// the floor and zeros from there on.
fn live_page(
    media: &[u8],
    frames: &[u8],
    state: &CacheState,
    file: usize,
    page: usize,
) -> [u8; PAGE] {
    let mut bytes = [0; PAGE];
    if let Some(slot) = state.slot_of(file, page) {
        bytes.copy_from_slice(&frames[slot * PAGE..(slot + 1) * PAGE]);
    } else {
        let valid = state.floor[file].saturating_sub(page * PAGE).min(PAGE);
        let start = file * FILE_MAX + page * PAGE;
        bytes[..valid].copy_from_slice(&media[start..start + valid]);
    }
    bytes
}

/// Read: copies live bytes into the front of `buffer` and answers how many.
pub fn read(
    media: &[u8],
    sizes: &[u32],
    frames: &[u8],
    state: &CacheState,
    file: usize,
    position: usize,
    buffer: &mut [u8],
) -> Answer {
    let admitted = admit(media, sizes, frames, state, file).and_then(|()| check_range(position, 0));
    if let Err(refusal) = admitted {
        return Answer::Refused(refusal);
    }
    let available = state.logical[file].saturating_sub(position);
    let count = available.min(buffer.len());
    let mut done = 0;
    while done < count {
        let (page, offset) = ((position + done) / PAGE, (position + done) % PAGE);
        let piece = (PAGE - offset).min(count - done);
        let bytes = live_page(media, frames, state, file, page);
        buffer[done..done + piece].copy_from_slice(&bytes[offset..offset + piece]);
        done += piece;
    }
    Answer::Done(count)
}

/// Write: puts bytes into cached pages in ascending order, taking free slots
/// for pages not cached, and answers how many bytes it put down.
pub fn write(
    media: &[u8],
    sizes: &[u32],
    frames: &mut [u8],
    state: &mut CacheState,
    file: usize,
    position: usize,
    bytes: &[u8],
) -> Answer {
    let admitted =
        admit(media, sizes, frames, state, file).and_then(|()| check_range(position, bytes.len()));
    if let Err(refusal) = admitted {
        return Answer::Refused(refusal);
    }
    if bytes.is_empty() {
        return Answer::Done(0);
    }
    let mut done = 0;
    while done < bytes.len() {
        let (page, offset) = ((position + done) / PAGE, (position + done) % PAGE);
        let Some(slot) = cache_page(media, frames, state, file, page) else {
            break;
        };
        let piece = (PAGE - offset).min(bytes.len() - done);
        let start = slot * PAGE + offset;
        frames[start..start + piece].copy_from_slice(&bytes[done..done + piece]);
        done += piece;
    }
    if done == 0 {
        return Answer::Refused(Refusal::NoRoom);
    }
    state.logical[file] = state.logical[file].max(position + done);
    Answer::Done(done)
}

/// The slot that holds a page, after filling a free one with the page's live
/// bytes if none did; nothing if the cache is full.
fn cache_page(
    media: &[u8],
    frames: &mut [u8],
    state: &mut CacheState,
    file: usize,
    page: usize,
) -> Option<usize> {
    if let Some(slot) = state.slot_of(file, page) {
        return Some(slot);
    }
    let slot = state.free_slot()?;
    let bytes = live_page(media, frames, state, file, page);
    frames[slot * PAGE..(slot + 1) * PAGE].copy_from_slice(&bytes);
    state.slots[slot] = Slot {
        used: true,
        file,
        page,
    };
    Some(slot)
}

/// Truncate: cuts a file, or extends it with zeros, to `size` bytes.
pub fn truncate(
    media: &[u8],
    sizes: &[u32],
    frames: &mut [u8],
    state: &mut CacheState,
    file: usize,
    size: usize,
) -> Answer {
    if let Err(refusal) = admit(media, sizes, frames, state, file) {
        return Answer::Refused(refusal);
    }
    let mut record = state.sizes(sizes, file);
    let answer = truncate_sizes(&mut record, size, FILE_MAX);
    if answer != Answer::Done(0) {
        return answer;
    }
    state.logical[file] = record.logical;
    state.floor[file] = record.floor;
    for (index, slot) in state.slots.iter_mut().enumerate() {
        if !slot.used || slot.file != file {
            continue;
        }
        let start = slot.page * PAGE;
        if start >= size {
            *slot = Slot::FREE;
        } else if size < start + PAGE {
            frames[index * PAGE + (size - start)..(index + 1) * PAGE].fill(0);
        }
    }
    answer
}

/// One media write that a sync has to make.
#[derive(Clone, Copy)]
pub(crate) enum MediaWrite {
    Trim { size: usize },
    Page { page: usize, slot: usize },
    Size { size: usize },
}

/// The media writes of a sync, in order.
pub(crate) fn sync_plan(sizes: FileSizes, state: &CacheState, file: usize) -> Vec<MediaWrite> {
    let mut plan = Vec::with_capacity(PAGES + 2);
    if sizes.floor < sizes.stored {
        plan.push(MediaWrite::Trim { size: sizes.floor });
    }
    for page in 0..PAGES {
        if let Some(slot) = state.slot_of(file, page) {
            plan.push(MediaWrite::Page { page, slot });
        }
    }
    if sizes.logical != sizes.floor {
        plan.push(MediaWrite::Size {
            size: sizes.logical,
        });
    }
    plan
}

/// Sync: brings the media up to date with one file, in at most `budget`
/// (document 01: grant) media writes, and answers how many it made.
pub fn sync(
    media: &mut [u8],
    sizes: &mut [u32],
    frames: &[u8],
    state: &mut CacheState,
    file: usize,
    budget: usize,
) -> Answer {
    if let Err(refusal) = admit(media, sizes, frames, state, file) {
        return Answer::Refused(refusal);
    }
    let plan = sync_plan(state.sizes(sizes, file), state, file);
    for write in plan.iter().take(budget) {
        let stored = match *write {
            MediaWrite::Trim { size } => trim(media, sizes, file, size),
            MediaWrite::Page { page, slot } => {
                let start = file * FILE_MAX + page * PAGE;
                store_page(
                    &mut media[start..start + PAGE],
                    &frames[slot * PAGE..(slot + 1) * PAGE],
                )
            }
            MediaWrite::Size { size } => store_size(sizes, file, size),
        };
        assert!(stored.is_ok());
    }
    if budget < plan.len() {
        *state = CacheState::DOWN;
        return Answer::Refused(Refusal::Cut(budget));
    }
    state.synced(file);
    Answer::Done(plan.len())
}

/// Look: the live bytes from `position` to the end of its page, as a part of
/// the frames or of the media. Empty on a refusal, past the logical size, and
/// where the bytes are zeros that no buffer has.
pub fn look<'a>(
    media: &'a [u8],
    sizes: &[u32],
    frames: &'a [u8],
    state: &CacheState,
    file: usize,
    position: usize,
) -> &'a [u8] {
    let Answer::Done(count @ 1..) = look_count(media, sizes, frames, state, file, position) else {
        return &[];
    };
    let (page, offset) = (position / PAGE, position % PAGE);
    if let Some(slot) = state.slot_of(file, page) {
        let start = slot * PAGE + offset;
        &frames[start..start + count]
    } else {
        let start = file * FILE_MAX + position;
        let valid = state.floor[file].saturating_sub(position);
        &media[start..start + count.min(valid)]
    }
}

/// The count call of look: the refusal, or the number of live bytes from
/// `position` to the end of its page or the logical size, the nearer.
pub fn look_count(
    media: &[u8],
    sizes: &[u32],
    frames: &[u8],
    state: &CacheState,
    file: usize,
    position: usize,
) -> Answer {
    let admitted = admit(media, sizes, frames, state, file).and_then(|()| check_range(position, 0));
    if let Err(refusal) = admitted {
        return Answer::Refused(refusal);
    }
    let end = ((position / PAGE + 1) * PAGE).min(state.logical[file]);
    Answer::Done(end.saturating_sub(position))
}

// ---------------------------------------------------------------------------
// Mount and format

fn has_nonzero(bytes: &[u8]) -> bool {
    bytes
        .chunks(PAGE)
        .any(|chunk| chunk.iter().fold(0, |all, byte| all | byte) != 0)
}

/// Trims each of the planned files to its planned size, as far as the budget
/// goes. The state becomes `after` if it went all the way, else down.
fn trim_all(
    media: &mut [u8],
    sizes: &mut [u32],
    state: &mut CacheState,
    plan: &[(usize, usize)],
    budget: usize,
    after: CacheState,
) -> Answer {
    for &(file, size) in plan.iter().take(budget) {
        let stored = trim(media, sizes, file, size);
        assert!(stored.is_ok());
    }
    if budget < plan.len() {
        *state = CacheState::DOWN;
        return Answer::Refused(Refusal::Cut(budget));
    }
    *state = after;
    Answer::Done(plan.len())
}

/// The trims of a mount, as file and size: of each file with nonzero bytes past
/// its stored size.
pub(crate) fn mount_plan(media: &[u8], sizes: &[u32]) -> Vec<(usize, usize)> {
    (0..FILES)
        .map(|file| (file, sizes[file] as usize))
        .filter(|&(file, size)| has_nonzero(&media[file * FILE_MAX + size..(file + 1) * FILE_MAX]))
        .collect()
}

/// The trims of a format: of each file that is not empty and zero.
pub(crate) fn format_plan(media: &[u8], sizes: &[u32]) -> Vec<(usize, usize)> {
    (0..FILES)
        .filter(|&file| {
            sizes[file] != 0 || has_nonzero(&media[file * FILE_MAX..(file + 1) * FILE_MAX])
        })
        .map(|file| (file, 0))
        .collect()
}

/// The state after a mount, beside these stored sizes.
pub(crate) fn mounted_state(sizes: &[u32]) -> CacheState {
    let stored = std::array::from_fn(|file| sizes[file] as usize);
    CacheState {
        mounted: 1,
        logical: stored,
        floor: stored,
        ..CacheState::DOWN
    }
}

/// Mount: trims each file with nonzero bytes past its stored size, and brings
/// the store up with nothing cached. The state before it is not looked at.
pub fn mount(media: &mut [u8], sizes: &mut [u32], state: &mut CacheState, budget: usize) -> Answer {
    if let Err(refusal) = check_shape(media, sizes).and_then(|()| check_stored(sizes)) {
        return Answer::Refused(refusal);
    }
    let plan = mount_plan(media, sizes);
    let mounted = mounted_state(sizes);
    trim_all(media, sizes, state, &plan, budget, mounted)
}

/// Format: trims each file that is not empty and zero to nothing, and leaves
/// the store down.
pub fn format(
    media: &mut [u8],
    sizes: &mut [u32],
    state: &mut CacheState,
    budget: usize,
) -> Answer {
    if let Err(refusal) = check_shape(media, sizes) {
        return Answer::Refused(refusal);
    }
    let plan = format_plan(media, sizes);
    trim_all(media, sizes, state, &plan, budget, CacheState::DOWN)
}
