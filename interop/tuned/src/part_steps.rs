//! Media writes as the programs and erases of an append-only part.

use layout::{
    BLANK, BLOCK_BYTES, BLOCK_RECORDS, FILES, FILE_BYTES, KIND_PAGE, KIND_SIZE, KIND_TRIM,
    MOST_VALID, PAGES, PAGE_BYTES, PART_BLOCKS, RECORD_BYTES, RECORD_PAGE, SYNC_WRITES,
};

use crate::part_log::{header, is_zero, Log, Media, Part, ALL_PAGES};
use crate::SHAPE;

/// A media write.
#[derive(Clone, Copy)]
pub enum MediaWrite {
    /// A page, from a slot.
    Page { page: usize, slot: usize },
    /// A stored size.
    Size { file: usize, size: usize },
    /// A trim, and whether the page that it falls inside keeps a byte that is
    /// not 0.
    Trim {
        file: usize,
        size: usize,
        keeps: bool,
    },
}

/// The media writes of a call, in order.
pub struct MediaWrites {
    list: [MediaWrite; SYNC_WRITES],
    count: usize,
}

impl MediaWrites {
    /// None.
    #[inline(always)]
    pub fn none() -> MediaWrites {
        MediaWrites {
            list: [MediaWrite::Size { file: 0, size: 0 }; SYNC_WRITES],
            count: 0,
        }
    }

    /// Adds one.
    #[inline(always)]
    pub fn push(&mut self, write: MediaWrite) {
        self.list[self.count] = write;
        self.count += 1;
    }

    /// Adds a trim of what the records of a part make.
    #[inline(always)]
    pub fn push_trim(&mut self, log: &Log, part: &Part, file: usize, size: usize) {
        let page = size / PAGE_BYTES * PAGE_BYTES;
        self.push(MediaWrite::Trim {
            file,
            size,
            keeps: log.has_bytes(part, file, page, size),
        });
    }

    #[inline(always)]
    fn all(&self) -> &[MediaWrite] {
        &self.list[..self.count]
    }
}

/// The bytes of a record after its header.
#[derive(Clone, Copy)]
enum Payload {
    Zeros,
    /// A page of the image.
    Image(usize),
    /// The frame of a slot.
    Frame(usize),
}

/// Where steps are made. They answer false where the budget does not pay.
trait Steps {
    fn program(&mut self, record: usize, header: u64, payload: Payload) -> bool;
    fn erase(&mut self, block: usize) -> bool;
    /// A media write is programmed: brings the image along.
    fn written(&mut self, write: MediaWrite);
}

/// A part and its image, which change.
pub struct Flash<'a> {
    /// The part.
    pub part: &'a mut Part,
    /// The bytes of its image.
    pub media: &'a mut Media,
    /// The stored sizes of its image.
    pub sizes: &'a mut [u32; FILES],
    /// What pages are written from.
    frames: &'a [u8],
    /// Steps that are paid for.
    budget: usize,
    /// Steps that were made.
    done: usize,
}

impl<'a> Flash<'a> {
    /// SHAPE where one of them has another length.
    #[inline(always)]
    pub fn new(
        part: &'a mut [u8],
        media: &'a mut [u8],
        sizes: &'a mut [u32],
        frames: &'a [u8],
        budget: usize,
    ) -> Result<Flash<'a>, u32> {
        Ok(Flash {
            part: part.try_into().map_err(|_| SHAPE)?,
            media: media.try_into().map_err(|_| SHAPE)?,
            sizes: sizes.try_into().map_err(|_| SHAPE)?,
            frames,
            budget,
            done: 0,
        })
    }

    #[inline(always)]
    fn pays(&mut self) -> bool {
        let pays = self.done < self.budget;
        self.done += usize::from(pays);
        pays
    }
}

#[inline(always)]
fn page_of(bytes: &[u8], page: usize) -> &[u8] {
    &bytes[PAGE_BYTES * page..PAGE_BYTES * (page + 1)]
}

impl Steps for Flash<'_> {
    #[inline(always)]
    fn program(&mut self, record: usize, header: u64, payload: Payload) -> bool {
        if !self.pays() {
            return false;
        }
        let bytes = &mut self.part[RECORD_BYTES * record..RECORD_BYTES * (record + 1)];
        bytes[..RECORD_PAGE].copy_from_slice(&header.to_le_bytes());
        let bytes = &mut bytes[RECORD_PAGE..];
        match payload {
            Payload::Zeros => bytes.fill(0),
            Payload::Image(page) => bytes.copy_from_slice(page_of(self.media, page)),
            Payload::Frame(slot) => bytes.copy_from_slice(page_of(self.frames, slot)),
        }
        true
    }

    #[inline(always)]
    fn erase(&mut self, block: usize) -> bool {
        let pays = self.pays();
        if pays {
            self.part[BLOCK_BYTES * block..BLOCK_BYTES * (block + 1)].fill(BLANK);
        }
        pays
    }

    #[inline(always)]
    fn written(&mut self, write: MediaWrite) {
        match write {
            MediaWrite::Page { page, slot } => {
                let frame = page_of(self.frames, slot);
                self.media[PAGE_BYTES * page..PAGE_BYTES * (page + 1)].copy_from_slice(frame);
            }
            MediaWrite::Size { file, size } => self.sizes[file] = size as u32,
            MediaWrite::Trim { file, size, .. } => {
                self.media[FILE_BYTES * file + size..FILE_BYTES * (file + 1)].fill(0);
                self.sizes[file] = size as u32;
            }
        }
    }
}

/// Steps that change nothing.
struct Unmade;

impl Steps for Unmade {
    fn program(&mut self, _: usize, _: u64, _: Payload) -> bool {
        true
    }

    fn erase(&mut self, _: usize) -> bool {
        true
    }

    fn written(&mut self, _: MediaWrite) {}
}

/// The steps of one call.
struct Run<'a, S> {
    log: Log,
    /// Which pages have a byte that is not 0. Unused where nothing is collected.
    full: [bool; ALL_PAGES],
    frames: &'a [u8],
    steps: S,
}

impl<S: Steps> Run<'_, S> {
    /// Makes all steps, or those that are paid for.
    #[inline(always)]
    fn make(&mut self, writes: &MediaWrites) -> bool {
        writes.all().iter().all(|&write| {
            while self.log.blank() <= BLOCK_RECORDS {
                if !self.collect() {
                    return false;
                }
            }
            self.write(write)
        })
    }

    #[inline(always)]
    fn write(&mut self, write: MediaWrite) -> bool {
        let made = match write {
            MediaWrite::Page { page, slot } => {
                self.full[page] = !is_zero(page_of(self.frames, slot));
                self.program_page(page, Payload::Frame(slot))
            }
            MediaWrite::Size { file, size } => self.program_size(KIND_SIZE, file, size),
            MediaWrite::Trim { file, size, keeps } => {
                let pages = PAGES * file + size / PAGE_BYTES..PAGES * (file + 1);
                if !pages.is_empty() {
                    self.full[pages.start] = keeps;
                    self.full[pages.start + 1..pages.end].fill(false);
                }
                self.program_size(KIND_TRIM, file, size)
            }
        };
        if made {
            self.steps.written(write);
        }
        made
    }

    #[inline(always)]
    fn program_page(&mut self, page: usize, payload: Payload) -> bool {
        let record = self.log.take_page(page);
        let header = header(self.log.highest, KIND_PAGE, page / PAGES, page % PAGES);
        self.steps.program(record, header, payload)
    }

    #[inline(always)]
    fn program_size(&mut self, kind: u8, file: usize, size: usize) -> bool {
        let record = self.log.take_size(file, size);
        let header = header(self.log.highest, kind, file, size);
        self.steps.program(record, header, Payload::Zeros)
    }

    /// Copies what is valid in the oldest block, and erases it.
    #[inline(never)]
    fn collect(&mut self) -> bool {
        let oldest = self.log.oldest();
        for page in 0..ALL_PAGES {
            if self.full[page]
                && self.log.has_page(oldest, page)
                && !self.program_page(page, Payload::Image(page))
            {
                return false;
            }
        }
        for file in 0..FILES {
            if self.log.has_size(oldest, file) {
                let size = self.log.sizes[file] as usize;
                if !self.program_size(KIND_SIZE, file, size) {
                    return false;
                }
            }
        }
        self.log.drop_oldest();
        self.steps.erase(oldest)
    }
}

/// The pages that are not 0, where some of these writes may collect a block.
#[inline(always)]
fn full_pages(log: &Log, part: &Part, writes: &MediaWrites) -> Option<[bool; ALL_PAGES]> {
    let collects = log.blank() < BLOCK_RECORDS + writes.count;
    collects.then(|| log.full(part))
}

/// What a call programs: media writes, and the pages that are not 0 for the
/// collections before them.
pub struct Plan {
    log: Log,
    full: Option<[bool; ALL_PAGES]>,
    writes: MediaWrites,
}

impl Plan {
    /// None where the numbers do not last.
    #[inline(always)]
    pub fn new(log: Log, part: &Part, frames: &[u8], writes: MediaWrites) -> Option<Plan> {
        let full = full_pages(&log, part, &writes);
        let most = match full {
            Some(_) => writes.count * (MOST_VALID + PART_BLOCKS),
            None => writes.count,
        };
        let left = u64::from(u32::MAX) - log.highest;
        let plan = Plan { log, full, writes };
        let lasts = most as u64 <= left || plan.programs(frames) <= left;
        lasts.then_some(plan)
    }

    /// The records before the call.
    #[inline(always)]
    pub fn log(&self) -> &Log {
        &self.log
    }

    /// The programs of the whole call.
    #[cold]
    fn programs(&self, frames: &[u8]) -> u64 {
        let mut run = Run {
            log: self.log.clone(),
            full: self.full.unwrap_or([false; ALL_PAGES]),
            frames,
            steps: Unmade,
        };
        run.make(&self.writes);
        run.log.highest - self.log.highest
    }

    /// Makes the steps that are paid for. The number of steps, or none where
    /// more were needed.
    #[inline(always)]
    pub fn make(self, flash: Flash<'_>) -> Option<usize> {
        let mut run = Run {
            log: self.log,
            full: self.full.unwrap_or([false; ALL_PAGES]),
            frames: flash.frames,
            steps: flash,
        };
        run.make(&self.writes).then_some(run.steps.done)
    }
}
