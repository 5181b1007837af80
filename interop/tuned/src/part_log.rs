//! The records of an append-only part, read once.

use layout::{
    BLANK, BLOCK_BYTES, BLOCK_RECORDS, FILES, FILE_BYTES, KIND_PAGE, KIND_SIZE, KIND_TRIM,
    MEDIA_BYTES, PAGES, PAGE_BYTES, PART_BLOCKS, PART_BYTES, RECORD_BYTES, RECORD_KIND,
    RECORD_PAGE,
};

/// The bytes of a part.
pub type Part = [u8; PART_BYTES];
/// The bytes of its image.
pub type Media = [u8; MEDIA_BYTES];

/// Pages of all files; page p of file f is at 16 * f + p.
pub const ALL_PAGES: usize = FILES * PAGES;

/// No record.
const NONE: u16 = u16::MAX;

/// What the records of a part amount to. A record is named by its index in the part.
#[derive(Clone)]
pub struct Log {
    /// The blocks that have records, oldest first.
    order: [u8; PART_BLOCKS],
    /// The number of these.
    blocks: usize,
    /// The number of records in the newest of them.
    used: usize,
    /// The highest number, 0 where all records are blank.
    pub highest: u64,
    /// The last PAGE of each page, or [`NONE`].
    pages: [u16; ALL_PAGES],
    /// The smallest TRIM of the file after that PAGE, or the greatest size.
    ends: [u16; ALL_PAGES],
    /// The last SIZE or TRIM of each file, or [`NONE`].
    size_records: [u16; FILES],
    /// The stored sizes.
    pub sizes: [u32; FILES],
}

/// The first bytes of a record.
#[inline(always)]
pub fn header(number: u64, kind: u8, file: usize, field: usize) -> u64 {
    number | u64::from(kind) << 32 | (file as u64) << 40 | (field as u64) << 48
}

#[inline(always)]
fn block_bytes(part: &Part, block: usize) -> &[u8] {
    &part[BLOCK_BYTES * block..BLOCK_BYTES * (block + 1)]
}

/// Whether records are blank. Eight words at a time, in registers.
#[inline(always)]
fn is_blank(records: &[u8]) -> bool {
    let mut all = [u64::MAX; 8];
    let chunks = records.chunks_exact(64);
    let rest = chunks.remainder();
    for chunk in chunks {
        for (all, word) in all.iter_mut().zip(chunk.chunks_exact(8)) {
            *all &= u64::from_le_bytes(word.try_into().expect("eight bytes"));
        }
    }
    all == [u64::MAX; 8] && rest.iter().all(|&byte| byte == BLANK)
}

/// Whether all bytes of a page or less are 0.
#[inline(always)]
pub fn is_zero(bytes: &[u8]) -> bool {
    let zero = |bytes: &[u8]| bytes.iter().fold(0, |all, byte| all | byte) == 0;
    match <&[u8; PAGE_BYTES]>::try_from(bytes) {
        Ok(page) => zero(page),
        Err(_) => zero(bytes),
    }
}

impl Log {
    /// None where the part is damaged.
    ///
    /// The blocks are put in order by the numbers of their first records. The
    /// records are then met from the newest to the oldest: the first PAGE of a
    /// page that is met is its last.
    #[inline(always)]
    pub fn find(part: &Part) -> Option<Log> {
        let mut log = Log {
            order: [0; PART_BLOCKS],
            blocks: 0,
            used: 0,
            highest: 0,
            pages: [NONE; ALL_PAGES],
            ends: [0; ALL_PAGES],
            size_records: [NONE; FILES],
            sizes: [0; FILES],
        };
        let mut firsts = [0; PART_BLOCKS];
        for block in 0..PART_BLOCKS {
            let bytes = block_bytes(part, block);
            if bytes[RECORD_KIND] == BLANK {
                if !is_blank(bytes) {
                    return None;
                }
                continue;
            }
            let first = u32::from_le_bytes(bytes[..4].try_into().expect("four bytes"));
            let mut age = log.blocks;
            while age > 0 && firsts[age - 1] > first {
                firsts[age] = firsts[age - 1];
                log.order[age] = log.order[age - 1];
                age -= 1;
            }
            firsts[age] = first;
            log.order[age] = block as u8;
            log.blocks += 1;
        }
        if log.blocks == 0 {
            return Some(log);
        }

        let newest = block_bytes(part, log.newest());
        log.used = newest
            .chunks_exact(RECORD_BYTES)
            .position(|record| record[RECORD_KIND] == BLANK)
            .unwrap_or(BLOCK_RECORDS);
        if !is_blank(&newest[RECORD_BYTES * log.used..]) {
            return None;
        }

        let mut wrong = false;
        let mut above = 1 << 32;
        let mut trims = [FILE_BYTES as u16; FILES];
        for age in (0..log.blocks).rev() {
            let block = usize::from(log.order[age]);
            let records = if age + 1 == log.blocks {
                log.used
            } else {
                BLOCK_RECORDS
            };
            let bytes = &block_bytes(part, block)[..RECORD_BYTES * records];
            let records = bytes.chunks_exact(RECORD_BYTES).enumerate().rev();
            for (index, record) in records {
                let header = u64::from_le_bytes(record[..8].try_into().expect("eight bytes"));
                let number = header & 0xffff_ffff;
                wrong |= number >= above;
                above = number;
                let index = (BLOCK_RECORDS * block + index) as u16;
                let file = (header >> 40) as usize & 0xff;
                wrong |= file >= FILES;
                let file = file % FILES;
                let field = (header >> 48) as u16;
                let kind = (header >> 32) as u8;
                if kind == KIND_PAGE {
                    let page = usize::from(field);
                    wrong |= page >= PAGES;
                    let page = PAGES * file + page % PAGES;
                    if log.pages[page] == NONE {
                        log.pages[page] = index;
                        log.ends[page] = trims[file];
                    }
                } else {
                    wrong |= kind != KIND_SIZE && kind != KIND_TRIM;
                    wrong |= usize::from(field) > FILE_BYTES;
                    if log.size_records[file] == NONE {
                        log.size_records[file] = index;
                        log.sizes[file] = field.into();
                    }
                    if kind == KIND_TRIM {
                        trims[file] = trims[file].min(field);
                    }
                }
            }
        }
        let newest = RECORD_BYTES * (log.used - 1);
        let newest = &block_bytes(part, log.newest())[newest..newest + 4];
        log.highest = u32::from_le_bytes(newest.try_into().expect("four bytes")).into();
        (!wrong && above != 0 && log.has_spare(part)).then_some(log)
    }

    #[inline(always)]
    fn newest(&self) -> usize {
        self.order[self.blocks - 1].into()
    }

    /// The oldest block that has records.
    #[inline(always)]
    pub fn oldest(&self) -> usize {
        self.order[0].into()
    }

    /// The number of blank records.
    #[inline(always)]
    pub fn blank(&self) -> usize {
        let full = self.blocks.saturating_sub(1);
        BLOCK_RECORDS * (PART_BLOCKS - full) - self.used
    }

    /// Whether as many records are blank as the oldest block has valid. It has
    /// a block of them at most.
    #[inline(always)]
    fn has_spare(&self, part: &Part) -> bool {
        let blank = self.blank();
        blank >= BLOCK_RECORDS || {
            let pages = (0..ALL_PAGES)
                .filter(|&page| self.has_page(self.oldest(), page) && !self.is_zero(part, page));
            let sizes = (0..FILES).filter(|&file| self.has_size(self.oldest(), file));
            blank >= pages.count() + sizes.count()
        }
    }

    /// Whether the last PAGE of a page is in a block.
    #[inline(always)]
    pub fn has_page(&self, block: usize, page: usize) -> bool {
        usize::from(self.pages[page]) / BLOCK_RECORDS == block
    }

    /// Whether a stored size is not 0 and its last SIZE or TRIM is in a block.
    #[inline(always)]
    pub fn has_size(&self, block: usize, file: usize) -> bool {
        self.sizes[file] != 0 && usize::from(self.size_records[file]) / BLOCK_RECORDS == block
    }

    /// The first bytes of a page, up to those that are 0 since it was written, or
    /// never were.
    #[inline(always)]
    fn content<'a>(&self, part: &'a Part, page: usize) -> &'a [u8] {
        let record = usize::from(self.pages[page]);
        if record == usize::from(NONE) {
            return &[];
        }
        let end = usize::from(self.ends[page]);
        let length = end
            .saturating_sub(PAGE_BYTES * (page % PAGES))
            .min(PAGE_BYTES);
        let at = RECORD_BYTES * record + RECORD_PAGE;
        &part[at..at + length]
    }

    #[inline(always)]
    fn is_zero(&self, part: &Part, page: usize) -> bool {
        is_zero(self.content(part, page))
    }

    /// Which pages have a byte that is not 0.
    pub fn full(&self, part: &Part) -> [bool; ALL_PAGES] {
        std::array::from_fn(|page| !self.is_zero(part, page))
    }

    /// Whether a file has a byte that is not 0 from a position to an end.
    pub fn has_bytes(&self, part: &Part, file: usize, from: usize, to: usize) -> bool {
        (from / PAGE_BYTES..to.div_ceil(PAGE_BYTES)).any(|page| {
            let content = self.content(part, PAGES * file + page);
            let start = from.saturating_sub(PAGE_BYTES * page).min(content.len());
            let stop = (to - PAGE_BYTES * page).min(content.len());
            !is_zero(&content[start..stop])
        })
    }

    /// Whether these are the bytes and sizes that the records make.
    #[inline(always)]
    pub fn is_image(&self, part: &Part, media: &Media, sizes: &[u32; FILES]) -> bool {
        self.sizes == *sizes
            && media
                .chunks_exact(PAGE_BYTES)
                .enumerate()
                .all(|(page, bytes)| {
                    let content = self.content(part, page);
                    let (front, rest) = bytes.split_at(content.len());
                    // A call of the C library for no byte takes its time too.
                    (front.is_empty() || front == content) && is_zero(rest)
                })
    }

    /// Makes the bytes and sizes those that the records make.
    #[inline(always)]
    pub fn replay(&self, part: &Part, media: &mut Media, sizes: &mut [u32; FILES]) {
        for (page, bytes) in media.chunks_exact_mut(PAGE_BYTES).enumerate() {
            let content = self.content(part, page);
            let (front, rest) = bytes.split_at_mut(content.len());
            if !front.is_empty() {
                front.copy_from_slice(content);
            }
            if !rest.is_empty() {
                rest.fill(0);
            }
        }
        *sizes = self.sizes;
    }

    /// Takes the next blank record, and the next number.
    #[inline(always)]
    fn take(&mut self) -> usize {
        if self.blocks == 0 || self.used == BLOCK_RECORDS {
            let order = &self.order[..self.blocks];
            let mut blocks = 0..PART_BLOCKS as u8;
            let lowest = blocks.find(|block| !order.contains(block));
            self.order[self.blocks] = lowest.expect("a collection leaves a blank record");
            self.blocks += 1;
            self.used = 0;
        }
        self.used += 1;
        self.highest += 1;
        BLOCK_RECORDS * self.newest() + self.used - 1
    }

    /// Takes a record for a PAGE.
    #[inline(always)]
    pub fn take_page(&mut self, page: usize) -> usize {
        let record = self.take();
        self.pages[page] = record as u16;
        record
    }

    /// Takes a record for a SIZE or a TRIM.
    #[inline(always)]
    pub fn take_size(&mut self, file: usize, size: usize) -> usize {
        let record = self.take();
        self.size_records[file] = record as u16;
        self.sizes[file] = size as u32;
        record
    }

    /// Gives the records of the oldest block back.
    #[inline(always)]
    pub fn drop_oldest(&mut self) {
        self.order.copy_within(1.., 0);
        self.blocks -= 1;
    }
}
