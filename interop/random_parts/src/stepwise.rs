//! A store on a part, put together from the store without one and from the part
//! taken one step at a time: the second of two that are held against each
//! other, beside the reference.
//!
//! It goes through the records from the latest to the first: the latest one that
//! tells a page or a size decides. What a step is depends on the part alone and on
//! the media writes that are left.

use std::collections::VecDeque;
use std::marker::PhantomData;

use layout::{
    BLANK, BLOCK_BYTES, BLOCK_RECORDS, FILES, FILE_BYTES, FRAMES_BYTES, KIND_PAGE, KIND_SIZE,
    KIND_TRIM, MEDIA_BYTES, PAGES, PAGE_BYTES, PART_BLOCKS, PART_BYTES, RECORD_BYTES, RECORD_FIELD,
    RECORD_FILE, RECORD_KIND, RECORD_NUMBER, RECORD_PAGE, STATE_BYTES,
};
use random_calls::{decode, Memory, MemoryMut, MemoryRef, MemoryVec, Reference, Store};

use crate::part_store::PartStore;

/// The bytes of a record.
pub type Record = [u8; RECORD_BYTES];

/// A record of these values.
pub fn record(number: u32, kind: u8, file: usize, field: usize, page: &[u8]) -> Record {
    let mut record = [0; RECORD_BYTES];
    record[RECORD_NUMBER..RECORD_NUMBER + 4].copy_from_slice(&number.to_le_bytes());
    record[RECORD_KIND] = kind;
    record[RECORD_FILE] = file as u8;
    record[RECORD_FIELD..RECORD_FIELD + 2].copy_from_slice(&(field as u16).to_le_bytes());
    record[RECORD_PAGE..RECORD_PAGE + page.len()].copy_from_slice(page);
    record
}

/// The number of a record.
pub fn number(record: &[u8]) -> u32 {
    u32::from_le_bytes(record[..4].try_into().expect("four bytes"))
}

/// The page or size of a record.
pub fn field(record: &[u8]) -> usize {
    usize::from(record[RECORD_FIELD]) + 256 * usize::from(record[RECORD_FIELD + 1])
}

/// The block of the record at this index of a part.
pub fn block_of(index: usize) -> usize {
    index / BLOCK_RECORDS
}

/// The programmed records of a part, with their indices.
pub fn programmed(part: &[u8]) -> impl Iterator<Item = (usize, &[u8])> {
    part.chunks_exact(RECORD_BYTES)
        .enumerate()
        .filter(|(_, record)| !is_blank(record))
}

/// Whether these bytes of a part are blank.
pub fn is_blank(bytes: &[u8]) -> bool {
    static BLANK_BLOCK: [u8; BLOCK_BYTES] = [BLANK; BLOCK_BYTES];
    bytes
        .chunks(BLOCK_BYTES)
        .all(|chunk| *chunk == BLANK_BLOCK[..chunk.len()])
}

/// How many records of a part are blank.
pub fn blank(part: &[u8]) -> usize {
    part.len() / RECORD_BYTES - programmed(part).count()
}

/// The highest number of a part; 0 of a blank one.
pub fn highest(part: &[u8]) -> u32 {
    let numbers = programmed(part).map(|(_, record)| number(record));
    numbers.max().unwrap_or(0)
}

/// The block of the record with the lowest number.
pub fn oldest(part: &[u8]) -> Option<usize> {
    let first = programmed(part).min_by_key(|(_, record)| number(record));
    first.map(|(index, _)| block_of(index))
}

/// The block of the record with the highest number.
pub fn newest(part: &[u8]) -> Option<usize> {
    let last = programmed(part).max_by_key(|(_, record)| number(record));
    last.map(|(index, _)| block_of(index))
}

/// A page or a size that is valid.
pub struct Valid {
    /// The block that it belongs to.
    pub block: usize,
    /// The record that copies it, with the number that it has now.
    pub copy: Record,
}

/// Something done to a part.
pub enum Step {
    /// The record at an index is programmed.
    Program(usize, Box<Record>),
    /// A block is erased.
    Erase(usize),
}

impl Step {
    /// Does it.
    pub fn apply(&self, part: &mut [u8]) {
        match self {
            Step::Program(index, record) => {
                part[index * RECORD_BYTES..(index + 1) * RECORD_BYTES].copy_from_slice(&**record)
            }
            Step::Erase(block) => {
                part[block * BLOCK_BYTES..(block + 1) * BLOCK_BYTES].fill(BLANK);
            }
        }
    }
}

/// What makes a part damaged, and what its steps are. A test of the tests has
/// other values than [`Rules::RIGHT`].
#[derive(Clone, Copy, Debug)]
pub struct Rules {
    /// Whether the second byte of a page or size counts.
    pub both_field_bytes: bool,
    /// Whether a SIZE or TRIM may have a payload that is not 0.
    pub any_payload: bool,
    /// Whether numbers in a block have to rise.
    pub numbers_rise: bool,
    /// Whether a blank record before a programmed one is damage.
    pub no_gaps: bool,
    /// Whether blocks whose numbers overlap are damage.
    pub no_overlap: bool,
    /// Whether a block other than the newest that is partly blank is damage.
    pub full_blocks: bool,
    /// Whether the oldest block needs as many blank records as it has valid.
    pub spare: bool,
    /// Whether the bytes of the image are compared with the part.
    pub image_bytes: bool,
    /// Whether the sizes of the image are compared with the part.
    pub image_sizes: bool,
    /// Whether a TRIM sets a size that grows.
    pub trim_grows: bool,
    /// Whether copies of pages are cut by later TRIMs.
    pub trimmed_copies: bool,
    /// Whether pages of zeros are valid.
    pub zero_pages: bool,
    /// Fewer blank than this before a media write, and the oldest is collected.
    pub least_blank: usize,
    /// Whether each media write collects, and not the first alone.
    pub each_collects: bool,
    /// Whether a call without media writes collects.
    pub idle_collects: bool,
    /// Whether the oldest block is collected, and not the newest.
    pub oldest_first: bool,
    /// Whether sizes are copied after the pages.
    pub sizes_last: bool,
    /// Whether pages are copied by file and page, and not by page and file.
    pub by_file: bool,
    /// The kind of the copy of a size.
    pub size_copy: u8,
    /// Whether a copy has a new number.
    pub new_numbers: bool,
    /// Whether the lowest blank block is taken, and not the highest.
    pub lowest_blank: bool,
    /// Whether copies are asked for numbers that run out, and not the media
    /// writes alone.
    pub copies_need_numbers: bool,
    /// Whether numbers that run out are told before a cut.
    pub exhausted_first: bool,
}

impl Rules {
    /// As document 02 has them.
    pub const RIGHT: Rules = Rules {
        both_field_bytes: true,
        any_payload: true,
        numbers_rise: true,
        no_gaps: true,
        no_overlap: true,
        full_blocks: true,
        spare: true,
        image_bytes: true,
        image_sizes: true,
        trim_grows: true,
        trimmed_copies: true,
        zero_pages: false,
        least_blank: 65,
        each_collects: true,
        idle_collects: false,
        oldest_first: true,
        sizes_last: true,
        by_file: true,
        size_copy: KIND_SIZE,
        new_numbers: true,
        lowest_blank: true,
        copies_need_numbers: true,
        exhausted_first: true,
    };

    fn field(&self, record: &[u8]) -> usize {
        if self.both_field_bytes {
            field(record)
        } else {
            field(record) % 256
        }
    }

    fn is_right(&self, record: &[u8]) -> bool {
        let field = self.field(record);
        let beyond = match record[RECORD_KIND] {
            KIND_PAGE => field >= PAGES,
            KIND_SIZE | KIND_TRIM => {
                let payload = record[RECORD_PAGE..].iter().any(|&byte| byte != 0);
                field > FILE_BYTES || (payload && !self.any_payload)
            }
            _ => true,
        };
        number(record) > 0 && usize::from(record[RECORD_FILE]) < FILES && !beyond
    }

    /// Whether a part has no damage.
    pub fn is_intact(&self, part: &[u8]) -> bool {
        if programmed(part).any(|(_, record)| !self.is_right(record)) {
            return false;
        }
        // first and last number of each block, and how many it has
        let mut ranges: Vec<(u32, u32, usize)> = Vec::new();
        for block in part.chunks(BLOCK_BYTES) {
            let records: Vec<(usize, u32)> = programmed(block)
                .map(|(place, record)| (place, number(record)))
                .collect();
            let Some((last, last_number)) = records.last().copied() else {
                continue;
            };
            if self.no_gaps && last + 1 != records.len() {
                return false;
            }
            if self.numbers_rise && records.windows(2).any(|pair| pair[0].1 >= pair[1].1) {
                return false;
            }
            ranges.push((records[0].1, last_number, records.len()));
        }
        for (index, one) in ranges.iter().enumerate() {
            for two in &ranges[index + 1..] {
                if self.no_overlap && one.0 <= two.1 && two.0 <= one.1 {
                    return false;
                }
            }
            let newer = ranges.iter().any(|other| other.0 > one.0);
            if self.full_blocks && newer && one.2 < BLOCK_RECORDS {
                return false;
            }
        }
        let valid = self.valid(part);
        let oldest = oldest(part);
        let of_oldest = valid.iter().filter(|valid| Some(valid.block) == oldest);
        !self.spare || of_oldest.count() <= blank(part)
    }

    /// What is valid in a part, in the order of its copies: pages by file and page,
    /// then sizes by file.
    pub fn valid(&self, part: &[u8]) -> Vec<Valid> {
        let mut records: Vec<(usize, &[u8])> = programmed(part).collect();
        records.sort_by_key(|(_, record)| number(record));
        let mut pages: Vec<Option<Valid>> = (0..FILES * PAGES).map(|_| None).collect();
        let mut sizes: Vec<Option<Valid>> = (0..FILES).map(|_| None).collect();
        // of each file, where later TRIMs begin to clear
        let mut cleared = [FILE_BYTES; FILES];
        for (index, record) in records.into_iter().rev() {
            let file = usize::from(record[RECORD_FILE]);
            let field = self.field(record);
            let block = block_of(index);
            if record[RECORD_KIND] == KIND_PAGE {
                let kept = cleared[file].saturating_sub(field * PAGE_BYTES);
                let kept = kept.min(PAGE_BYTES);
                let bytes = &record[RECORD_PAGE..RECORD_PAGE + kept];
                let copied = if self.trimmed_copies {
                    bytes
                } else {
                    &record[RECORD_PAGE..]
                };
                let zeros = bytes.iter().all(|&byte| byte == 0);
                let decided = &mut pages[file * PAGES + field];
                if decided.is_none() {
                    let copy = crate::stepwise::record(
                        number(record),
                        if zeros && !self.zero_pages {
                            0
                        } else {
                            KIND_PAGE
                        },
                        file,
                        field,
                        copied,
                    );
                    *decided = Some(Valid { block, copy });
                }
                continue;
            }
            if record[RECORD_KIND] == KIND_TRIM {
                cleared[file] = cleared[file].min(field);
            }
            if sizes[file].is_none() {
                let kind = if field == 0 { 0 } else { self.size_copy };
                let copy = crate::stepwise::record(number(record), kind, file, field, &[]);
                sizes[file] = Some(Valid { block, copy });
            }
        }
        if !self.trim_grows {
            self.keep_sizes(part, &mut sizes);
        }
        if !self.by_file {
            pages.sort_by_key(|page| page.as_ref().map(|page| field(&page.copy)));
        }
        let all: Box<dyn Iterator<Item = Option<Valid>>> = if self.sizes_last {
            Box::new(pages.into_iter().chain(sizes))
        } else {
            Box::new(sizes.into_iter().chain(pages))
        };
        // kind 0 stands for a page or a size that is decided and 0
        all.flatten()
            .filter(|valid| valid.copy[RECORD_KIND] != 0)
            .collect()
    }

    /// The sizes where no TRIM raises one.
    fn keep_sizes(&self, part: &[u8], sizes: &mut [Option<Valid>]) {
        let mut records: Vec<&[u8]> = programmed(part).map(|(_, record)| record).collect();
        records.sort_by_key(|record| number(record));
        let mut kept = [0; FILES];
        for record in records {
            let size = &mut kept[usize::from(record[RECORD_FILE])];
            match record[RECORD_KIND] {
                KIND_SIZE => *size = self.field(record),
                KIND_TRIM => *size = self.field(record).min(*size),
                _ => {}
            }
        }
        for (file, valid) in sizes.iter_mut().enumerate() {
            if let Some(valid) = valid {
                let kind = if kept[file] == 0 { 0 } else { self.size_copy };
                valid.copy = record(number(&valid.copy), kind, file, kept[file], &[]);
            }
        }
    }

    /// The image of a part.
    pub fn image(&self, part: &[u8]) -> (Vec<u8>, Vec<u32>) {
        let (mut media, mut sizes) = (vec![0; MEDIA_BYTES], vec![0; FILES]);
        for Valid { copy, .. } in self.valid(part) {
            let file = usize::from(copy[RECORD_FILE]);
            if copy[RECORD_KIND] == KIND_PAGE {
                let at = file * FILE_BYTES + field(&copy) * PAGE_BYTES;
                media[at..at + PAGE_BYTES].copy_from_slice(&copy[RECORD_PAGE..]);
            } else {
                sizes[file] = field(&copy) as u32;
            }
        }
        (media, sizes)
    }

    /// The next step of appending these media writes, the first of which it takes
    /// where nothing has to be collected before it; nothing where none is left.
    /// `None` inside where the numbers run out.
    fn next(&self, part: &[u8], writes: &mut Writes) -> Option<Option<Step>> {
        let collects = self.each_collects || writes.first;
        if (writes.left.is_empty() && !self.idle_collects) || writes.steps > MOST_STEPS {
            return None;
        }
        writes.steps += 1;
        if blank(part) < self.least_blank && collects {
            let block = if self.oldest_first {
                oldest(part)?
            } else {
                newest(part)?
            };
            let copy = self
                .valid(part)
                .into_iter()
                .find(|valid| valid.block == block);
            return Some(match copy {
                Some(valid) => self.append(part, valid.copy, true),
                None => Some(Step::Erase(block)),
            });
        }
        let write = writes.left.pop_front()?;
        writes.first = false;
        Some(self.append(part, write, false))
    }

    /// Programs a record, to the newest block or else to the lowest blank one.
    fn append(&self, part: &[u8], mut record: Record, is_copy: bool) -> Option<Step> {
        let next = match highest(part).checked_add(1) {
            Some(next) => next,
            None if !self.copies_need_numbers => u32::MAX,
            None => return None,
        };
        let blank_in = |block: usize| {
            let places = block * BLOCK_RECORDS..(block + 1) * BLOCK_RECORDS;
            places
                .into_iter()
                .find(|&index| is_blank(&part[index * RECORD_BYTES..(index + 1) * RECORD_BYTES]))
        };
        let is_blank_block =
            |block: &usize| is_blank(&part[block * BLOCK_BYTES..(block + 1) * BLOCK_BYTES]);
        let index = newest(part).and_then(blank_in).or_else(|| {
            let block = if self.lowest_blank {
                (0..PART_BLOCKS).find(is_blank_block)
            } else {
                (0..PART_BLOCKS).rev().find(is_blank_block)
            };
            block.and_then(blank_in)
        })?;
        if self.new_numbers || !is_copy {
            record[..4].copy_from_slice(&next.to_le_bytes());
        }
        Some(Step::Program(index, Box::new(record)))
    }

    /// All steps that append these media writes; nothing where the numbers run
    /// out, and then those up to there.
    fn walk(&self, part: &[u8], writes: Vec<Record>) -> (Vec<Step>, bool) {
        let mut part = part.to_vec();
        let mut writes = Writes {
            left: writes.into(),
            first: true,
            steps: 0,
        };
        let mut steps = Vec::new();
        while let Some(step) = self.next(&part, &mut writes) {
            let Some(step) = step else {
                return (steps, true);
            };
            step.apply(&mut part);
            steps.push(step);
        }
        (steps, false)
    }

    /// SHAPE, MEDIA or DAMAGED of a call on a file, if one applies.
    fn refusal(&self, part: &[u8], m: MemoryRef<'_>) -> Option<u32> {
        if part.len() != PART_BYTES || !m.has_right_lengths() {
            return Some(SHAPE);
        }
        if m.sizes.iter().any(|&size| size as usize > FILE_BYTES) {
            return Some(MEDIA);
        }
        let differs = || {
            let (media, sizes) = self.image(part);
            (self.image_bytes && media != m.media) || (self.image_sizes && sizes != m.sizes)
        };
        (!self.is_intact(part) || differs()).then_some(DAMAGED)
    }

    /// Appends the media writes of a call as far as the budget goes. `after` is the
    /// state of a call that is done.
    fn finish(
        &self,
        part: &mut [u8],
        m: MemoryMut<'_>,
        writes: Vec<Record>,
        budget: usize,
        after: &[u8],
    ) -> u32 {
        let last = u64::from(highest(part)) + writes.len() as u64;
        let (steps, mut exhausted) = self.walk(part, writes);
        if !self.copies_need_numbers {
            exhausted = last > u64::from(u32::MAX);
        }
        let is_cut = budget < steps.len() || (exhausted && budget == steps.len());
        if exhausted && (self.exhausted_first || !is_cut) {
            return EXHAUSTED;
        }
        for step in steps.iter().take(budget) {
            step.apply(part);
        }
        let (media, sizes) = self.image(part);
        m.media.copy_from_slice(&media);
        m.sizes.copy_from_slice(&sizes);
        if is_cut {
            m.state.fill(0);
            return CUT + budget as u32;
        }
        m.state.copy_from_slice(after);
        steps.len() as u32
    }

    /// Mount or format.
    fn start(
        &self,
        part: &mut [u8],
        m: MemoryMut<'_>,
        budget: usize,
        plain: fn(MemoryMut<'_>, usize) -> u32,
    ) -> u32 {
        let lengths = [m.media.len(), m.sizes.len(), m.state.len()];
        if part.len() != PART_BYTES || lengths != [MEDIA_BYTES, FILES, STATE_BYTES] {
            return SHAPE;
        }
        if !self.is_intact(part) {
            return DAMAGED;
        }
        let (media, sizes) = self.image(part);
        let mut after = MemoryVec {
            media,
            sizes,
            frames: vec![0; FRAMES_BYTES],
            state: m.state.to_vec(),
        };
        // A file is trimmed where the store without a part changes it.
        let before = after.clone();
        plain(after.lend_mut(), usize::MAX);
        let writes = (0..FILES)
            .filter(|&file| {
                let bytes = file * FILE_BYTES..(file + 1) * FILE_BYTES;
                before.sizes[file] != after.sizes[file]
                    || before.media[bytes.clone()] != after.media[bytes]
            })
            .map(|file| record(0, KIND_TRIM, file, after.sizes[file] as usize, &[]))
            .collect();
        self.finish(part, m, writes, budget, &after.state)
    }
}

/// More steps than any call needs; a wrong store may go round for ever.
const MOST_STEPS: usize = 1_000;

/// The media writes that are left.
struct Writes {
    left: VecDeque<Record>,
    /// Whether none is done.
    first: bool,
    /// Steps done.
    steps: usize,
}

const SHAPE: u32 = 2 << 16;
const MEDIA: u32 = 3 << 16;
const CUT: u32 = 9 << 16;
const DAMAGED: u32 = 12 << 16;
const EXHAUSTED: u32 = 13 << 16;

/// Rules as a type.
pub trait HasRules {
    /// They.
    const RULES: Rules;
}

/// The rules of document 02.
pub struct Right;

impl HasRules for Right {
    const RULES: Rules = Rules::RIGHT;
}

/// The store of these rules.
pub struct Stepwise<R = Right>(PhantomData<R>);

impl<R: HasRules> PartStore for Stepwise<R> {
    fn format(part: &mut [u8], m: MemoryMut<'_>, budget: usize) -> u32 {
        R::RULES.start(part, m, budget, <Reference as Store>::format)
    }

    fn mount(part: &mut [u8], m: MemoryMut<'_>, budget: usize) -> u32 {
        R::RULES.start(part, m, budget, <Reference as Store>::mount)
    }

    fn read(part: &[u8], m: MemoryRef<'_>, file: usize, position: usize, buffer: &mut [u8]) -> u32 {
        match R::RULES.refusal(part, m) {
            Some(word) => word,
            None => <Reference as Store>::read(m, file, position, buffer),
        }
    }

    fn look_count(part: &[u8], m: MemoryRef<'_>, file: usize, position: usize) -> u32 {
        match R::RULES.refusal(part, m) {
            Some(word) => word,
            None => <Reference as Store>::look_count(m, file, position),
        }
    }

    fn look(part: &[u8], m: MemoryRef<'_>, file: usize, position: usize) -> u64 {
        match R::RULES.refusal(part, m) {
            Some(_) => 0,
            None => <Reference as Store>::look(m, file, position),
        }
    }

    fn write(part: &[u8], m: MemoryMut<'_>, file: usize, position: usize, bytes: &[u8]) -> u32 {
        match R::RULES.refusal(part, m.lend()) {
            Some(word) => word,
            None => <Reference as Store>::write(m, file, position, bytes),
        }
    }

    fn truncate(part: &[u8], m: MemoryMut<'_>, file: usize, n: usize) -> u32 {
        match R::RULES.refusal(part, m.lend()) {
            Some(word) => word,
            None => <Reference as Store>::truncate(m, file, n),
        }
    }

    fn sync(part: &mut [u8], m: MemoryMut<'_>, file: usize, budget: usize) -> u32 {
        if let Some(word) = R::RULES.refusal(part, m.lend()) {
            return word;
        }
        let mut after = MemoryVec::from(m.lend());
        let word = <Reference as Store>::sync(after.lend_mut(), file, usize::MAX);
        if word >> 16 != 0 {
            return word;
        }
        let writes = sync_writes(m.lend(), file);
        R::RULES.finish(part, m, writes, budget, &after.state)
    }
}

/// The media writes of a sync, as records without numbers.
pub fn sync_writes(m: MemoryRef<'_>, file: usize) -> Vec<Record> {
    let Memory { sizes, frames, .. } = m;
    let state = decode(m.state).expect("a sound state");
    let (floor, logical) = (state.floor[file], state.logical[file]);
    let mut writes = Vec::new();
    if floor < sizes[file] as usize {
        writes.push(record(0, KIND_TRIM, file, floor, &[]));
    }
    let mut cached: Vec<(usize, usize)> = state
        .slots
        .iter()
        .enumerate()
        .filter(|(_, slot)| slot.used && slot.file == file)
        .map(|(index, slot)| (slot.page, index))
        .collect();
    cached.sort_unstable();
    for (page, slot) in cached {
        let frame = &frames[slot * PAGE_BYTES..(slot + 1) * PAGE_BYTES];
        writes.push(record(0, KIND_PAGE, file, page, frame));
    }
    if logical != floor {
        writes.push(record(0, KIND_SIZE, file, logical, &[]));
    }
    writes
}
