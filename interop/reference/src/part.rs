//! An append-only flash part: its records, what damages it, the image that it
//! replays to, what of it is valid, and the steps that append media writes.
//!
//! A part is bytes. All here is told over its [`Geometry`].

use crate::store::{Refusal, FILES, PAGE};

/// Bytes of a record.
pub const RECORD: usize = 264;
/// Records of a block.
pub const BLOCK_RECORDS: usize = 64;
/// Bytes of a block.
pub const BLOCK: usize = BLOCK_RECORDS * RECORD;
/// Fewer blank records than these before a media write, and the oldest block is
/// collected.
pub const LEAST_BLANK: usize = 65;

/// Where the bytes of a record's page begin.
const PAYLOAD: usize = RECORD - PAGE;

/// Pages in a file and blocks in the part beside it.
#[derive(Clone, Copy, Debug, PartialEq, Eq)]
pub struct Geometry {
    /// Pages in a file.
    pub pages: usize,
    /// Blocks in the part.
    pub blocks: usize,
}

impl Geometry {
    /// Files of 4,096 bytes.
    pub const SHORT: Geometry = Geometry {
        pages: 16,
        blocks: 6,
    };
    /// Files of 16,384 bytes.
    pub const LONG: Geometry = Geometry {
        pages: 64,
        blocks: 18,
    };

    /// Greatest size of a file.
    pub const fn file_max(self) -> usize {
        self.pages * PAGE
    }

    /// Bytes of the media.
    pub const fn media_len(self) -> usize {
        FILES * self.file_max()
    }

    /// Bytes of the part.
    pub const fn part_len(self) -> usize {
        self.blocks * BLOCK
    }
}

/// A media write as a record tells it.
#[derive(Clone, Debug, PartialEq, Eq)]
pub enum Write {
    /// PAGE.
    Page {
        /// The number of the page in its file.
        page: usize,
        /// Its bytes.
        bytes: Box<[u8; PAGE]>,
    },
    /// SIZE.
    Size {
        /// The stored size.
        size: usize,
    },
    /// TRIM; it sets the size, even if that grows.
    Trim {
        /// The stored size.
        size: usize,
    },
}

/// A programmed record.
#[derive(Clone, Debug, PartialEq, Eq)]
pub struct Record {
    /// The running number, from 1.
    pub number: u32,
    /// The file.
    pub file: usize,
    /// What is done to it.
    pub write: Write,
}

/// What is wrong with a part.
#[derive(Clone, Copy, Debug, PartialEq, Eq, Hash)]
pub enum Damage {
    /// A record has the number 0.
    Number,
    /// A record is of no known kind.
    Kind,
    /// A record's file is above 7.
    File,
    /// The page of a PAGE is beyond the file.
    Page,
    /// The size of a SIZE or TRIM is above the greatest of a file.
    Size,
    /// Numbers fall or repeat in a block.
    Order,
    /// A blank record comes before a programmed one of its block.
    Gap,
    /// The numbers of two blocks overlap.
    Overlap,
    /// A block other than the newest is partly blank.
    PartlyBlank,
    /// Fewer records are blank than the oldest block has valid.
    Spare,
}

impl Record {
    /// The record in these 264 bytes; nothing where they are blank. A payload
    /// that is not 0 in a SIZE or TRIM means nothing.
    pub fn decode(geometry: Geometry, bytes: &[u8]) -> Result<Option<Record>, Damage> {
        if *bytes == [255; RECORD] {
            return Ok(None);
        }
        let number = u32::from_le_bytes([bytes[0], bytes[1], bytes[2], bytes[3]]);
        let file = usize::from(bytes[5]);
        let field = usize::from(u16::from_le_bytes([bytes[6], bytes[7]]));
        if number == 0 {
            return Err(Damage::Number);
        }
        let write = match bytes[4] {
            1 => {
                let mut page = Box::new([0; PAGE]);
                page.copy_from_slice(&bytes[PAYLOAD..]);
                Write::Page {
                    page: field,
                    bytes: page,
                }
            }
            2 => Write::Size { size: field },
            3 => Write::Trim { size: field },
            _ => return Err(Damage::Kind),
        };
        if file >= FILES {
            return Err(Damage::File);
        }
        match write {
            Write::Page { page, .. } if page >= geometry.pages => Err(Damage::Page),
            Write::Size { size } | Write::Trim { size } if size > geometry.file_max() => {
                Err(Damage::Size)
            }
            _ => Ok(Some(Record {
                number,
                file,
                write,
            })),
        }
    }

    /// The bytes of the record.
    pub fn encode(&self) -> [u8; RECORD] {
        let mut bytes = [0; RECORD];
        let (kind, field) = match &self.write {
            Write::Page {
                page,
                bytes: page_bytes,
            } => {
                bytes[PAYLOAD..].copy_from_slice(&page_bytes[..]);
                (1, *page)
            }
            Write::Size { size } => (2, *size),
            Write::Trim { size } => (3, *size),
        };
        bytes[..4].copy_from_slice(&self.number.to_le_bytes());
        bytes[4] = kind;
        bytes[5] = self.file as u8;
        bytes[6..8].copy_from_slice(&(field as u16).to_le_bytes());
        bytes
    }
}

/// Media bytes and stored sizes.
#[derive(Clone, Debug, PartialEq, Eq)]
pub struct Image {
    /// The media bytes.
    pub media: Vec<u8>,
    /// The stored sizes.
    pub sizes: [u32; FILES],
}

/// One step of a call on a part, done whole or not at all.
#[derive(Clone, Debug, PartialEq, Eq)]
pub enum Step {
    /// A blank record is programmed.
    Program {
        /// Its block.
        block: usize,
        /// Its place in the block.
        place: usize,
        /// What it becomes.
        record: Record,
    },
    /// A block becomes blank.
    Erase {
        /// The block.
        block: usize,
    },
}

impl Step {
    /// Does the step on the bytes of a part.
    pub fn apply(&self, part: &mut [u8]) {
        match self {
            Step::Program {
                block,
                place,
                record,
            } => {
                let at = block * BLOCK + place * RECORD;
                part[at..at + RECORD].copy_from_slice(&record.encode());
            }
            Step::Erase { block } => part[block * BLOCK..(block + 1) * BLOCK].fill(255),
        }
    }
}

/// A part without damage: the programmed records of each block.
#[derive(Clone, Debug, PartialEq, Eq)]
pub struct Part {
    geometry: Geometry,
    blocks: Vec<Vec<Record>>,
}

impl Part {
    /// The part in these bytes, which are as many as the geometry says, or the
    /// first damage found.
    pub fn decode(geometry: Geometry, bytes: &[u8]) -> Result<Part, Damage> {
        let mut blocks = Vec::with_capacity(geometry.blocks);
        for block in bytes.chunks_exact(BLOCK) {
            blocks.push(decode_block(geometry, block)?);
        }
        let part = Part { geometry, blocks };
        part.check_blocks()?;
        Ok(part)
    }

    /// The damage of blocks beside each other.
    fn check_blocks(&self) -> Result<(), Damage> {
        let order = self.by_age();
        for pair in order.windows(2) {
            let (older, newer) = (&self.blocks[pair[0]], &self.blocks[pair[1]]);
            if newer[0].number <= older[older.len() - 1].number {
                return Err(Damage::Overlap);
            }
        }
        let all_but_newest = &order[..order.len().saturating_sub(1)];
        if all_but_newest
            .iter()
            .any(|&block| self.blocks[block].len() < BLOCK_RECORDS)
        {
            return Err(Damage::PartlyBlank);
        }
        if self.blank() < self.oldest().map_or(0, |block| self.valid(block).len()) {
            return Err(Damage::Spare);
        }
        Ok(())
    }

    /// The blocks that are not blank, the oldest first: by their first numbers.
    fn by_age(&self) -> Vec<usize> {
        let mut order: Vec<usize> = (0..self.blocks.len())
            .filter(|&block| !self.blocks[block].is_empty())
            .collect();
        order.sort_by_key(|&block| self.blocks[block][0].number);
        order
    }

    /// The block with the lowest numbers; none of a blank part.
    pub fn oldest(&self) -> Option<usize> {
        self.by_age().first().copied()
    }

    /// The block with the highest numbers; none of a blank part.
    pub fn newest(&self) -> Option<usize> {
        self.by_age().last().copied()
    }

    /// How many records are blank.
    pub fn blank(&self) -> usize {
        self.blocks
            .iter()
            .map(|block| BLOCK_RECORDS - block.len())
            .sum()
    }

    /// The highest number; 0 of a blank part.
    pub fn highest(&self) -> u32 {
        let records = self.blocks.iter().flatten();
        records.map(|record| record.number).max().unwrap_or(0)
    }

    /// All records with their blocks, by their numbers.
    fn by_number(&self) -> Vec<(usize, &Record)> {
        let blocks = self.blocks.iter().enumerate();
        let mut records: Vec<(usize, &Record)> = blocks
            .flat_map(|(block, records)| records.iter().map(move |record| (block, record)))
            .collect();
        records.sort_by_key(|(_, record)| record.number);
        records
    }

    /// The image: the records in order, on media and sizes all 0.
    pub fn replay(&self) -> Image {
        let mut image = Image {
            media: vec![0; self.geometry.media_len()],
            sizes: [0; FILES],
        };
        let file_max = self.geometry.file_max();
        for (_, record) in self.by_number() {
            let bytes = &mut image.media[record.file * file_max..(record.file + 1) * file_max];
            match &record.write {
                Write::Page { page, bytes: new } => {
                    bytes[page * PAGE..(page + 1) * PAGE].copy_from_slice(&new[..]);
                }
                Write::Size { size } => image.sizes[record.file] = *size as u32,
                Write::Trim { size } => {
                    bytes[*size..].fill(0);
                    image.sizes[record.file] = *size as u32;
                }
            }
        }
        image
    }

    /// What is valid in a block, as the media writes that copy it: its pages by
    /// file and page, then its sizes by file.
    pub fn valid(&self, block: usize) -> Vec<(usize, Write)> {
        let Geometry { pages, .. } = self.geometry;
        // the block of each page's last PAGE and of each size's last SIZE or TRIM
        let mut page_block = vec![None; FILES * pages];
        let mut size_block = [None; FILES];
        for (block, record) in self.by_number() {
            match record.write {
                Write::Page { page, .. } => page_block[record.file * pages + page] = Some(block),
                Write::Size { .. } | Write::Trim { .. } => size_block[record.file] = Some(block),
            }
        }
        let image = self.replay();
        let mut valid = Vec::new();
        for (index, bytes) in image.media.chunks_exact(PAGE).enumerate() {
            if page_block[index] == Some(block) && bytes.iter().any(|&byte| byte != 0) {
                let mut page = Box::new([0; PAGE]);
                page.copy_from_slice(bytes);
                let write = Write::Page {
                    page: index % pages,
                    bytes: page,
                };
                valid.push((index / pages, write));
            }
        }
        for (file, &size) in image.sizes.iter().enumerate() {
            if size_block[file] == Some(block) && size != 0 {
                let size = size as usize;
                valid.push((file, Write::Size { size }));
            }
        }
        valid
    }

    /// How many pages and sizes are valid, in all blocks.
    pub fn valid_count(&self) -> usize {
        (0..self.blocks.len())
            .map(|block| self.valid(block).len())
            .sum()
    }

    /// The steps that append these media writes, in order, each with what has to
    /// be collected before it: all of them, whatever pays for them. EXHAUSTED
    /// where one needs a number above the greatest.
    pub fn steps(mut self, writes: &[(usize, Write)]) -> Result<Vec<Step>, Refusal> {
        let mut steps = Vec::new();
        for (file, write) in writes {
            while self.blank() < LEAST_BLANK {
                let oldest = self.oldest().expect("a part this full has records");
                for (file, write) in self.valid(oldest) {
                    steps.push(self.append(file, write)?);
                }
                self.blocks[oldest].clear();
                steps.push(Step::Erase { block: oldest });
            }
            steps.push(self.append(*file, write.clone())?);
        }
        Ok(steps)
    }

    /// Appends a record, to the newest block or else to the lowest blank one.
    fn append(&mut self, file: usize, write: Write) -> Result<Step, Refusal> {
        let number = self.highest().checked_add(1).ok_or(Refusal::Exhausted)?;
        let newest = self
            .newest()
            .filter(|&block| self.blocks[block].len() < BLOCK_RECORDS);
        let block = newest
            .or_else(|| self.blocks.iter().position(|block| block.is_empty()))
            .expect("a record is blank");
        let record = Record {
            number,
            file,
            write,
        };
        let place = self.blocks[block].len();
        self.blocks[block].push(record.clone());
        Ok(Step::Program {
            block,
            place,
            record,
        })
    }
}

/// The programmed records of a block.
fn decode_block(geometry: Geometry, block: &[u8]) -> Result<Vec<Record>, Damage> {
    let mut records: Vec<Record> = Vec::new();
    let mut blank = false;
    for bytes in block.chunks_exact(RECORD) {
        let Some(record) = Record::decode(geometry, bytes)? else {
            blank = true;
            continue;
        };
        if blank {
            return Err(Damage::Gap);
        }
        if records
            .last()
            .is_some_and(|last| last.number >= record.number)
        {
            return Err(Damage::Order);
        }
        records.push(record);
    }
    Ok(records)
}
