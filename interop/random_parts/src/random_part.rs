//! Random parts: without damage, of every fill, and with a damage.

use layout::{
    BLANK, BLOCK_BYTES, BLOCK_RECORDS, FILES, FILE_BYTES, KIND_PAGE, KIND_SIZE, KIND_TRIM, PAGES,
    PAGE_BYTES, PART_BLOCKS, PART_BYTES, RECORD_BYTES, RECORD_FIELD, RECORD_FILE, RECORD_KIND,
};
use random_calls::{fill, size};
use random_sessions::rng::Rng;

use crate::stepwise::{
    blank, highest, is_blank, newest, number, programmed, record, Record, Rules,
};

/// Where a record lies.
fn at(index: usize) -> std::ops::Range<usize> {
    index * RECORD_BYTES..(index + 1) * RECORD_BYTES
}

/// A part without damage.
pub fn sound_part(rng: &mut Rng) -> Vec<u8> {
    let mut part = vec![BLANK; PART_BYTES];
    let blocks = match rng.weighted(&[1, 5, 3, 9]) {
        0 => return part,
        1 => rng.between(1, 4),
        2 => 5,
        _ => PART_BLOCKS,
    };
    let mut order: Vec<usize> = (0..PART_BLOCKS).collect();
    for index in (1..PART_BLOCKS).rev() {
        order.swap(index, rng.below(index + 1));
    }
    let last = match rng.below(4) {
        0 => BLOCK_RECORDS,
        1 => rng.between(1, 4),
        _ => rng.between(1, BLOCK_RECORDS),
    };
    let records = (blocks - 1) * BLOCK_RECORDS + last;
    let content = Content::new(rng);
    let numbers = numbers(rng, records);
    for (index, &number) in numbers.iter().enumerate() {
        let record = content.record(rng, number, index);
        let block = order[index / BLOCK_RECORDS];
        part[at(block * BLOCK_RECORDS + index % BLOCK_RECORDS)].copy_from_slice(&record);
    }
    // Where the oldest block has more valid than there is room for, there is more
    // room.
    let mut left = records;
    while !Rules::RIGHT.is_intact(&part) {
        left -= 1;
        let block = order[left / BLOCK_RECORDS];
        part[at(block * BLOCK_RECORDS + left % BLOCK_RECORDS)].fill(BLANK);
    }
    part
}

/// Rising numbers: mostly without gaps, from 1, from anywhere, or up to the
/// greatest.
fn numbers(rng: &mut Rng, count: usize) -> Vec<u32> {
    let gap = if rng.chance(75) {
        1
    } else {
        rng.pick(&[3, 1_000])
    };
    let mut numbers = Vec::with_capacity(count);
    let mut number = 0;
    for _ in 0..count {
        number += 1 + rng.below(gap) as u32;
        numbers.push(number);
    }
    let room = u32::MAX - number;
    let shift = match rng.below(8) {
        0..=3 => 0,
        4 => rng.below(room as usize) as u32,
        5 => room - rng.below(4) as u32,
        6 => room - rng.below(24) as u32,
        _ => room - rng.below(200) as u32,
    };
    numbers.iter_mut().for_each(|number| *number += shift);
    numbers
}

/// What the records of a part are about.
struct Content {
    /// Files and pages below these.
    files: usize,
    pages: usize,
    /// As many records at first go through the pages in turn.
    cold: usize,
    /// Later ones are about as many pages, the last ones of the files.
    hot: usize,
    /// Weights of PAGE, SIZE and TRIM.
    kinds: [usize; 3],
    /// Whether all sizes are the greatest, so that a mount trims nothing.
    grown: bool,
    /// Whether some pages are all 0.
    zero_pages: bool,
}

impl Content {
    /// All pages and sizes valid, most of them in the oldest blocks, which no
    /// collection makes smaller.
    const DENSE: Content = Content {
        files: FILES,
        pages: PAGES,
        cold: FILES * PAGES + FILES,
        hot: 1,
        kinds: [1, 0, 0],
        grown: true,
        zero_pages: false,
    };

    fn new(rng: &mut Rng) -> Content {
        if rng.chance(8) {
            return Content::DENSE;
        }
        let (files, pages) = rng.pick(&[(1, PAGES), (2, 3), (FILES, PAGES), (FILES, PAGES)]);
        Content {
            files,
            pages,
            cold: rng.pick(&[0, 20, 64, 200, 384]),
            hot: rng.pick(&[1, 4, files * pages]).min(files * pages),
            kinds: rng.pick(&[[8, 1, 1], [20, 1, 0], [4, 2, 4], [60, 1, 0]]),
            grown: rng.chance(40),
            zero_pages: true,
        }
    }

    fn record(&self, rng: &mut Rng, number: u32, index: usize) -> Record {
        if self.grown && index < FILES {
            return record(number, KIND_SIZE, index, FILE_BYTES, &[]);
        }
        let all = self.files * self.pages;
        let page = if index < self.cold {
            index % all
        } else {
            all - 1 - rng.below(self.hot)
        };
        let (file, page) = (page / self.pages, page % self.pages);
        let kind = [KIND_PAGE, KIND_SIZE, KIND_TRIM][rng.weighted(&self.kinds)];
        let mut bytes = [0; PAGE_BYTES];
        if kind != KIND_PAGE {
            // what is behind a size means nothing
            if rng.chance(3) {
                bytes[rng.below(PAGE_BYTES)] = 1;
            }
            let size = if self.grown {
                FILE_BYTES
            } else {
                size(rng, FILE_BYTES)
            };
            return record(number, kind, file, size, &bytes);
        }
        match rng.below(8) {
            0 if self.zero_pages => {}
            0 | 1 => bytes[rng.pick(&[0, 1, 255])] = 1,
            2 => bytes.fill(BLANK),
            _ => fill(rng, &mut bytes),
        }
        record(number, kind, file, page, &bytes)
    }
}

/// Damages a part in one place, or makes it random. Some changes happen to do no
/// damage.
pub fn damage(rng: &mut Rng, part: &mut [u8]) {
    let records: Vec<usize> = programmed(part).map(|(index, _)| index).collect();
    if records.is_empty() {
        let index = rng.below(part.len() / RECORD_BYTES);
        part[at(index)][rng.below(RECORD_BYTES)] = rng.next_u64() as u8;
        return;
    }
    let index = rng.pick(&records);
    let other = rng.pick(&records);
    match rng.below(14) {
        0 => part[at(index)][..4].fill(0),
        1 => part[at(index)][RECORD_KIND] = rng.pick(&[0, 4, 5, 128, 255]),
        2 => part[at(index)][RECORD_FILE] = rng.pick(&[8, 9, 128, 255]),
        3 => spoil_field(rng, &mut part[at(index)], KIND_PAGE),
        4 => {
            let kind = rng.pick(&[KIND_SIZE, KIND_TRIM]);
            spoil_field(rng, &mut part[at(index)], kind);
        }
        // the number of another record, or beside it
        5 | 6 => {
            let near = number(&part[at(other)]).saturating_add(rng.below(3) as u32);
            part[at(index)][..4].copy_from_slice(&near.saturating_sub(1).to_le_bytes());
        }
        7 => repeat_number(rng, part),
        8 => part[at(index)].fill(BLANK),
        9 => blank_end(rng, part),
        10 | 11 => fill_up(rng, part),
        12 => {
            let place = rng.below(part.len());
            part[place] ^= 1 << rng.below(8);
        }
        _ if rng.chance(20) => fill(rng, part),
        // the last number of a block becomes the first of another, or one more
        _ => {
            let (one, two) = (index / BLOCK_RECORDS, other / BLOCK_RECORDS);
            let last = (one * BLOCK_RECORDS..(one + 1) * BLOCK_RECORDS)
                .rev()
                .find(|&index| !is_blank(&part[at(index)]))
                .unwrap_or(index);
            let first = number(&part[at(two * BLOCK_RECORDS)]);
            let near = first.saturating_add(rng.below(2) as u32);
            part[at(last)][..4].copy_from_slice(&near.to_le_bytes());
        }
    }
}

/// A page or size at its limit or beyond, in a record of this kind.
fn spoil_field(rng: &mut Rng, record: &mut [u8], kind: u8) {
    let limit = if kind == KIND_PAGE {
        PAGES - 1
    } else {
        FILE_BYTES
    };
    let field = match rng.below(6) {
        0 => limit,
        1 => 256 * rng.between(limit / 256 + 1, 255),
        2 => u16::MAX.into(),
        _ => limit + 1 + rng.below(3),
    };
    record[RECORD_KIND] = kind;
    record[RECORD_FIELD..RECORD_FIELD + 2].copy_from_slice(&(field as u16).to_le_bytes());
}

/// A record gets the number of the one before it.
fn repeat_number(rng: &mut Rng, part: &mut [u8]) {
    let block = rng.below(PART_BLOCKS);
    let index = block * BLOCK_RECORDS + rng.between(1, BLOCK_RECORDS - 1);
    if !is_blank(&part[at(index)]) {
        let before = number(&part[at(index - 1)]);
        part[at(index)][..4].copy_from_slice(&before.to_le_bytes());
    }
}

/// Blanks the end of a block.
fn blank_end(rng: &mut Rng, part: &mut [u8]) {
    let block = rng.below(PART_BLOCKS);
    let from = rng.between(1, BLOCK_RECORDS - 1);
    part[at(block * BLOCK_RECORDS).start + from * RECORD_BYTES..(block + 1) * BLOCK_BYTES]
        .fill(BLANK);
}

/// Programs blank records with ones that say nothing, until few are left.
fn fill_up(rng: &mut Rng, part: &mut [u8]) {
    let left = rng.pick(&[0, 0, 1, 5, 20]);
    let mut number = highest(part);
    let mut block = newest(part);
    while blank(part) > left {
        let Some(of) = block else {
            return;
        };
        let places = of * BLOCK_RECORDS..(of + 1) * BLOCK_RECORDS;
        let next = places.into_iter().find(|&index| is_blank(&part[at(index)]));
        match (next, number.checked_add(1)) {
            (Some(index), Some(next_number)) => {
                number = next_number;
                let idle = record(number, KIND_TRIM, 7, 0, &[]);
                part[at(index)].copy_from_slice(&idle);
            }
            (None, Some(_)) => {
                block = (0..PART_BLOCKS)
                    .find(|block| is_blank(&part[block * BLOCK_BYTES..(block + 1) * BLOCK_BYTES]));
            }
            (_, None) => return,
        }
    }
}
