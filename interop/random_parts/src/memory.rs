//! A part and the memory beside it.

use std::fmt;

use layout::{
    BLANK, BLOCK_BYTES, FILES, FILE_BYTES, KIND_PAGE, KIND_SIZE, KIND_TRIM, MEDIA_BYTES,
    PART_BLOCKS, PART_BYTES, RECORD_BYTES, RECORD_FILE, RECORD_KIND, RECORD_PAGE,
};
use random_calls::{guarded, other_length, Bytes, Call, Guarded, GuardedMemory, Ran};
use random_sessions::rng::Rng;
use reference::part::{Damage, Geometry, Part};

use crate::part_store::PartStore;
use crate::random_part::{damage, sound_part};
use crate::stepwise::{field, is_blank, newest, number, Rules};

/// A part, and the memory beside it: its image, the frames and the cache state.
/// Each slice lies between guards.
#[derive(Clone, Debug, PartialEq, Eq)]
pub struct PartMemory {
    /// The bytes of the part.
    pub part: Guarded<u8>,
    /// The memory beside it.
    pub memory: GuardedMemory,
}

/// What a part and its image are.
#[derive(Clone, Copy, Debug, PartialEq, Eq)]
pub enum Condition {
    /// A slice has a wrong length.
    WrongLength,
    /// The part has a damage.
    Damaged(Damage),
    /// The part has none, and the bytes of the image differ from it.
    OtherBytes,
    /// The bytes of the image are right, and the sizes are not.
    OtherSizes,
    /// The image is the part's, which is blank.
    Blank,
    /// The image is the part's, which has 65 blank records or more.
    Roomy,
    /// The image is the part's, which a media write has to collect first.
    Full,
}

impl PartMemory {
    /// A blank part, down.
    pub fn new() -> PartMemory {
        PartMemory {
            part: vec![BLANK; PART_BYTES].into(),
            memory: GuardedMemory::new(),
        }
    }

    /// Random memory: most of it is as calls leave it. The rest has one thing
    /// wrong, or several, so that the order of the refusals shows.
    pub fn random(rng: &mut Rng) -> PartMemory {
        let mut random = PartMemory::sound(rng);
        if rng.chance(25) {
            damage(rng, &mut random.part);
            if rng.chance(50) {
                random.replay();
            }
        }
        if rng.chance(12) {
            random.spoil_image(rng);
        }
        match rng.weighted(&[24, 2, 3, 1]) {
            0 => {}
            1 => random.memory.state.fill(0),
            2 => random.memory.spoil_state(rng),
            _ => random.memory.random_state(rng),
        }
        if rng.chance(6) {
            random.memory.spoil_sizes(rng);
        }
        if rng.chance(6) {
            random.memory.spoil_lengths(rng);
        }
        if rng.chance(4) {
            random.part.resize(other_length(rng, PART_BYTES), BLANK);
        }
        random
    }

    /// A part without damage, its image, and a sound state that is up.
    pub fn sound(rng: &mut Rng) -> PartMemory {
        let mut sound = PartMemory::new();
        sound.part.copy_from_slice(&sound_part(rng));
        sound.replay();
        sound.memory.put_sound_state(rng);
        sound
    }

    /// Makes the image the part's, where that has no damage.
    pub fn replay(&mut self) {
        let lengths = [
            self.part.len(),
            self.memory.media.len(),
            self.memory.sizes.len(),
        ];
        if lengths == [PART_BYTES, MEDIA_BYTES, FILES] && Rules::RIGHT.is_intact(&self.part) {
            let (media, sizes) = Rules::RIGHT.image(&self.part);
            self.memory.media.copy_from_slice(&media);
            self.memory.sizes.copy_from_slice(&sizes);
        }
    }

    /// Alters a byte of the image, or a size, or all of it.
    fn spoil_image(&mut self, rng: &mut Rng) {
        let file = rng.below(FILES);
        match rng.below(8) {
            0..=3 => {
                let near = rng.pick(&[0, FILE_BYTES - 1]);
                let at = if rng.chance(30) {
                    near
                } else {
                    rng.below(FILE_BYTES)
                };
                self.memory.media[file * FILE_BYTES + at] ^= 1 << rng.below(8);
            }
            4..=6 => {
                let size = self.memory.sizes[file] ^ 1 << rng.below(13);
                self.memory.sizes[file] = size.min(FILE_BYTES as u32);
            }
            _ => random_calls::fill(rng, &mut self.memory.media),
        }
    }

    /// Whether all guards are as they were made.
    pub fn is_intact(&self) -> bool {
        self.part.is_intact() && self.memory.is_intact()
    }

    /// What the part and its image are.
    pub fn condition(&self) -> Condition {
        if self.part.len() != PART_BYTES || !self.memory.has_right_lengths() {
            return Condition::WrongLength;
        }
        let part = match Part::decode(Geometry::SHORT, &self.part) {
            Ok(part) => part,
            Err(damage) => return Condition::Damaged(damage),
        };
        let image = part.replay();
        if image.media[..] != self.memory.media[..] {
            Condition::OtherBytes
        } else if image.sizes[..] != self.memory.sizes[..] {
            Condition::OtherSizes
        } else if part.oldest().is_none() {
            Condition::Blank
        } else if part.blank() >= 65 {
            Condition::Roomy
        } else {
            Condition::Full
        }
    }

    /// Carries a call out. Those that work on no part are none of the calls here.
    pub fn run<S: PartStore>(&mut self, call: &mut Call) -> Ran {
        let part = &mut *self.part;
        let lent = self.memory.lend_mut();
        let mut look = 0;
        let (word, intact) = match call {
            Call::Format { budget } => (S::format(part, lent, *budget), true),
            Call::Mount { budget } => (S::mount(part, lent, *budget), true),
            Call::Read {
                file,
                position,
                buffer,
            } => guarded(buffer, |buffer| {
                S::read(part, lent.lend(), *file, *position, buffer)
            }),
            Call::Write {
                file,
                position,
                bytes,
            } => guarded(bytes, |bytes| S::write(part, lent, *file, *position, bytes)),
            Call::Truncate { file, n } => (S::truncate(part, lent, *file, *n), true),
            Call::Sync { file, budget } => (S::sync(part, lent, *file, *budget), true),
            Call::Look { file, position } => {
                look = S::look(part, lent.lend(), *file, *position);
                (S::look_count(part, lent.lend(), *file, *position), true)
            }
            other => panic!("no call on a part: {other}"),
        };
        Ran {
            word,
            look,
            intact: intact && self.is_intact(),
        }
    }

    /// The number of ways to make memory simpler.
    pub const SIMPLER: usize = PART_BLOCKS * (2 + 64) + GuardedMemory::SIMPLER;

    /// The memory with one thing made simpler, for each way another; nothing where
    /// it is simple there already. An image that is the part's stays so.
    pub fn simpler(&self, way: usize) -> Option<PartMemory> {
        let mut simpler = self.clone();
        let records = PART_BLOCKS * 64;
        if way >= records + 2 * PART_BLOCKS {
            simpler.memory = self.memory.simpler(way - records - 2 * PART_BLOCKS)?;
            return Some(simpler);
        }
        if self.part.len() != PART_BYTES {
            return None;
        }
        let was_image = Rules::RIGHT.is_intact(&self.part) && {
            let (media, sizes) = Rules::RIGHT.image(&self.part);
            media[..] == self.memory.media[..] && sizes[..] == self.memory.sizes[..]
        };
        match way {
            // a block blank
            _ if way < PART_BLOCKS => {
                simpler.part[way * BLOCK_BYTES..(way + 1) * BLOCK_BYTES].fill(BLANK);
            }
            // the last record of the newest block blank
            _ if way < 2 * PART_BLOCKS => {
                let block = newest(&self.part)?;
                let places = block * 64..(block + 1) * 64;
                let at = |index: usize| index * RECORD_BYTES..(index + 1) * RECORD_BYTES;
                let last = places
                    .rev()
                    .find(|&index| !is_blank(&self.part[at(index)]))?;
                simpler.part[at(last)].fill(BLANK);
            }
            // a record that says nothing
            _ => {
                let at = (way - 2 * PART_BLOCKS) * RECORD_BYTES;
                let record = &mut simpler.part[at..at + RECORD_BYTES];
                if is_blank(record) {
                    return None;
                }
                record[RECORD_KIND..].fill(0);
                record[RECORD_KIND] = KIND_TRIM;
                record[RECORD_FILE] = 7;
            }
        }
        if was_image {
            simpler.replay();
        }
        (simpler != *self).then_some(simpler)
    }
}

impl Default for PartMemory {
    fn default() -> PartMemory {
        PartMemory::new()
    }
}

/// The programmed records, and the memory beside the part.
impl fmt::Display for PartMemory {
    fn fmt(&self, f: &mut fmt::Formatter<'_>) -> fmt::Result {
        writeln!(f, "  part of {} bytes:", self.part.len())?;
        for (block, records) in self.part.chunks(BLOCK_BYTES).enumerate() {
            for (place, record) in records.chunks(RECORD_BYTES).enumerate() {
                if is_blank(record) || record.len() < RECORD_BYTES {
                    continue;
                }
                let kind = match record[RECORD_KIND] {
                    KIND_PAGE => "PAGE".to_owned(),
                    KIND_SIZE => "SIZE".to_owned(),
                    KIND_TRIM => "TRIM".to_owned(),
                    other => format!("kind {other}"),
                };
                writeln!(
                    f,
                    "    {block}.{place}: {} {kind} file {}, {}: {}",
                    number(record),
                    record[RECORD_FILE],
                    field(record),
                    Bytes(&record[RECORD_PAGE..])
                )?;
            }
        }
        write!(f, "{}", self.memory)
    }
}
