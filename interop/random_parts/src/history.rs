//! Random histories: what is done to a box with an append-only part.

use std::collections::VecDeque;
use std::fmt;

use layout::{FILES, FILE_BYTES, PAGES, PAGE_BYTES, STATE_MOUNTED};
use random_calls::{decode, fill, size, Call};
use random_sessions::rng::Rng;

use crate::memory::PartMemory;

/// One step of a history.
#[derive(Clone, Debug, PartialEq, Eq)]
pub enum Event {
    /// A call.
    Call(Call),
    /// Power is lost between two calls: the part stays, the state is down, and
    /// image and frames become random of this seed.
    PowerLoss {
        /// The seed.
        memory: u64,
    },
}

/// A box, and what is done to it. It is mounted first.
#[derive(Clone, Debug)]
pub struct History {
    /// The memory before the first mount.
    pub start: PartMemory,
    /// What follows the mount.
    pub events: Vec<Event>,
}

impl fmt::Display for Event {
    fn fmt(&self, f: &mut fmt::Formatter<'_>) -> fmt::Result {
        match self {
            Event::Call(call) => write!(f, "{call}"),
            Event::PowerLoss { .. } => write!(f, "power is lost"),
        }
    }
}

impl fmt::Display for History {
    fn fmt(&self, f: &mut fmt::Formatter<'_>) -> fmt::Result {
        write!(f, "  a box with\n{}\n  mounted", self.start)?;
        for (index, event) in self.events.iter().enumerate() {
            write!(f, "\n  {index}: {event}")?;
        }
        Ok(())
    }
}

/// The memory of a box after power was lost: any image and frames.
pub fn lose_power(memory: &mut PartMemory, seed: u64) {
    let mut rng = Rng::new(seed);
    let beside = &mut memory.memory;
    match rng.below(3) {
        // the image as it was, but for a byte
        0 => {
            let at = rng.below(beside.media.len());
            beside.media[at] ^= 1;
        }
        1 => beside.media.fill(rng.next_u64() as u8),
        _ => fill(&mut rng, &mut beside.media),
    }
    if rng.chance(50) {
        for size in beside.sizes.iter_mut() {
            *size = rng.next_u64() as u32 >> rng.below(32);
        }
    }
    fill(&mut rng, &mut beside.frames);
    beside.state.fill(0);
}

/// Makes the events of one history.
pub struct Generator {
    rng: Rng,
    /// Most calls are on files below this.
    files: usize,
    /// Events that are decided already.
    next: VecDeque<Event>,
}

impl Generator {
    /// The events of this seed.
    pub fn new(seed: u64) -> Generator {
        let mut rng = Rng::new(seed);
        let files = rng.pick(&[1, 2, FILES]);
        Generator {
            rng,
            files,
            next: VecDeque::new(),
        }
    }

    /// A history without events yet: a part without damage, and any memory beside
    /// it.
    pub fn start(&mut self) -> History {
        let mut start = PartMemory::sound(&mut self.rng);
        if self.rng.chance(50) {
            lose_power(&mut start, self.rng.next_u64());
        }
        History {
            start,
            events: Vec::new(),
        }
    }

    /// How many events the history gets.
    pub fn events(&mut self) -> usize {
        self.rng.between(5, 25)
    }

    /// The next event, for a box with this memory.
    pub fn event(&mut self, memory: &PartMemory) -> Event {
        if let Some(event) = self.next.pop_front() {
            return event;
        }
        let up = memory.memory.state[STATE_MOUNTED] == 1;
        let file = self.rng.below(self.files);
        let kind = if up {
            self.rng.weighted(&[30, 12, 20, 5, 4, 4, 4, 3, 8, 3])
        } else {
            self.rng.weighted(&[3, 2, 2, 2, 2, 70, 3, 6, 0, 0])
        };
        let call = match kind {
            0 => self.write(memory, file),
            1 => Call::Truncate {
                file,
                n: self.position(memory, file),
            },
            2 => self.sync(file),
            3 => Call::Read {
                file,
                position: self.position(memory, file),
                buffer: vec![0xee; self.rng.below(700)],
            },
            4 => Call::Look {
                file,
                position: self.position(memory, file),
            },
            5 => Call::Mount {
                budget: self.budget(),
            },
            6 => {
                return Event::PowerLoss {
                    memory: self.rng.next_u64(),
                }
            }
            7 => Call::Format {
                budget: self.budget(),
            },
            8 => return self.whole_file(file),
            _ => self.odd_call(file),
        };
        Event::Call(call)
    }

    fn budget(&mut self) -> usize {
        match self.rng.below(5) {
            0 => self.rng.below(4),
            1 => self.rng.below(90),
            _ => self.rng.pick(&[65_535, 1 << 32, usize::MAX]),
        }
    }

    fn sync(&mut self, file: usize) -> Call {
        let budget = self.budget();
        Call::Sync { file, budget }
    }

    /// Bytes that mostly differ from each other and from 0, so that a piece in the
    /// wrong place shows.
    fn bytes(&mut self, length: usize) -> Vec<u8> {
        let mut bytes = vec![0; length];
        if self.rng.chance(90) {
            fill(&mut self.rng, &mut bytes);
        } else {
            bytes.fill(self.rng.pick(&[0, 1, 255]));
        }
        bytes
    }

    fn write(&mut self, memory: &PartMemory, file: usize) -> Call {
        let position = self.position(memory, file);
        let length = match self.rng.below(3) {
            0 => self.rng.pick(&[0, 1, 12, PAGE_BYTES, 1_000, FILE_BYTES]),
            _ => self.rng.below(1_100),
        };
        let length = length.min(FILE_BYTES.saturating_sub(position));
        Call::Write {
            file,
            position,
            bytes: self.bytes(length),
        }
    }

    /// A whole file anew after a truncate: the most media writes.
    fn whole_file(&mut self, file: usize) -> Event {
        let bytes = self.bytes(FILE_BYTES);
        let write = Call::Write {
            file,
            position: 0,
            bytes,
        };
        let sync = self.sync(file);
        self.next.extend([Event::Call(write), Event::Call(sync)]);
        Event::Call(Call::Truncate {
            file,
            n: self.rng.below(PAGE_BYTES),
        })
    }

    /// A position or a size: at the border of a page, near one of the file's
    /// sizes, or anywhere; seldom beyond the greatest.
    fn position(&mut self, memory: &PartMemory, file: usize) -> usize {
        let near = self.rng.below(3);
        let logical = decode(&memory.memory.state).map_or(0, |state| state.logical[file]);
        match self.rng.below(8) {
            0 | 1 => (PAGE_BYTES * self.rng.below(PAGES + 1) + near).saturating_sub(1),
            2 => (logical + near).saturating_sub(1),
            3 => size(&mut self.rng, FILE_BYTES),
            4 => self.rng.below(logical + 1),
            _ => self.rng.below(800),
        }
    }

    /// A call that is refused.
    fn odd_call(&mut self, file: usize) -> Call {
        match self.rng.below(4) {
            0 => Call::Sync {
                file: FILES,
                budget: usize::MAX,
            },
            1 => Call::Read {
                file,
                position: FILE_BYTES + 1,
                buffer: vec![7; 3],
            },
            2 => Call::Write {
                file,
                position: FILE_BYTES,
                bytes: vec![7],
            },
            _ => Call::Truncate {
                file: usize::MAX,
                n: 0,
            },
        }
    }
}
