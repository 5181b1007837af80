//! Random histories: what is done to a box after a mount.

use std::collections::VecDeque;
use std::fmt;

use layout::{FILES, FILE_BYTES, MOUNT_WRITES, PAGES, PAGE_BYTES, STATE_MOUNTED, SYNC_WRITES};
use random_calls::{decode, fill, Call, GuardedMemory};
use random_sessions::rng::Rng;

/// A budget that no sync, mount or format exceeds.
pub const FULL: usize = SYNC_WRITES;

/// One step of a history.
#[derive(Clone, Debug, PartialEq, Eq)]
pub enum Step {
    /// A read, look, write, truncate, sync or mount.
    Call(Call),
    /// Power is lost between two calls: the media stay, the state is down, and
    /// the frames become random bytes of this seed.
    PowerLoss {
        /// The seed.
        frames: u64,
    },
}

/// A box, and what is done to it. It is mounted first.
#[derive(Clone, Debug, PartialEq, Eq)]
pub struct History {
    /// The memory before the first mount.
    pub start: GuardedMemory,
    /// Whether it is formatted before that.
    pub format: bool,
    /// What follows the mount.
    pub steps: Vec<Step>,
}

impl fmt::Display for Step {
    fn fmt(&self, f: &mut fmt::Formatter<'_>) -> fmt::Result {
        match self {
            Step::Call(call) => write!(f, "{call}"),
            Step::PowerLoss { .. } => write!(f, "power is lost"),
        }
    }
}

impl fmt::Display for History {
    fn fmt(&self, f: &mut fmt::Formatter<'_>) -> fmt::Result {
        if self.format {
            write!(f, "  a formatted box, mounted")?;
        } else {
            write!(f, "  a box with\n{}\n  mounted", self.start)?;
        }
        for (index, step) in self.steps.iter().enumerate() {
            write!(f, "\n  {index}: {step}")?;
        }
        Ok(())
    }
}

/// Makes the steps of one history.
pub struct Generator {
    rng: Rng,
    /// Most calls are on files below this.
    files: usize,
    /// Steps that are decided already.
    next: VecDeque<Step>,
}

impl Generator {
    /// The steps of this seed.
    pub fn new(seed: u64) -> Generator {
        let mut rng = Rng::new(seed);
        let files = rng.pick(&[1, 2, 3, FILES]);
        Generator {
            rng,
            files,
            next: VecDeque::new(),
        }
    }

    /// A history without steps yet: any media, stored sizes that a mount takes,
    /// any frames and state.
    pub fn start(&mut self) -> History {
        loop {
            let start = GuardedMemory::random(&mut self.rng);
            let stored = start.sizes.iter().all(|&size| size as usize <= FILE_BYTES);
            if start.has_right_lengths() && stored {
                return History {
                    start,
                    format: self.rng.chance(50),
                    steps: Vec::new(),
                };
            }
        }
    }

    /// How many steps the history gets.
    pub fn steps(&mut self) -> usize {
        self.rng.between(20, 80)
    }

    /// The next step, for a box with this memory.
    pub fn step(&mut self, memory: &GuardedMemory) -> Step {
        if let Some(step) = self.next.pop_front() {
            return step;
        }
        let up = memory.state[STATE_MOUNTED] == 1;
        let file = self.rng.below(self.files);
        let kind = if up {
            self.rng.weighted(&[34, 16, 16, 12, 10, 3, 3, 2, 2, 2])
        } else {
            self.rng.weighted(&[5, 3, 3, 3, 3, 70, 3, 2, 0, 0])
        };
        let call = match kind {
            0 => self.write(memory, file),
            1 => Call::Truncate {
                file,
                n: self.position(memory, file),
            },
            2 => self.sync(file),
            3 => {
                let mut buffer = vec![0; self.rng.below(700)];
                fill(&mut self.rng, &mut buffer);
                Call::Read {
                    file,
                    position: self.position(memory, file),
                    buffer,
                }
            }
            4 => Call::Look {
                file,
                position: self.position(memory, file),
            },
            5 => self.mount(),
            6 => {
                return Step::PowerLoss {
                    frames: self.rng.next_u64(),
                }
            }
            7 => self.odd_call(),
            8 => return self.long_sync(file),
            _ => return self.back_to_size(memory, file),
        };
        Step::Call(call)
    }

    fn mount(&mut self) -> Call {
        let budget = match self.rng.below(3) {
            0 => self.rng.below(4),
            1 => FULL,
            _ => self.rng.pick(&[MOUNT_WRITES, 65_536, usize::MAX]),
        };
        Call::Mount { budget }
    }

    fn sync(&mut self, file: usize) -> Call {
        let budget = match self.rng.below(4) {
            0 => self.rng.below(FULL + 1),
            1 => self.rng.pick(&[1 << 32, usize::MAX]),
            _ => FULL,
        };
        Call::Sync { file, budget }
    }

    /// Bytes that differ from each other, and mostly from 0, so that a piece in
    /// the wrong place shows.
    fn bytes(&mut self, length: usize) -> Vec<u8> {
        let mut bytes = vec![0; length];
        if self.rng.chance(90) {
            fill(&mut self.rng, &mut bytes);
            for byte in &mut bytes {
                *byte = (*byte).max(1);
            }
        } else {
            bytes.fill(self.rng.pick(&[0, 0, 1, 255]));
        }
        bytes
    }

    fn write(&mut self, memory: &GuardedMemory, file: usize) -> Call {
        let position = self.position(memory, file);
        let mut length = match self.rng.below(3) {
            0 => self
                .rng
                .pick(&[0, 1, 5, 12, PAGE_BYTES, 300, 1_000, FILE_BYTES]),
            1 => self.rng.below(PAGE_BYTES + 2),
            _ => self.rng.below(1_100),
        };
        if self.rng.chance(95) {
            length = length.min(FILE_BYTES.saturating_sub(position));
        }
        Call::Write {
            file,
            position,
            bytes: self.bytes(length),
        }
    }

    /// A whole file anew after a truncate: the most media writes.
    fn long_sync(&mut self, file: usize) -> Step {
        let bytes = self.bytes(FILE_BYTES);
        self.next.push_back(Step::Call(Call::Write {
            file,
            position: 0,
            bytes,
        }));
        self.next.push_back(Step::Call(Call::Sync {
            file,
            budget: self.rng.between(FULL - 6, FULL),
        }));
        Step::Call(Call::Truncate {
            file,
            n: self.rng.below(PAGE_BYTES),
        })
    }

    /// A shorter file that gets its stored size again before a sync.
    fn back_to_size(&mut self, memory: &GuardedMemory, file: usize) -> Step {
        let stored = memory.sizes[file] as usize;
        let n = self.rng.below(stored + 1);
        let back = if self.rng.chance(50) {
            Call::Truncate { file, n: stored }
        } else {
            let position = self.rng.between(n, stored);
            Call::Write {
                file,
                position,
                bytes: self.bytes(stored - position),
            }
        };
        self.next.push_back(Step::Call(back));
        let sync = self.sync(file);
        self.next.push_back(Step::Call(sync));
        Step::Call(Call::Truncate { file, n })
    }

    /// A position or a size: at the border of a page, near one of the file's
    /// sizes, or anywhere; seldom beyond the greatest.
    fn position(&mut self, memory: &GuardedMemory, file: usize) -> usize {
        let near = self.rng.below(7);
        let logical = decode(&memory.state).map_or(0, |state| state.logical[file]);
        match self.rng.below(12) {
            0 | 1 => (PAGE_BYTES * self.rng.below(PAGES + 1) + near).saturating_sub(3),
            2 | 3 => (logical + near).saturating_sub(3),
            4 => (memory.sizes[file] as usize + near).saturating_sub(3),
            5 => self.rng.below(FILE_BYTES + 4),
            6 => self.rng.below(logical + 1),
            _ => self.rng.below(800),
        }
    }

    /// A call with any numbers.
    fn odd_call(&mut self) -> Call {
        loop {
            let call = Call::random(&mut self.rng);
            if let Call::Read { .. }
            | Call::Write { .. }
            | Call::Truncate { .. }
            | Call::Look { .. }
            | Call::Sync { .. } = call
            {
                return call;
            }
        }
    }
}
