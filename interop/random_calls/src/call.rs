//! Random calls.

use std::fmt;

use layout::{FILES, FILE_BYTES, MOUNT_WRITES, PAGES, PAGE_BYTES, SYNC_WRITES};
use random_sessions::rng::Rng;

use crate::guarded::guarded;
use crate::memory::Memory;
use crate::random_memory::{fill, GuardedMemory};
use crate::store::Store;
use crate::text::Bytes;

/// One call with its arguments, and the buffers of its own.
#[derive(Clone, Debug, PartialEq, Eq)]
pub enum Call {
    /// See [`Store::down`].
    Down,
    /// See [`Store::format`].
    Format {
        /// Media writes allowed.
        budget: usize,
    },
    /// See [`Store::mount`].
    Mount {
        /// Media writes allowed.
        budget: usize,
    },
    /// See [`Store::read`].
    Read {
        /// File number.
        file: usize,
        /// Position of the first byte.
        position: usize,
        /// Takes the bytes.
        buffer: Vec<u8>,
    },
    /// See [`Store::write`].
    Write {
        /// File number.
        file: usize,
        /// Position of the first byte.
        position: usize,
        /// The bytes.
        bytes: Vec<u8>,
    },
    /// See [`Store::truncate`].
    Truncate {
        /// File number.
        file: usize,
        /// The new size.
        n: usize,
    },
    /// See [`Store::sync`].
    Sync {
        /// File number.
        file: usize,
        /// Media writes allowed.
        budget: usize,
    },
    /// See [`Store::look_count`] and [`Store::look`]: both.
    Look {
        /// File number.
        file: usize,
        /// Position of the first byte.
        position: usize,
    },
    /// See [`Store::truncate_sizes`].
    TruncateSizes {
        /// The record of sizes.
        record: Vec<u32>,
        /// The new size.
        n: usize,
        /// The greatest file size.
        greatest: u32,
    },
    /// See [`Store::write_page`].
    WritePage {
        /// The page that is replaced.
        page: Vec<u8>,
        /// The new bytes.
        bytes: Vec<u8>,
    },
    /// See [`Store::write_size`].
    WriteSize {
        /// File number.
        file: usize,
        /// The new size.
        n: usize,
    },
    /// See [`Store::trim`].
    Trim {
        /// File number.
        file: usize,
        /// The new size.
        n: usize,
    },
}

/// The names of the calls, in the order of [`Call::kind`].
pub const KINDS: [&str; 12] = [
    "down",
    "format",
    "mount",
    "read",
    "write",
    "truncate",
    "sync",
    "look",
    "truncate_sizes",
    "write_page",
    "write_size",
    "trim",
];

impl Call {
    /// A random call.
    pub fn random(rng: &mut Rng) -> Call {
        match rng.weighted(&[1, 2, 6, 24, 24, 10, 12, 16, 3, 1, 2, 2]) {
            0 => Call::Down,
            1 => Call::Format {
                budget: budget(rng),
            },
            2 => Call::Mount {
                budget: budget(rng),
            },
            3 => {
                let length = length(rng);
                Call::Read {
                    file: file(rng),
                    position: position(rng),
                    buffer: random_bytes(rng, length),
                }
            }
            4 => {
                let position = position(rng);
                let mut length = length(rng);
                if rng.chance(80) {
                    length = length.min(FILE_BYTES.saturating_sub(position));
                }
                Call::Write {
                    file: file(rng),
                    position,
                    bytes: random_bytes(rng, length),
                }
            }
            5 => Call::Truncate {
                file: file(rng),
                n: position(rng),
            },
            6 => Call::Sync {
                file: file(rng),
                budget: budget(rng),
            },
            7 => Call::Look {
                file: file(rng),
                position: position(rng),
            },
            8 => Call::random_truncate_sizes(rng),
            9 => {
                let lengths = [
                    PAGE_BYTES,
                    PAGE_BYTES,
                    PAGE_BYTES,
                    PAGE_BYTES,
                    0,
                    PAGE_BYTES - 1,
                    PAGE_BYTES + 1,
                ];
                let (page, bytes) = (rng.pick(&lengths), rng.pick(&lengths));
                Call::WritePage {
                    page: random_bytes(rng, page),
                    bytes: random_bytes(rng, bytes),
                }
            }
            10 => Call::WriteSize {
                file: file(rng),
                n: position(rng),
            },
            _ => Call::Trim {
                file: file(rng),
                n: position(rng),
            },
        }
    }

    fn random_truncate_sizes(rng: &mut Rng) -> Call {
        let greatest = rng.pick(&[0, 1, 100, 4_096, 4_096, 4_096, 1 << 31, u32::MAX]);
        let mut record: Vec<u32> = (0..3)
            .map(|_| rng.between(0, greatest as usize) as u32)
            .collect();
        if rng.chance(60) {
            record[1] = record[1].min(record[0]).min(record[2]);
        }
        if rng.chance(10) {
            record[0] = greatest.saturating_add(1);
        }
        if rng.chance(10) {
            record.resize(rng.pick(&[0, 1, 2, 4]), 0);
        }
        let n = match rng.below(20) {
            0..=11 => rng.between(0, greatest as usize),
            12 => any_number(rng),
            _ => rng.pick(&[
                0,
                greatest as usize,
                greatest as usize + 1,
                1 << 32,
                usize::MAX,
            ]),
        };
        Call::TruncateSizes {
            record,
            n,
            greatest,
        }
    }

    /// The index of the call's name.
    pub fn kind(&self) -> usize {
        match self {
            Call::Down => 0,
            Call::Format { .. } => 1,
            Call::Mount { .. } => 2,
            Call::Read { .. } => 3,
            Call::Write { .. } => 4,
            Call::Truncate { .. } => 5,
            Call::Sync { .. } => 6,
            Call::Look { .. } => 7,
            Call::TruncateSizes { .. } => 8,
            Call::WritePage { .. } => 9,
            Call::WriteSize { .. } => 10,
            Call::Trim { .. } => 11,
        }
    }

    /// What of the memory the call may write.
    pub fn may_write(&self) -> Memory<bool, bool> {
        let none = Memory {
            media: false,
            sizes: false,
            frames: false,
            state: false,
        };
        match self {
            Call::Down => Memory {
                state: true,
                ..none
            },
            Call::Format { .. } | Call::Mount { .. } | Call::Sync { .. } => Memory {
                media: true,
                sizes: true,
                state: true,
                ..none
            },
            Call::Write { .. } | Call::Truncate { .. } => Memory {
                frames: true,
                state: true,
                ..none
            },
            Call::WriteSize { .. } => Memory {
                sizes: true,
                ..none
            },
            Call::Trim { .. } => Memory {
                media: true,
                sizes: true,
                ..none
            },
            Call::Read { .. }
            | Call::Look { .. }
            | Call::TruncateSizes { .. }
            | Call::WritePage { .. } => none,
        }
    }

    /// Calls of the same kind with one thing made simpler: a number smaller, a
    /// buffer shorter or of one value.
    pub fn simpler(&self) -> Vec<Call> {
        let mut simpler = with_smaller_numbers(self, Call::numbers);
        let mut call = self.clone();
        for index in 0..call.buffers().len() {
            let bytes = call.buffers()[index].clone();
            for shorter in smaller(bytes.len()) {
                *call.buffers()[index] = bytes[..shorter].to_vec();
                simpler.push(call.clone());
            }
            if bytes.iter().any(|&byte| byte != 1) {
                *call.buffers()[index] = vec![1; bytes.len()];
                simpler.push(call.clone());
            }
            *call.buffers()[index] = bytes;
        }
        simpler
    }

    fn numbers(&mut self) -> Vec<&mut usize> {
        match self {
            Call::Down | Call::WritePage { .. } => vec![],
            Call::Format { budget } | Call::Mount { budget } => vec![budget],
            Call::Read { file, position, .. }
            | Call::Write { file, position, .. }
            | Call::Look { file, position } => vec![file, position],
            Call::Truncate { file, n } | Call::WriteSize { file, n } | Call::Trim { file, n } => {
                vec![file, n]
            }
            Call::Sync { file, budget } => vec![file, budget],
            Call::TruncateSizes { n, .. } => vec![n],
        }
    }

    fn buffers(&mut self) -> Vec<&mut Vec<u8>> {
        match self {
            Call::Read { buffer, .. } => vec![buffer],
            Call::Write { bytes, .. } => vec![bytes],
            Call::WritePage { page, bytes } => vec![page, bytes],
            _ => vec![],
        }
    }

    /// Carries the call out, on slices that lie between guards.
    pub fn run<S: Store>(&mut self, memory: &mut GuardedMemory) -> Ran {
        let lent = memory.lend_mut();
        let mut look = 0;
        let (word, intact) = match self {
            Call::Down => (S::down(lent.state), true),
            Call::Format { budget } => (S::format(lent, *budget), true),
            Call::Mount { budget } => (S::mount(lent, *budget), true),
            Call::Read {
                file,
                position,
                buffer,
            } => guarded(buffer, |buffer| {
                S::read(lent.lend(), *file, *position, buffer)
            }),
            Call::Write {
                file,
                position,
                bytes,
            } => guarded(bytes, |bytes| S::write(lent, *file, *position, bytes)),
            Call::Truncate { file, n } => (S::truncate(lent, *file, *n), true),
            Call::Sync { file, budget } => (S::sync(lent, *file, *budget), true),
            Call::Look { file, position } => {
                look = S::look(lent.lend(), *file, *position);
                (S::look_count(lent.lend(), *file, *position), true)
            }
            Call::TruncateSizes {
                record,
                n,
                greatest,
            } => guarded(record, |record| S::truncate_sizes(record, *n, *greatest)),
            Call::WritePage { page, bytes } => {
                let ((word, bytes_intact), page_intact) = guarded(page, |page| {
                    guarded(bytes, |bytes| S::write_page(page, bytes))
                });
                (word, bytes_intact && page_intact)
            }
            Call::WriteSize { file, n } => (S::write_size(lent, *file, *n), true),
            Call::Trim { file, n } => (S::trim(lent, *file, *n), true),
        };
        Ran {
            word,
            look,
            intact: intact && memory.is_intact(),
        }
    }
}

/// What a call answered.
#[derive(Clone, Copy, Debug, PartialEq, Eq)]
pub struct Ran {
    /// The word: 65,536 * number + count.
    pub word: u32,
    /// Of a look, the word that tells where the bytes lie; else 0.
    pub look: u64,
    /// Whether all guards are as they were made.
    pub intact: bool,
}

/// Random bytes.
pub fn random_bytes(rng: &mut Rng, length: usize) -> Vec<u8> {
    let mut bytes = vec![0; length];
    fill(rng, &mut bytes);
    bytes
}

/// Some smaller numbers, the smallest first.
pub fn smaller(number: usize) -> impl Iterator<Item = usize> {
    let numbers = [
        0,
        number / 2,
        number - number / 8,
        number - number / 64,
        number.saturating_sub(1),
    ];
    numbers.into_iter().filter(move |&smaller| smaller < number)
}

/// The calls that differ from one in a smaller number.
pub fn with_smaller_numbers<C: Clone>(
    call: &C,
    numbers: for<'a> fn(&'a mut C) -> Vec<&'a mut usize>,
) -> Vec<C> {
    let mut simpler = Vec::new();
    let mut call = call.clone();
    for index in 0..numbers(&mut call).len() {
        let number = *numbers(&mut call)[index];
        for smaller in smaller(number) {
            *numbers(&mut call)[index] = smaller;
            simpler.push(call.clone());
        }
        *numbers(&mut call)[index] = number;
    }
    simpler
}

impl fmt::Display for Call {
    fn fmt(&self, f: &mut fmt::Formatter<'_>) -> fmt::Result {
        write!(f, "{}", KINDS[self.kind()])?;
        match self {
            Call::Down => Ok(()),
            Call::Format { budget } | Call::Mount { budget } => write!(f, ", budget {budget}"),
            Call::Read {
                file,
                position,
                buffer,
            } => write!(
                f,
                " file {file}, position {position}, buffer of {}: {}",
                buffer.len(),
                Bytes(buffer)
            ),
            Call::Write {
                file,
                position,
                bytes,
            } => write!(
                f,
                " file {file}, position {position}, length {}: {}",
                bytes.len(),
                Bytes(bytes)
            ),
            Call::Truncate { file, n } | Call::WriteSize { file, n } | Call::Trim { file, n } => {
                write!(f, " file {file}, to {n}")
            }
            Call::Sync { file, budget } => write!(f, " file {file}, budget {budget}"),
            Call::Look { file, position } => write!(f, " file {file}, position {position}"),
            Call::TruncateSizes {
                record,
                n,
                greatest,
            } => write!(f, " {record:?}, to {n}, greatest {greatest}"),
            Call::WritePage { page, bytes } => write!(
                f,
                " of {}: {}, with {}: {}",
                page.len(),
                Bytes(page),
                bytes.len(),
                Bytes(bytes)
            ),
        }
    }
}

/// Any number, with any number of bits.
pub fn any_number(rng: &mut Rng) -> usize {
    let shift = rng.below(64);
    (rng.next_u64() >> shift) as usize
}

fn file(rng: &mut Rng) -> usize {
    match rng.below(40) {
        0 => any_number(rng),
        1 => rng.pick(&[FILES, FILES + 1, 256, 1 << 32, usize::MAX]),
        _ => rng.below(FILES),
    }
}

/// A position or a size: within a file, at the border of a page, at a limit or
/// beyond.
fn position(rng: &mut Rng) -> usize {
    match rng.below(20) {
        0..=11 => rng.below(FILE_BYTES + 1),
        12..=15 => (rng.below(PAGES + 1) * PAGE_BYTES + rng.below(3)).saturating_sub(1),
        16 | 17 => 0,
        18 => any_number(rng),
        _ => rng.pick(&[
            FILE_BYTES,
            FILE_BYTES + 1,
            65_536,
            1 << 32,
            (1 << 32) + 5,
            usize::MAX - 3,
            usize::MAX,
        ]),
    }
}

fn length(rng: &mut Rng) -> usize {
    match rng.below(8) {
        0 => 0,
        1 | 2 => rng.below(32),
        3 | 4 => rng.below(600),
        5 => rng.below(PAGES + 1) * PAGE_BYTES,
        6 => rng.below(FILE_BYTES + 1),
        // more than the count of an answer can tell
        _ if rng.chance(4) => 65_536 + rng.below(PAGE_BYTES),
        _ => rng.pick(&[1, 8, 12, FILE_BYTES, FILE_BYTES + 1, 5_000]),
    }
}

fn budget(rng: &mut Rng) -> usize {
    match rng.below(8) {
        0 | 1 => rng.below(4),
        2 | 3 => rng.below(20),
        4 => any_number(rng),
        _ => rng.pick(&[
            MOUNT_WRITES,
            SYNC_WRITES,
            65_535,
            65_536,
            1 << 32,
            usize::MAX,
        ]),
    }
}
