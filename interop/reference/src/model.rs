//! Model files (document 01: the plain files): what a file may hold after a
//! mount, told from the calls made on it and their answers alone.

use crate::store::Answer;

/// An accepted change of a file since its last sync or mount.
#[derive(Clone, Debug, PartialEq, Eq)]
pub enum Entry {
    /// Bytes that were written, as many as the write reported.
    Write {
        /// Position of the first byte.
        position: usize,
        /// The bytes put down; at least one.
        bytes: Vec<u8>,
    },
    /// A cut, or an extension by zeros.
    Truncate {
        /// The new size.
        size: usize,
    },
}

/// One model file.
#[derive(Clone, Debug, Default, PartialEq, Eq)]
pub struct ModelFile {
    /// What reads give (document 01: present bytes).
    pub current: Vec<u8>,
    /// What the last sync or mount left (document 01: kept bytes).
    pub durable: Vec<u8>,
    /// The changes since then, in order (document 01: log).
    pub log: Vec<Entry>,
}

impl ModelFile {
    /// A mount was done and found these bytes.
    pub fn mount(&mut self, found: &[u8]) {
        self.current = found.to_vec();
        self.durable = found.to_vec();
        self.log.clear();
    }

    /// A write was answered.
    pub fn write(&mut self, position: usize, bytes: &[u8], answer: Answer) {
        let Answer::Done(count @ 1..) = answer else {
            return;
        };
        let bytes = &bytes[..count];
        put(&mut self.current, position, bytes);
        self.log.push(Entry::Write {
            position,
            bytes: bytes.to_vec(),
        });
    }

    /// A truncate was answered.
    pub fn truncate(&mut self, size: usize, answer: Answer) {
        if let Answer::Done(_) = answer {
            self.current.resize(size, 0);
            self.log.push(Entry::Truncate { size });
        }
    }

    /// A sync was answered.
    pub fn sync(&mut self, answer: Answer) {
        if let Answer::Done(_) = answer {
            self.durable.clone_from(&self.current);
            self.log.clear();
        }
    }

    /// Whether a mount may find these bytes now.
    pub fn explains(&self, found: &[u8]) -> bool {
        explained(&self.durable, &self.log, found)
    }
}

/// Puts bytes into a file, after zeros that fill a gap before them.
pub fn put(file: &mut Vec<u8>, position: usize, bytes: &[u8]) {
    if bytes.is_empty() {
        return;
    }
    let end = position + bytes.len();
    if file.len() < end {
        file.resize(end, 0);
    }
    file[position..end].copy_from_slice(bytes);
}

/// Whether `found` is what `durable` becomes by the log in order, each write
/// with some count from 0 to its own and each truncate carried out or not.
///
/// Goes through the log backwards with the set of all files from which the
/// rest of the log can lead to `found`; see [`Goal`].
pub fn explained(durable: &[u8], log: &[Entry], found: &[u8]) -> bool {
    let span = log
        .iter()
        .map(|entry| match entry {
            Entry::Write { position, bytes } => position + bytes.len(),
            Entry::Truncate { .. } => 0,
        })
        .fold(durable.len().max(found.len()), usize::max);
    let mut goal = Goal::only(found, span);
    for entry in log.iter().rev() {
        match entry {
            Entry::Write { position, bytes } => goal.before_write(*position, bytes),
            Entry::Truncate { size } => goal.before_truncate(*size),
        }
    }
    goal.contains(durable)
}

/// A set of files: those of `low` to `high` bytes that, followed by endless
/// zeros, have the required byte at each position that requires one.
///
/// Read with endless zeros behind its end, a file needs no filling of gaps: a
/// write sets bytes and raises the size, and a truncate clears all bytes from
/// its size on and sets the size. Each step back keeps the set in this form,
/// because one choice leads back to a set that includes those of all others:
///
/// - A write of k bytes needs its k bytes to agree with the requirements and
///   its end to be at most `high`. It lifts the requirements there, and `low`
///   too if it reaches that. More bytes lift more.
/// - A truncate needs its size to be allowed and no requirement of a nonzero
///   byte behind it. It lifts both bounds and all requirements behind its
///   size. Leaving it out lifts nothing.
///
/// `low` is never below the last required nonzero byte, since a shorter file
/// has a zero there.
struct Goal {
    required: Vec<Option<u8>>,
    low: usize,
    high: usize,
}

impl Goal {
    fn only(found: &[u8], span: usize) -> Goal {
        let mut required = vec![Some(0); span];
        for (slot, &byte) in required.iter_mut().zip(found) {
            *slot = Some(byte);
        }
        Goal {
            required,
            low: found.len(),
            high: found.len(),
        }
    }

    /// Goes back over a write.
    fn before_write(&mut self, position: usize, bytes: &[u8]) {
        let room = self.high.saturating_sub(position);
        let count = bytes
            .iter()
            .zip(&self.required[position..])
            .take(room)
            .take_while(|(&byte, required)| required.is_none_or(|wanted| wanted == byte))
            .count();
        if count == 0 {
            return;
        }
        self.required[position..position + count].fill(None);
        if position + count >= self.low {
            self.lift_low();
        }
    }

    /// Goes back over a truncate.
    fn before_truncate(&mut self, size: usize) {
        if size < self.low || size > self.high {
            return;
        }
        if let Some(behind) = self.required.get_mut(size..) {
            behind.fill(None);
        }
        self.high = usize::MAX;
        self.lift_low();
    }

    /// Lowers `low` to the last required nonzero byte.
    fn lift_low(&mut self) {
        self.low = self.low.min(self.required.len());
        while self.low > 0 && matches!(self.required[self.low - 1], None | Some(0)) {
            self.low -= 1;
        }
    }

    fn contains(&self, file: &[u8]) -> bool {
        let bytes = file.iter().copied().chain(std::iter::repeat(0));
        (self.low..=self.high).contains(&file.len())
            && self
                .required
                .iter()
                .zip(bytes)
                .all(|(required, byte)| required.is_none_or(|wanted| wanted == byte))
    }
}
