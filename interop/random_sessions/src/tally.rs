//! Counts of what sessions came to.

use std::fmt;

use layout::{MOUNT_WRITES, SYNC_WRITES};
use reference::session::Command;

/// How often each answer and some deeper events came.
#[derive(Clone, Debug, Default)]
pub struct Tally {
    /// Input lines.
    pub lines: usize,
    /// Sessions.
    pub sessions: usize,
    /// Answers by their number.
    pub answers: [usize; 10],
    /// Writes that put down less than they were given.
    pub short_writes: usize,
    /// Reads that gave at least one byte.
    pub reads_with_bytes: usize,
    /// Syncs done, by media writes made.
    pub done_syncs: [usize; SYNC_WRITES + 1],
    /// Syncs cut, by media writes made.
    pub cut_syncs: [usize; SYNC_WRITES + 1],
    /// Mounts done, by media writes made.
    pub done_mounts: [usize; MOUNT_WRITES + 1],
    /// Mounts cut, by media writes made.
    pub cut_mounts: [usize; MOUNT_WRITES + 1],
    /// Formats done, by media writes made.
    pub done_formats: [usize; MOUNT_WRITES + 1],
    /// Formats cut, by media writes made.
    pub cut_formats: [usize; MOUNT_WRITES + 1],
}

impl Tally {
    /// Adds a session: its input and the reference's output for it.
    pub fn add(&mut self, input: &[u8], output: &[u8]) {
        self.sessions += 1;
        let mut answers = output.split(|&byte| byte == b'\n').skip(1);
        let body = input.strip_suffix(b"\n").unwrap_or(input);
        if input.is_empty() {
            return;
        }
        for line in body.split(|&byte| byte == b'\n') {
            let answer = answers.next().unwrap_or_default();
            self.add_line(line, answer);
        }
    }

    fn add_line(&mut self, line: &[u8], answer: &[u8]) {
        let mut fields = answer.split(|&byte| byte == b',').map(|field| {
            field
                .iter()
                .fold(0, |value, digit| value * 10 + usize::from(digit - b'0'))
        });
        let number = fields.next().unwrap_or_default();
        let count = fields.next().unwrap_or_default();
        self.lines += 1;
        self.answers[number] += 1;
        let cut = number == 9;
        if number != 0 && !cut {
            return;
        }
        match Command::parse(line) {
            Some(Command::Write { length, .. }) => {
                self.short_writes += usize::from(count < length);
            }
            Some(Command::Read { .. }) => self.reads_with_bytes += usize::from(count > 0),
            Some(Command::Sync { .. }) if cut => self.cut_syncs[count] += 1,
            Some(Command::Sync { .. }) => self.done_syncs[count] += 1,
            Some(Command::Mount { .. }) if cut => self.cut_mounts[count] += 1,
            Some(Command::Mount { .. }) => self.done_mounts[count] += 1,
            Some(Command::Format { .. }) if cut => self.cut_formats[count] += 1,
            Some(Command::Format { .. }) => self.done_formats[count] += 1,
            Some(Command::Truncate { .. }) | None => {}
        }
    }
}

/// Counts by number of media writes, without the zeros at the end.
struct ByStores<'a>(&'a [usize]);

impl fmt::Display for ByStores<'_> {
    fn fmt(&self, f: &mut fmt::Formatter<'_>) -> fmt::Result {
        let used = self
            .0
            .iter()
            .rposition(|&count| count > 0)
            .map_or(0, |last| last + 1);
        if used == 0 {
            return write!(f, " none");
        }
        for (stores, count) in self.0[..used].iter().enumerate() {
            write!(f, " {stores}:{count}")?;
        }
        Ok(())
    }
}

impl fmt::Display for Tally {
    fn fmt(&self, f: &mut fmt::Formatter<'_>) -> fmt::Result {
        const NAMES: [&str; 10] = [
            "done", "LINE", "SHAPE", "MEDIA", "BOOKS", "DOWN", "NO FILE", "RANGE", "NO ROOM", "CUT",
        ];
        write!(f, "answers:")?;
        for (number, name) in NAMES.iter().enumerate() {
            if self.answers[number] > 0 {
                write!(f, " {number} {name} {};", self.answers[number])?;
            }
        }
        writeln!(f)?;
        writeln!(f, "short writes: {}", self.short_writes)?;
        writeln!(f, "reads with bytes: {}", self.reads_with_bytes)?;
        writeln!(f, "by media writes made:")?;
        writeln!(f, "  syncs done:  {}", ByStores(&self.done_syncs))?;
        writeln!(f, "  syncs cut:   {}", ByStores(&self.cut_syncs))?;
        writeln!(f, "  mounts done: {}", ByStores(&self.done_mounts))?;
        writeln!(f, "  mounts cut:  {}", ByStores(&self.cut_mounts))?;
        writeln!(f, "  formats done:{}", ByStores(&self.done_formats))?;
        write!(f, "  formats cut: {}", ByStores(&self.cut_formats))
    }
}

#[cfg(test)]
mod tests {
    use super::*;
    use reference::session::run_bytes;

    #[test]
    fn counts_what_happened() {
        let input = b"R,0,0,1\nM,0\nx\nW,0,0,4096,1\nW,1,0,4096,2\nW,2,0,1,3\nR,0,0,1\nS,0,4\nM,0\nM,1\nF,0";
        let mut tally = Tally::default();
        tally.add(input, &run_bytes(input));
        tally.add(b"", &run_bytes(b""));
        tally.add(b"\n", &run_bytes(b"\n"));
        assert_eq!(tally.lines, 12);
        assert_eq!(tally.sessions, 3);
        assert_eq!(tally.answers, [6, 2, 0, 0, 0, 1, 0, 0, 1, 2]);
        assert_eq!(tally.short_writes, 1);
        assert_eq!(tally.reads_with_bytes, 1);
        assert_eq!(tally.cut_syncs[4], 1);
        assert_eq!(tally.cut_mounts[0], 1);
        assert_eq!((tally.done_mounts[0], tally.done_mounts[1]), (1, 1));
        assert_eq!(tally.done_formats[0], 1);
        let text = tally.to_string();
        assert!(text.contains("9 CUT 2;"));
        assert!(text.contains("syncs cut:    0:0 1:0 2:0 3:0 4:1\n"));
    }
}
