//! The generator of sessions: mostly valid lines that lead a store into deep
//! states, and malformed lines of every kind.

use layout::{FILES, FILE_BYTES, PAGES, PAGE_BYTES};
use reference::device::Device;
use reference::session::{Command, READ_MAX};
use reference::store::CacheState;

use crate::program::Feed;
use crate::rng::Rng;

/// The input of one run, and how it is to be fed.
#[derive(Clone, Debug, PartialEq, Eq)]
pub struct Session {
    /// The lines, each without its LF.
    pub lines: Vec<Vec<u8>>,
    /// Whether the last line ends in LF.
    pub final_lf: bool,
    /// How the input is fed to a process.
    pub feed: Feed,
}

impl Session {
    /// The bytes of the input.
    pub fn to_bytes(&self) -> Vec<u8> {
        let mut bytes = self.lines.join(&b'\n');
        if self.final_lf && !self.lines.is_empty() {
            bytes.push(b'\n');
        }
        bytes
    }
}

/// The first sessions of each seed: no input, one LF, and very long lines.
pub const SPECIAL_SESSIONS: u64 = 3;

/// Session number `index` of a seed. It depends on nothing else, so that a
/// failure can be repeated from the seed alone.
pub fn session(seed: u64, index: u64) -> Session {
    let mut rng = Rng::new(seed ^ index.wrapping_mul(0xd134_2543_de82_ef95));
    let count = match rng.weighted(&[10, 15, 75]) {
        0 => rng.between(1, 30),
        1 => rng.between(30, 500),
        _ => rng.between(1500, 8000),
    };
    let mut generator = Generator::new(rng.next_u64());
    let lines: Vec<Vec<u8>> = match index {
        0 => Vec::new(),
        1 => vec![Vec::new()],
        2 => generator.long_lines(),
        _ => (0..count)
            .map(|_| {
                let mut line = Vec::new();
                generator.next_line(&mut line);
                line
            })
            .collect(),
    };
    // An empty last line is no line without its LF.
    let final_lf = lines.last().is_none_or(Vec::is_empty) || !rng.chance(25);
    let feed = if rng.chance(25) {
        Feed::Pieces(rng.next_u64())
    } else {
        Feed::Whole
    };
    Session {
        lines,
        final_lf,
        feed,
    }
}

/// What a stretch of lines is about.
#[derive(Clone, Copy, Debug, PartialEq, Eq)]
enum Mode {
    /// A bit of everything.
    Mixed,
    /// Long writes to several files and few syncs: the cache fills.
    Fill,
    /// One file is rewritten as a whole, truncated and synced.
    Rewrite,
    /// Small changes, cut syncs and mounts.
    Power,
    /// Small changes near one place, each looked at.
    Probe,
    /// Mostly malformed lines.
    Malformed,
}

/// Makes one line after the other, and follows the store to aim at places
/// where it has something to get wrong.
#[derive(Clone, Debug)]
pub struct Generator {
    rng: Rng,
    device: Device,
    mode: Mode,
    /// Lines left in this mode.
    left: usize,
    /// The files this mode is about.
    files: Vec<usize>,
    /// Positions of recent changes.
    recent: [(usize, usize); 8],
    next_recent: usize,
    byte: u8,
}

impl Generator {
    /// A generator at the start of a session.
    pub fn new(seed: u64) -> Self {
        Generator {
            rng: Rng::new(seed),
            device: Device::new(),
            mode: Mode::Mixed,
            left: 0,
            files: vec![0],
            recent: [(0, 0); 8],
            next_recent: 0,
            byte: 0,
        }
    }

    /// Appends the next line to `line`, without LF.
    pub fn next_line(&mut self, line: &mut Vec<u8>) {
        if self.left == 0 {
            self.change_mode();
        }
        self.left -= 1;
        let start = line.len();
        let malformed = match self.mode {
            Mode::Malformed => 60,
            _ => 3,
        };
        let command = self.command();
        push_command(line, command);
        if self.rng.chance(malformed) {
            let mut text = line.split_off(start);
            self.damage(&mut text);
            line.append(&mut text);
        }
        if let Some(command) = Command::parse(&line[start..]) {
            self.note(command);
            command.run(&mut self.device, &mut [0; READ_MAX]);
        }
    }

    /// Lines about as long as the blocks that programs read, among others.
    fn long_lines(&mut self) -> Vec<Vec<u8>> {
        let mut lines = Vec::new();
        for block in [
            40, 256, 512, 1024, 4096, 8192, 16_384, 32_768, 65_536, 131_072,
        ] {
            for length in block - 2..=block + 1 {
                let mut line = Vec::new();
                push_command(&mut line, self.command());
                pad(&mut line, length, &mut self.rng);
                lines.push(line);
                for _ in 0..self.rng.between(0, 3) {
                    let mut line = Vec::new();
                    self.next_line(&mut line);
                    lines.push(line);
                }
            }
        }
        let mut longest = b"M,0".to_vec();
        pad(&mut longest, 1 << 20, &mut self.rng);
        lines.push(longest);
        lines.push(b"M,0".to_vec());
        lines
    }

    fn change_mode(&mut self) {
        use Mode::*;
        const MODES: [Mode; 6] = [Mixed, Fill, Rewrite, Power, Probe, Malformed];
        self.mode = MODES[self.rng.weighted(&[30, 20, 20, 15, 20, 3])];
        self.left = self.rng.between(10, 150);
        let count = match self.mode {
            Rewrite | Probe => 1,
            Fill => self.rng.between(2, FILES),
            _ => self.rng.pick(&[1, 2, 3, FILES]),
        };
        let first = self.rng.below(FILES);
        self.files = (0..count).map(|k| (first + k) % FILES).collect();
    }

    /// Remembers where a command changes something.
    fn note(&mut self, command: Command) {
        let places = match command {
            Command::Write {
                file,
                position,
                length,
                ..
            } => [(file, position), (file, position + length)],
            Command::Truncate { file, size } => [(file, size); 2],
            _ => return,
        };
        for place in places {
            self.recent[self.next_recent] = place;
            self.next_recent = (self.next_recent + 1) % self.recent.len();
        }
    }

    fn command(&mut self) -> Command {
        if self.device.state == CacheState::DOWN {
            match self.rng.weighted(&[75, 5, 20]) {
                0 => return self.mount(),
                1 => return self.format(),
                _ => {}
            }
        }
        // Format, mount, write, truncate, sync, read.
        let weights = match self.mode {
            Mode::Mixed | Mode::Malformed => [2, 8, 350, 160, 130, 350],
            Mode::Fill => [1, 3, 600, 60, 30, 306],
            Mode::Rewrite => [1, 5, 400, 200, 160, 234],
            Mode::Power => [10, 60, 300, 150, 220, 260],
            Mode::Probe => [1, 10, 300, 200, 80, 409],
        };
        match self.rng.weighted(&weights) {
            0 => self.format(),
            1 => self.mount(),
            2 => self.write(),
            3 => {
                let file = self.file();
                let size = self.position(file);
                Command::Truncate { file, size }
            }
            4 => self.sync(),
            _ => self.read(),
        }
    }

    fn file(&mut self) -> usize {
        match self.rng.weighted(&[900, 85, 15]) {
            0 => self.files[self.rng.below(self.files.len())],
            1 => self.rng.below(FILES),
            _ => self
                .rng
                .pick(&[8, 8, 8, 9, 10, 15, 16, 255, 256, 4096, 65_535]),
        }
    }

    /// A value a few below to a few above another.
    fn near(&mut self, value: usize) -> usize {
        let off = self.rng.pick(&[0, 0, 0, 1, 1, 2, 3, 10]);
        if self.rng.chance(50) {
            value + off
        } else {
            value.saturating_sub(off)
        }
    }

    /// A position in a file where something may go wrong.
    fn position(&mut self, file: usize) -> usize {
        let state = &self.device.state;
        let own = |sizes: &[usize; FILES]| sizes.get(file).copied().unwrap_or(0);
        let (logical, floor) = (own(&state.logical), own(&state.floor));
        let stored = self.device.sizes.get(file).map_or(0, |&size| size as usize);
        match self.rng.weighted(&[25, 18, 8, 8, 6, 18, 8, 6, 2, 1]) {
            0 => {
                let page = self.rng.below(PAGES + 1);
                self.near(PAGE_BYTES * page)
            }
            1 => self.near(logical),
            2 => self.near(floor),
            3 => self.near(stored),
            4 => self.near(FILE_BYTES),
            5 => {
                let (recent_file, position) = self.recent[self.rng.below(self.recent.len())];
                if recent_file == file {
                    self.near(position)
                } else {
                    self.rng.below(PAGE_BYTES)
                }
            }
            6 => self.rng.between(0, FILE_BYTES),
            7 => 0,
            8 => self.rng.pick(&[4096, 4097, 4098, 4351, 4352, 8192]),
            _ => self.rng.pick(&[9999, 32_767, 32_768, 65_280, 65_535]),
        }
        .min(65_535)
    }

    fn write(&mut self) -> Command {
        let file = self.file();
        let mut position = self.position(file);
        let mut length = match self.rng.weighted(&[4, 12, 25, 15, 25, 10, 9]) {
            0 => 0,
            1 => 1,
            2 => self.rng.between(2, 40),
            3 => self.near(PAGE_BYTES),
            4 => {
                // The end is aimed at, not the length.
                let end = self.position(file);
                end.saturating_sub(position)
            }
            5 => self.rng.between(0, FILE_BYTES),
            _ => FILE_BYTES.saturating_sub(position),
        };
        match self.mode {
            Mode::Rewrite if self.rng.chance(15) => {
                (position, length) = (0, FILE_BYTES);
            }
            Mode::Fill if self.rng.chance(25) => {
                position = PAGE_BYTES * self.rng.below(PAGES);
                length = self.rng.between(1, 6) * PAGE_BYTES;
            }
            Mode::Probe => length = length.min(600),
            _ => {}
        }
        length = length.min(FILE_BYTES);
        if position + length > FILE_BYTES && self.rng.chance(92) {
            length = FILE_BYTES.saturating_sub(position);
        }
        self.byte = self.byte.wrapping_add(1);
        let byte = match self.rng.below(20) {
            0 => 0,
            1 => 255,
            _ => self.byte,
        };
        Command::Write {
            file,
            position,
            length,
            byte,
        }
    }

    fn read(&mut self) -> Command {
        let file = self.file();
        let mut position = self.position(file);
        let length = match self.rng.weighted(&[3, 7, 30, 60]) {
            0 => 0,
            1 => 1,
            2 => self.rng.below(READ_MAX + 1),
            _ => READ_MAX,
        };
        let size = self.device.state.logical.get(file).copied().unwrap_or(0);
        if position > size && size > 0 && self.rng.chance(70) {
            position = self.rng.below(size);
        }
        if self.rng.chance(50) {
            // Straddle the place.
            position = position.saturating_sub(self.rng.below(READ_MAX));
        }
        Command::Read {
            file,
            position,
            length,
        }
    }

    /// A budget around what a call needs, or any small one.
    fn budget(&mut self, needed: usize, enough: usize) -> usize {
        if self.rng.chance(enough) {
            return needed + self.rng.pick(&[0, 0, 1, 20]);
        }
        match self.rng.below(4) {
            0 => self.rng.between(0, 2),
            1 => needed.saturating_sub(1),
            2 => self.rng.below(needed + 1),
            _ => self.rng.between(0, 20),
        }
    }

    fn sync(&mut self) -> Command {
        let file = self.file();
        let state = &self.device.state;
        let mut needed = 0;
        if file < FILES {
            needed += state
                .slots
                .iter()
                .filter(|slot| slot.used && slot.file == file)
                .count();
            needed += usize::from(state.floor[file] < self.device.sizes[file] as usize);
            needed += usize::from(state.logical[file] != state.floor[file]);
        }
        let enough = if self.mode == Mode::Power { 35 } else { 75 };
        let budget = self.budget(needed, enough);
        Command::Sync { file, budget }
    }

    fn mount(&mut self) -> Command {
        let budget = match self.rng.weighted(&[20, 70, 5, 4, 1]) {
            0 => 0,
            1 => 1,
            2 => 2,
            3 => self.rng.between(0, 20),
            _ => 65_535,
        };
        Command::Mount { budget }
    }

    fn format(&mut self) -> Command {
        let filled = self.device.sizes.iter().filter(|&&size| size > 0).count();
        let budget = self.budget(filled, 50);
        Command::Format { budget }
    }

    /// Turns a valid line into another, mostly a malformed one.
    fn damage(&mut self, line: &mut Vec<u8>) {
        let kind = KINDS[self.rng.below(KINDS.len())];
        apply(kind, line, &mut self.rng);
        // A line has no LF in it.
        line.retain(|&byte| byte != b'\n');
    }
}

fn push_command(line: &mut Vec<u8>, command: Command) {
    let (letter, numbers) = match command {
        Command::Format { budget } => (b'F', [Some(budget), None, None, None]),
        Command::Mount { budget } => (b'M', [Some(budget), None, None, None]),
        Command::Write {
            file,
            position,
            length,
            byte,
        } => (
            b'W',
            [
                Some(file),
                Some(position),
                Some(length),
                Some(usize::from(byte)),
            ],
        ),
        Command::Truncate { file, size } => (b'T', [Some(file), Some(size), None, None]),
        Command::Sync { file, budget } => (b'S', [Some(file), Some(budget), None, None]),
        Command::Read {
            file,
            position,
            length,
        } => (b'R', [Some(file), Some(position), Some(length), None]),
    };
    line.push(letter);
    for number in numbers.into_iter().flatten() {
        line.push(b',');
        push_number(line, number);
    }
}

fn push_number(line: &mut Vec<u8>, number: usize) {
    let mut digits = [0; 20];
    let mut start = digits.len();
    let mut left = number;
    loop {
        start -= 1;
        digits[start] = b'0' + (left % 10) as u8;
        left /= 10;
        if left == 0 {
            break;
        }
    }
    line.extend_from_slice(&digits[start..]);
}

/// A way to damage a line.
#[derive(Clone, Copy, Debug, PartialEq, Eq)]
enum Kind {
    ChangeByte,
    InsertByte,
    RemoveByte,
    SwapBytes,
    DoubleComma,
    TrailingComma,
    MissingField,
    ExtraField,
    EmptyField,
    PadTo5Digits,
    PadTo6Digits,
    LargeNumber,
    ByteLimit,
    WriteLimit,
    ReadLimit,
    FortyBytes,
    FortyOneBytes,
    LongLine,
    EmptyLine,
    CarriageReturn,
    Nul,
    HighByte,
    LowerCase,
    OtherLetter,
    Space,
    Sign,
    Separator,
    OddDigit,
    Quotes,
    TwoCommands,
    LetterOnly,
    RandomBytes,
}

const KINDS: [Kind; 32] = [
    Kind::ChangeByte,
    Kind::InsertByte,
    Kind::RemoveByte,
    Kind::SwapBytes,
    Kind::DoubleComma,
    Kind::TrailingComma,
    Kind::MissingField,
    Kind::ExtraField,
    Kind::EmptyField,
    Kind::PadTo5Digits,
    Kind::PadTo6Digits,
    Kind::LargeNumber,
    Kind::ByteLimit,
    Kind::WriteLimit,
    Kind::ReadLimit,
    Kind::FortyBytes,
    Kind::FortyOneBytes,
    Kind::LongLine,
    Kind::EmptyLine,
    Kind::CarriageReturn,
    Kind::Nul,
    Kind::HighByte,
    Kind::LowerCase,
    Kind::OtherLetter,
    Kind::Space,
    Kind::Sign,
    Kind::Separator,
    Kind::OddDigit,
    Kind::Quotes,
    Kind::TwoCommands,
    Kind::LetterOnly,
    Kind::RandomBytes,
];

/// The fields of a line, the letter not counted, as ranges of bytes.
fn fields(line: &[u8]) -> Vec<std::ops::Range<usize>> {
    let mut fields = Vec::new();
    let mut start = None;
    for (index, &byte) in line.iter().enumerate() {
        if byte == b',' {
            if let Some(start) = start {
                fields.push(start..index);
            }
            start = Some(index + 1);
        }
    }
    if let Some(start) = start {
        fields.push(start..line.len());
    }
    fields
}

fn replace_field(line: &mut Vec<u8>, range: std::ops::Range<usize>, text: &[u8]) {
    line.splice(range, text.iter().copied());
}

/// Damages a valid line.
fn apply(kind: Kind, line: &mut Vec<u8>, rng: &mut Rng) {
    let index = rng.below(line.len());
    let all = fields(line);
    let field = all[rng.below(all.len())].clone();
    let any_byte = rng.next_u64() as u8;
    let grammar_byte = rng.pick(b"0123456789,,FMWTSR \r-+");
    match kind {
        Kind::ChangeByte => line[index] = rng.pick(&[any_byte, grammar_byte]),
        Kind::InsertByte => {
            let byte = rng.pick(&[any_byte, grammar_byte]);
            let index = rng.below(line.len() + 1);
            line.insert(index, byte);
        }
        Kind::RemoveByte => {
            line.remove(index);
        }
        Kind::SwapBytes => {
            let other = rng.below(line.len());
            line.swap(index, other);
        }
        Kind::DoubleComma => line.insert(field.start, b','),
        Kind::TrailingComma => line.push(b','),
        Kind::MissingField => line.truncate(all[all.len() - 1].start - 1),
        Kind::ExtraField => line.extend_from_slice(b",0"),
        Kind::EmptyField => replace_field(line, field, b""),
        Kind::PadTo5Digits | Kind::PadTo6Digits => {
            let width = if kind == Kind::PadTo5Digits { 5 } else { 6 };
            let fewer = rng.chance(20);
            while fields(line).iter().any(|range| range.len() < width) {
                let shorter = fields(line)
                    .into_iter()
                    .find(|range| range.len() < width)
                    .expect("one is shorter");
                line.insert(shorter.start, b'0');
                if fewer && rng.chance(50) {
                    break;
                }
            }
            if kind == Kind::PadTo6Digits && rng.chance(70) {
                // Only one field too long.
                let keep = rng.below(all.len());
                for (which, range) in fields(line).into_iter().enumerate().rev() {
                    if which != keep && range.len() == 6 {
                        line.remove(range.start);
                    }
                }
            }
        }
        Kind::LargeNumber => {
            let number = rng.pick(&[
                &b"65535"[..],
                b"65535",
                b"65536",
                b"65536",
                b"65537",
                b"99999",
                b"100000",
                b"065535",
                b"131072",
                b"4294967296",
                b"18446744073709551616",
            ]);
            replace_field(line, field, number);
        }
        Kind::ByteLimit => {
            let byte = rng.pick(&[255, 255, 256, 256, 257, 300, 511, 512, 65_535]);
            let position = rng.pick(&[0, 255, 256, 4095]);
            let text = format!("W,{},{position},1,{byte}", rng.below(FILES));
            replace_line(line, &text);
        }
        Kind::WriteLimit => {
            let length = rng.pick(&[4095, 4096, 4096, 4097, 4097, 4098, 8192, 65_535]);
            let position = rng.pick(&[0, 0, 1]);
            let text = format!("W,{},{position},{length},{any_byte}", rng.below(FILES));
            replace_line(line, &text);
        }
        Kind::ReadLimit => {
            let length = rng.pick(&[31, 32, 32, 33, 33, 34, 64, 255, 256, 65_535]);
            let position = rng.pick(&[0, 0, 250, 4090]);
            let text = format!("R,{},{position},{length}", rng.below(FILES));
            replace_line(line, &text);
        }
        Kind::FortyBytes => pad(line, 40, rng),
        Kind::FortyOneBytes => pad(line, 41, rng),
        Kind::LongLine => {
            let length = match rng.below(200) {
                0 => rng.between(60_000, 140_000),
                1..=20 => rng.between(4090, 4100),
                21..=120 => rng.between(42, 300),
                _ => rng.between(1000, 6000),
            };
            pad(line, length, rng);
        }
        Kind::EmptyLine => line.clear(),
        Kind::CarriageReturn => {
            let at = rng.pick(&[0, index, line.len(), line.len(), line.len()]);
            line.insert(at, b'\r');
        }
        Kind::Nul => {
            let at = rng.pick(&[0, index, line.len(), line.len()]);
            line.insert(at, 0);
        }
        Kind::HighByte => {
            let at = rng.pick(&[0, index, line.len(), line.len()]);
            line.insert(at, rng.pick(&[0x80, 0xa0, 0xb2, 0xff, 0xff]));
        }
        Kind::LowerCase => line.make_ascii_lowercase(),
        Kind::OtherLetter => line[0] = b'A' + rng.below(26) as u8,
        Kind::Space => {
            let at = rng.pick(&[0, 1, field.start, field.end, line.len(), line.len()]);
            line.insert(at, rng.pick(b"  \t"));
        }
        Kind::Sign => line.insert(field.start, rng.pick(b"+-")),
        Kind::Separator => line[field.start - 1] = rng.pick(b";. \t:|"),
        Kind::OddDigit => {
            let text = rng.pick(&[
                &b"/"[..],
                b":",
                b"0x1",
                b"1e1",
                b"1.0",
                b"1_0",
                b"\xd9\xa1",
                b"\xef\xbc\x91",
                b"NaN",
                b"A",
                b"0b1",
            ]);
            replace_field(line, field, text);
        }
        Kind::Quotes => {
            line.insert(field.end, b'"');
            line.insert(field.start, b'"');
        }
        Kind::TwoCommands => {
            let between = rng.pick(&[&b""[..], b",", b" ", b"\r", b"\0", b";"]);
            let second = line.clone();
            line.extend_from_slice(between);
            line.extend_from_slice(&second);
        }
        Kind::LetterOnly => {
            line.truncate(1);
            if rng.chance(30) {
                line.push(b',');
            }
        }
        Kind::RandomBytes => {
            let length = rng.between(1, 45);
            line.clear();
            for _ in 0..length {
                let byte = rng.next_u64() as u8;
                line.push(byte);
            }
        }
    }
}

fn replace_line(line: &mut Vec<u8>, text: &str) {
    line.clear();
    line.extend_from_slice(text.as_bytes());
}

/// Makes a line exactly `length` bytes long without changing its start.
fn pad(line: &mut Vec<u8>, length: usize, rng: &mut Rng) {
    if line.len() >= length {
        line.truncate(length);
        return;
    }
    let more = length - line.len();
    match rng.below(6) {
        0 => {
            // Leading zeros.
            let all = fields(line);
            let at = all[rng.below(all.len())].start;
            line.splice(at..at, std::iter::repeat_n(b'0', more));
        }
        1 => {
            for _ in 0..more {
                let byte = rng.next_u64() as u8;
                line.push(if byte == b'\n' { 0 } else { byte });
            }
        }
        2 => {
            // Valid lines end to end.
            let unit = [b",", &line[..]].concat();
            line.extend(unit.iter().cycle().take(more));
        }
        _ => {
            let fill = rng.pick(b"  ,0\0\rx");
            line.extend(std::iter::repeat_n(fill, more));
        }
    }
}

#[cfg(test)]
mod tests {
    use super::*;
    use crate::tally::Tally;
    use layout::SYNC_WRITES;
    use reference::session::{run_bytes, LINE_MAX};

    fn many(seed: u64, sessions: u64) -> Vec<Session> {
        (0..sessions).map(|index| session(seed, index)).collect()
    }

    #[test]
    fn same_seed_same_sessions() {
        for index in 0..12 {
            assert_eq!(session(5, index), session(5, index));
        }
        assert_ne!(session(5, 4), session(6, 4));
        assert_ne!(session(5, 4).lines, session(5, 5).lines);
    }

    #[test]
    fn special_sessions_come_first() {
        assert_eq!(session(9, 0).to_bytes(), b"");
        assert_eq!(session(9, 1).to_bytes(), b"\n");
        let long = session(9, 2);
        let has = |length| long.lines.iter().any(|line| line.len() == length);
        for length in [
            40,
            41,
            4094,
            4095,
            4096,
            4097,
            65_535,
            65_536,
            65_537,
            1 << 20,
        ] {
            assert!(has(length), "{length}");
        }
    }

    #[test]
    fn sessions_end_with_and_without_lf_and_come_whole_and_in_pieces() {
        let sessions = many(3, 60);
        let count = |wanted: &dyn Fn(&&Session) -> bool| sessions.iter().filter(wanted).count();
        assert!(count(&|s| s.final_lf) > 10);
        assert!(count(&|s| !s.final_lf) > 5);
        assert!(count(&|s| s.feed == Feed::Whole) > 10);
        assert!(count(&|s| s.feed != Feed::Whole) > 5);
        assert!(count(&|s| s.lines.len() > 1000) > 30);
        assert!(count(&|s| s.lines.len() < 31) > 3);
    }

    /// The states and answers that the sessions are meant to reach, within
    /// 200,000 lines of any seed.
    #[test]
    fn reaches_every_answer_and_deep_states() {
        for seed in [1, 2, 0xdead_beef] {
            let mut tally = Tally::default();
            let mut index = 0;
            while tally.lines < 200_000 {
                let input = session(seed, index).to_bytes();
                tally.add(&input, &run_bytes(&input));
                index += 1;
            }
            println!("{tally}");
            for number in [0, 1, 5, 6, 7, 8, 9] {
                assert!(tally.answers[number] > 200, "answer {number}\n{tally}");
            }
            for number in [2, 3, 4] {
                assert_eq!(tally.answers[number], 0, "answer {number}\n{tally}");
            }
            assert!(tally.short_writes > 200, "{tally}");
            for stores in 0..=SYNC_WRITES {
                assert!(tally.done_syncs[stores] > 0, "done {stores}\n{tally}");
            }
            for stores in 0..SYNC_WRITES {
                assert!(tally.cut_syncs[stores] > 0, "cut {stores}\n{tally}");
            }
            assert!(tally.done_mounts[0] > 500, "{tally}");
            assert!(tally.done_mounts[1] > 200, "{tally}");
            assert!(tally.cut_mounts[0] > 50, "{tally}");
            for stores in 0..=7 {
                assert!(tally.done_formats[stores] > 0, "format {stores}\n{tally}");
                assert!(tally.cut_formats[stores] > 0, "format {stores}\n{tally}");
            }
            assert!(tally.reads_with_bytes > 10_000, "{tally}");
        }
    }

    /// Each kind of damage gives malformed lines or valid ones at a limit.
    #[test]
    fn damage_of_every_kind() {
        let valid: [&[u8]; 6] = [
            b"F,3",
            b"M,0",
            b"W,1,250,300,65",
            b"T,1,100",
            b"S,7,20",
            b"R,0,254,4",
        ];
        let mut rng = Rng::new(1);
        for kind in KINDS {
            let (mut malformed, mut still_valid) = (0, 0);
            for _ in 0..2000 {
                let mut line = rng.pick(&valid).to_vec();
                apply(kind, &mut line, &mut rng);
                match Command::parse(&line) {
                    Some(_) => still_valid += 1,
                    None => malformed += 1,
                }
                match kind {
                    Kind::FortyBytes => assert_eq!(line.len(), LINE_MAX),
                    Kind::FortyOneBytes => assert_eq!(line.len(), LINE_MAX + 1),
                    Kind::EmptyLine => assert!(line.is_empty()),
                    _ => {}
                }
            }
            match kind {
                // Valid lines with leading zeros.
                Kind::PadTo5Digits => assert!(still_valid > 1500, "{kind:?}"),
                // On both sides of a limit.
                Kind::LargeNumber | Kind::ByteLimit | Kind::WriteLimit | Kind::ReadLimit => {
                    assert!(still_valid > 100 && malformed > 500, "{kind:?}");
                }
                _ => assert!(malformed > 500, "{kind:?} {malformed}"),
            }
        }
    }

    #[test]
    fn lines_have_no_lf_in_them() {
        for session in many(4, 30) {
            assert!(session.lines.iter().all(|line| !line.contains(&b'\n')));
            let bytes = session.to_bytes();
            let answers = run_bytes(&bytes);
            let lines = answers.iter().filter(|&&byte| byte == b'\n').count() - 1;
            assert_eq!(lines, session.lines.len());
        }
    }
}
