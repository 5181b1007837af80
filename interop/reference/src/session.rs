//! The session program: lines of commands in, one answer line each out.

use std::io::{self, BufWriter, Read, Write};

use crate::device::Device;
use crate::store::{Answer, Refusal, FILE_MAX};

/// The first line of every output.
pub const HEADER: &[u8] = b"answer,count,bytes\n";

/// A line over this many bytes, its LF not counted, is refused.
pub const LINE_MAX: usize = 40;

/// The greatest length of a read in a session.
pub const READ_MAX: usize = 32;

const NUMBER_MAX: usize = 65_535;
const DIGITS_MAX: usize = 5;

/// A session line that has one of the forms.
#[derive(Clone, Copy, Debug, PartialEq, Eq)]
pub enum Command {
    /// `F,grant`
    Format {
        /// Media writes allowed.
        budget: usize,
    },
    /// `M,grant`
    Mount {
        /// Media writes allowed.
        budget: usize,
    },
    /// `W,file,position,length,byte`
    Write {
        /// File number.
        file: usize,
        /// Position of the first byte.
        position: usize,
        /// Number of bytes.
        length: usize,
        /// The value of each byte.
        byte: u8,
    },
    /// `T,file,n`
    Truncate {
        /// File number.
        file: usize,
        /// The new size.
        size: usize,
    },
    /// `S,file,grant`
    Sync {
        /// File number.
        file: usize,
        /// Media writes allowed.
        budget: usize,
    },
    /// `R,file,position,length`
    Read {
        /// File number.
        file: usize,
        /// Position of the first byte.
        position: usize,
        /// Number of bytes.
        length: usize,
    },
}

impl Command {
    /// Reads one line, without its LF. `None` if it has none of the forms.
    pub fn parse(line: &[u8]) -> Option<Command> {
        if line.is_empty() || line.len() > LINE_MAX {
            return None;
        }
        let mut fields = line.split(|&byte| byte == b',');
        let letter = fields.next()?;
        let mut number = |max: usize| parse_number(fields.next()?, max);
        let command = match letter {
            b"F" => Command::Format {
                budget: number(NUMBER_MAX)?,
            },
            b"M" => Command::Mount {
                budget: number(NUMBER_MAX)?,
            },
            b"W" => Command::Write {
                file: number(NUMBER_MAX)?,
                position: number(NUMBER_MAX)?,
                length: number(FILE_MAX)?,
                byte: number(u8::MAX.into())? as u8,
            },
            b"T" => Command::Truncate {
                file: number(NUMBER_MAX)?,
                size: number(NUMBER_MAX)?,
            },
            b"S" => Command::Sync {
                file: number(NUMBER_MAX)?,
                budget: number(NUMBER_MAX)?,
            },
            b"R" => Command::Read {
                file: number(NUMBER_MAX)?,
                position: number(NUMBER_MAX)?,
                length: number(READ_MAX)?,
            },
            _ => return None,
        };
        fields.next().is_none().then_some(command)
    }

    /// Carries the command out. A read leaves its bytes in the front of
    /// `buffer`, as many as the answer counts.
    ///
    /// # Panics
    ///
    /// If a read asks for more than [`READ_MAX`] bytes, which no line does.
    pub fn run(self, device: &mut Device, buffer: &mut [u8; READ_MAX]) -> Answer {
        match self {
            Command::Format { budget } => device.format(budget),
            Command::Mount { budget } => device.mount(budget),
            Command::Write {
                file,
                position,
                length,
                byte,
            } => device.write(file, position, &vec![byte; length]),
            Command::Truncate { file, size } => device.truncate(file, size),
            Command::Sync { file, budget } => device.sync(file, budget),
            Command::Read {
                file,
                position,
                length,
            } => device.read(file, position, &mut buffer[..length]),
        }
    }
}

/// A number of 1 to 5 digits, at most `max`. Leading zeros are digits.
fn parse_number(field: &[u8], max: usize) -> Option<usize> {
    if field.is_empty() || field.len() > DIGITS_MAX || !field.iter().all(u8::is_ascii_digit) {
        return None;
    }
    let value = field
        .iter()
        .fold(0, |value, digit| value * 10 + usize::from(digit - b'0'));
    (value <= max).then_some(value)
}

/// The start of a line, as much as is needed to judge it: a line over the
/// limit is kept only to one byte past it.
struct Line {
    bytes: [u8; LINE_MAX + 1],
    length: usize,
}

impl Line {
    fn push(&mut self, more: &[u8]) {
        let room = &mut self.bytes[self.length..];
        let kept = more.len().min(room.len());
        room[..kept].copy_from_slice(&more[..kept]);
        self.length += kept;
    }

    fn as_bytes(&self) -> &[u8] {
        &self.bytes[..self.length]
    }
}

fn answer_line(device: &mut Device, line: &[u8], output: &mut impl Write) -> io::Result<()> {
    let mut buffer = [0; READ_MAX];
    let command = Command::parse(line);
    let answer = match command {
        Some(command) => command.run(device, &mut buffer),
        None => Answer::Refused(Refusal::Line),
    };
    write!(output, "{},{},", answer.number(), answer.count())?;
    if let (Some(Command::Read { .. }), Answer::Done(count)) = (command, answer) {
        for byte in &buffer[..count] {
            write!(output, "{byte:02x}")?;
        }
    }
    output.write_all(b"\n")
}

/// Runs a session from `input` to `output`, in constant memory. Lines read
/// before an input error are answered before it is returned.
pub fn run(mut input: impl Read, output: impl Write) -> io::Result<()> {
    let mut output = BufWriter::with_capacity(1 << 16, output);
    output.write_all(HEADER)?;
    let mut device = Device::new();
    let mut line = Line {
        bytes: [0; LINE_MAX + 1],
        length: 0,
    };
    let mut chunk = vec![0; 1 << 16];
    loop {
        let mut rest = match input.read(&mut chunk) {
            Ok(0) => break,
            Ok(length) => &chunk[..length],
            Err(error) if error.kind() == io::ErrorKind::Interrupted => continue,
            Err(error) => {
                output.flush()?;
                return Err(error);
            }
        };
        while let Some(end) = rest.iter().position(|&byte| byte == b'\n') {
            line.push(&rest[..end]);
            answer_line(&mut device, line.as_bytes(), &mut output)?;
            line.length = 0;
            rest = &rest[end + 1..];
        }
        line.push(rest);
    }
    if line.length > 0 {
        answer_line(&mut device, line.as_bytes(), &mut output)?;
    }
    output.flush()
}

/// Runs a session held in memory and gives its whole output.
pub fn run_bytes(input: &[u8]) -> Vec<u8> {
    let mut output = Vec::new();
    run(input, &mut output).expect("memory does not fail");
    output
}
