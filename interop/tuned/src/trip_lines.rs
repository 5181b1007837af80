//! The calls on trip lists, over any way to read a line.

use layout::{LIST_BYTES, TRIP_NUMBERS};

use crate::{RANGE, SHAPE};

const TRIP_FORM: u32 = 10 << 16;
const TRIP_ORDER: u32 = 11 << 16;
const TRIP_CONFLICT: u32 = 17 << 16;
const TRIPS_TOO_LONG: u32 = 18 << 16;

/// The most digits of a number.
pub const DIGITS: usize = 10;
/// The most characters of a driver.
pub const CHARACTERS: usize = 16;
/// The longest line, with its commas and LF.
pub const LINE: usize = 2 * (DIGITS + 1) + CHARACTERS + 1;

/// A number of a line.
pub struct Number {
    /// Its value, of 32 bits.
    pub value: u64,
    /// Leading zeros that its spelling goes without.
    pub zeros: usize,
    /// The index after its comma.
    pub end: usize,
}

/// A line of a list.
pub struct Line {
    pub minute: Number,
    pub metres: Number,
    /// The index after its LF.
    pub end: usize,
}

impl Line {
    /// The numbers that the trip is told as.
    #[inline(always)]
    fn trip(&self) -> [u32; TRIP_NUMBERS] {
        let driver = self.metres.end;
        [
            self.minute.value as u32,
            self.metres.value as u32,
            driver as u32,
            (self.end - 1 - driver) as u32,
        ]
    }
}

/// A way to read lines.
pub trait Lines {
    /// The line at an index, where one has the form.
    fn form(list: &[u8], at: usize) -> Option<Line>;
}

/// The line at an index, whose minute is to be at least `least`.
#[inline(always)]
fn line<L: Lines>(list: &[u8], at: usize, least: u64) -> Result<Line, u32> {
    match L::form(list, at) {
        None => Err(TRIP_FORM),
        Some(line) if line.minute.value < least => Err(TRIP_ORDER),
        Some(line) => Ok(line),
    }
}

/// Goes through the lines of a list, with where they begin.
#[inline(always)]
fn each_line<L: Lines>(list: &[u8], visit: impl FnMut(usize, &Line)) -> Result<(), u32> {
    if list.len() > LIST_BYTES {
        return Err(RANGE);
    }
    each_line_from::<L>(list, 0, 0, visit)
}

/// Goes through the lines from an index on, the first with a minute of at least
/// `least`.
#[inline(always)]
fn each_line_from<L: Lines>(
    list: &[u8],
    mut at: usize,
    mut least: u64,
    mut visit: impl FnMut(usize, &Line),
) -> Result<(), u32> {
    while at < list.len() {
        let line = line::<L>(list, at, least)?;
        visit(at, &line);
        least = line.minute.value + 1;
        at = line.end;
    }
    Ok(())
}

#[inline(always)]
pub fn read_trip<L: Lines>(list: &[u8], place: usize, trip: &mut [u32]) -> u32 {
    let Ok(trip) = <&mut [u32; TRIP_NUMBERS]>::try_from(trip) else {
        return SHAPE;
    };
    let mut found = None;
    let mut count = 0;
    let walked = each_line::<L>(list, |at, _| {
        if count == place {
            found = Some(at);
        }
        count += 1;
    });
    if let Err(refused) = walked {
        return refused;
    }
    // The trip is worked out for this line alone.
    if let Some(line) = found.and_then(|at| L::form(list, at)) {
        *trip = line.trip();
    }
    count as u32
}

#[inline(always)]
pub fn next_trip<L: Lines>(list: &[u8], at: usize, least: usize, trip: &mut [u32]) -> u32 {
    let Ok(trip) = <&mut [u32; TRIP_NUMBERS]>::try_from(trip) else {
        return SHAPE;
    };
    if list.len() > LIST_BYTES {
        return RANGE;
    }
    if at >= list.len() {
        return 0;
    }
    match line::<L>(list, at, least as u64) {
        Ok(line) => {
            *trip = line.trip();
            line.end as u32
        }
        Err(refused) => refused,
    }
}

#[inline(always)]
pub fn write_trips<L: Lines>(list: &[u8], buffer: &mut [u8]) -> u32 {
    if buffer.len() != LIST_BYTES {
        return SHAPE;
    }
    let mut spelled = Spelled::new();
    if let Err(refused) = each_line::<L>(list, |at, line| spelled.line(list, at, line)) {
        return refused;
    }
    spelled.put(buffer)
}

#[inline(always)]
pub fn join_trips<L: Lines>(first: &[u8], second: &[u8], buffer: &mut [u8]) -> u32 {
    if buffer.len() != LIST_BYTES {
        return SHAPE;
    }
    let mut spelled = Spelled::new();
    if let Err(refused) = join::<L>(first, second, &mut spelled) {
        return first_refusal::<L>(first, second, refused);
    }
    spelled.put(buffer)
}

/// Spells the trips of two lists by their minutes, up to any refusal.
#[inline(always)]
fn join<L: Lines>(first: &[u8], second: &[u8], spelled: &mut Spelled) -> Result<(), u32> {
    if first.len().max(second.len()) > LIST_BYTES {
        return Err(RANGE);
    }
    let (rest, at, least) = 'rest: {
        if first.is_empty() {
            break 'rest (second, 0, 0);
        }
        if second.is_empty() {
            break 'rest (first, 0, 0);
        }
        let (mut at, mut second_at) = (0, 0);
        let mut one = line::<L>(first, at, 0)?;
        let mut two = line::<L>(second, second_at, 0)?;
        loop {
            let (minute, second_minute) = (one.minute.value, two.minute.value);
            if minute < second_minute {
                spelled.line(first, at, &one);
                at = one.end;
                if at == first.len() {
                    spelled.line(second, second_at, &two);
                    break 'rest (second, two.end, second_minute + 1);
                }
                one = line::<L>(first, at, minute + 1)?;
                continue;
            }
            spelled.line(second, second_at, &two);
            second_at = two.end;
            if minute == second_minute {
                if !same_rest((first, &one), (second, &two)) {
                    return Err(TRIP_CONFLICT);
                }
                at = one.end;
                if at == first.len() {
                    break 'rest (second, second_at, second_minute + 1);
                }
                one = line::<L>(first, at, minute + 1)?;
            }
            if second_at == second.len() {
                spelled.line(first, at, &one);
                break 'rest (first, one.end, one.minute.value + 1);
            }
            two = line::<L>(second, second_at, second_minute + 1)?;
        }
    };
    each_line_from::<L>(rest, at, least, |at, line| spelled.line(rest, at, line))
}

/// The refusal that comes first, where two lists are refused: that of a list, or
/// else this one.
#[cold]
#[inline(never)]
fn first_refusal<L: Lines>(first: &[u8], second: &[u8], refused: u32) -> u32 {
    let read = |list| each_line::<L>(list, |_, _| ());
    let read = read(first).and_then(|()| read(second));
    read.err().unwrap_or(refused)
}

/// Whether lines of two lists have the same metres and driver.
#[inline(always)]
fn same_rest((first, one): (&[u8], &Line), (second, two): (&[u8], &Line)) -> bool {
    let (driver, second_driver) = (one.metres.end, two.metres.end);
    let length = one.end - 1 - driver;
    if one.metres.value != two.metres.value || length != two.end - 1 - second_driver {
        return false;
    }
    match (
        first[driver..].first_chunk::<CHARACTERS>(),
        second[second_driver..].first_chunk(),
    ) {
        (Some(&one), Some(&two)) => {
            let differ = u128::from_le_bytes(one) ^ u128::from_le_bytes(two);
            differ.trailing_zeros() as usize / 8 >= length
        }
        _ => same_last(&first[driver..one.end], &second[second_driver..two.end]),
    }
}

#[cold]
#[inline(never)]
fn same_last(one: &[u8], two: &[u8]) -> bool {
    one == two
}

/// Lines in their one spelling. The buffer gets it when all of it is there, since
/// a refusal leaves the buffer.
struct Spelled {
    /// With room for the longest line after the greatest length.
    bytes: [u8; LIST_BYTES + LINE],
    /// Its length, which may pass the greatest. The bytes past that are lost.
    count: usize,
}

impl Spelled {
    #[inline(always)]
    fn new() -> Spelled {
        Spelled {
            bytes: [0; LIST_BYTES + LINE],
            count: 0,
        }
    }

    /// Adds the line of a list that begins at an index.
    #[inline(always)]
    fn line(&mut self, list: &[u8], at: usize, line: &Line) {
        let first = at + line.minute.zeros;
        self.copy(list, first, line.end);
        self.count += line.minute.end - first;
        let first = line.minute.end + line.metres.zeros;
        if line.metres.zeros > 0 {
            self.copy(list, first, line.end);
        }
        self.count += line.end - first;
    }

    /// Copies bytes of a line to the end. As many as the longest line has where the
    /// list has them: what comes after is copied later.
    #[inline(always)]
    fn copy(&mut self, list: &[u8], first: usize, end: usize) {
        let to = &mut self.bytes[self.count.min(LIST_BYTES)..][..LINE];
        match list[first..].first_chunk::<LINE>() {
            Some(from) => to.copy_from_slice(from),
            None => copy_last(&list[first..end], to),
        }
    }

    /// Puts it into the front of a buffer, where it is not too long, and counts its
    /// bytes.
    #[inline(always)]
    fn put(&self, buffer: &mut [u8]) -> u32 {
        if self.count > LIST_BYTES {
            return TRIPS_TOO_LONG;
        }
        buffer[..self.count].copy_from_slice(&self.bytes[..self.count]);
        self.count as u32
    }
}

#[cold]
#[inline(never)]
fn copy_last(from: &[u8], to: &mut [u8]) {
    to[..from.len()].copy_from_slice(from);
}

/// The calls of a module, by its way to read lines.
macro_rules! calls {
    ($lines:ty) => {
        /// The trip at a place. Counts the trips.
        #[inline(never)]
        pub fn read_trip(list: &[u8], place: usize, trip: &mut [u32]) -> u32 {
            $crate::trip_lines::read_trip::<$lines>(list, place, trip)
        }

        /// The trip of the line at an index. Counts up to the next line.
        #[inline(never)]
        pub fn next_trip(list: &[u8], at: usize, least: usize, trip: &mut [u32]) -> u32 {
            $crate::trip_lines::next_trip::<$lines>(list, at, least, trip)
        }

        /// The list in its one spelling. Counts its bytes.
        #[inline(never)]
        pub fn write_trips(list: &[u8], buffer: &mut [u8]) -> u32 {
            $crate::trip_lines::write_trips::<$lines>(list, buffer)
        }

        /// Two lists joined into one, in its one spelling. Counts its bytes.
        #[inline(never)]
        pub fn join_trips(first: &[u8], second: &[u8], buffer: &mut [u8]) -> u32 {
            $crate::trip_lines::join_trips::<$lines>(first, second, buffer)
        }
    };
}
pub(crate) use calls;
