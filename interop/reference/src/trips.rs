//! Trip lists: lines `minute,metres,driver`, each ended by LF.

use std::collections::BTreeMap;

use crate::store::{Answer, Refusal};

/// Greatest length of a list in bytes, and of what is written.
pub const LIST_MAX: usize = 4096;
/// Most digits of a number, leading zeros included.
pub const DIGITS_MAX: usize = 10;
/// Most characters of a driver.
pub const DRIVER_MAX: usize = 16;

const LF: u8 = b'\n';

/// What one line tells.
#[derive(Clone, Copy, Debug, PartialEq, Eq)]
pub struct Trip<'a> {
    /// When; it rises from line to line.
    pub minute: u32,
    /// How far.
    pub metres: u32,
    /// Who: 1 to 16 of A to Z and 0 to 9.
    pub driver: &'a [u8],
}

// ---------------------------------------------------------------------------
// One line

/// A number of 1 to 10 digits, at most 4,294,967,295.
fn number(digits: &[u8]) -> Option<u32> {
    if !(1..=DIGITS_MAX).contains(&digits.len()) || !digits.iter().all(u8::is_ascii_digit) {
        return None;
    }
    let value = digits
        .iter()
        .fold(0, |value: u64, digit| 10 * value + u64::from(digit - b'0'));
    u32::try_from(value).ok()
}

/// A driver: 1 to 16 of A to Z and 0 to 9.
fn driver(characters: &[u8]) -> Option<&[u8]> {
    let allowed = |character: &u8| character.is_ascii_uppercase() || character.is_ascii_digit();
    let is_driver = (1..=DRIVER_MAX).contains(&characters.len()) && characters.iter().all(allowed);
    is_driver.then_some(characters)
}

/// The trip that a line tells, its LF included; none where it lacks the form.
fn trip(line: &[u8]) -> Option<Trip<'_>> {
    let line = line.strip_suffix(&[LF])?;
    let fields: Vec<&[u8]> = line.split(|&byte| byte == b',').collect();
    let [minute, metres, name] = fields[..] else {
        return None;
    };
    Some(Trip {
        minute: number(minute)?,
        metres: number(metres)?,
        driver: driver(name)?,
    })
}

/// The lines of some bytes, each with its LF; the last one has none where the
/// bytes do not end with LF.
fn lines(bytes: &[u8]) -> impl Iterator<Item = &[u8]> {
    bytes.split_inclusive(|&byte| byte == LF)
}

// ---------------------------------------------------------------------------
// A list

/// RANGE where a list is longer than 4,096 bytes.
fn check_length(list: &[u8]) -> Result<(), Refusal> {
    if list.len() > LIST_MAX {
        return Err(Refusal::Range);
    }
    Ok(())
}

/// The trips of a list, or why it is none: RANGE where it is too long, else
/// what is wrong with its first wrong line. A line that lacks the form is TRIP
/// FORM, also where its minute does not rise.
pub fn trips(list: &[u8]) -> Result<Vec<Trip<'_>>, Refusal> {
    check_length(list)?;
    let mut trips: Vec<Trip> = Vec::new();
    for line in lines(list) {
        let trip = trip(line).ok_or(Refusal::TripForm)?;
        if trips.last().is_some_and(|last| trip.minute <= last.minute) {
            return Err(Refusal::TripOrder);
        }
        trips.push(trip);
    }
    Ok(trips)
}

/// The reader: the trip at a place from 0, none past the last, and the number
/// of trips.
pub fn read_trip(list: &[u8], place: usize) -> Result<(Option<Trip<'_>>, usize), Refusal> {
    let trips = trips(list)?;
    Ok((trips.get(place).copied(), trips.len()))
}

/// The cursor: the trip of the line that begins at an index, and the index
/// after that line; none at the end of the list and past it. TRIP ORDER where
/// the minute is below `least`.
pub fn next_trip(
    list: &[u8],
    at: usize,
    least: usize,
) -> Result<Option<(Trip<'_>, usize)>, Refusal> {
    check_length(list)?;
    let Some(line) = list.get(at..).and_then(|rest| lines(rest).next()) else {
        return Ok(None);
    };
    let trip = trip(line).ok_or(Refusal::TripForm)?;
    if (trip.minute as usize) < least {
        return Err(Refusal::TripOrder);
    }
    Ok(Some((trip, at + line.len())))
}

/// The one spelling of these trips: their numbers without leading zeros.
pub fn spelling(trips: &[Trip<'_>]) -> Vec<u8> {
    let mut bytes = Vec::new();
    for trip in trips {
        bytes.extend(format!("{},{},", trip.minute, trip.metres).bytes());
        bytes.extend(trip.driver);
        bytes.push(LF);
    }
    bytes
}

/// Puts the bytes that are spelled into the front of `buffer`, which has 4,096
/// bytes, else SHAPE, and answers how many bytes that are. Refused, nothing is
/// written.
fn put(buffer: &mut [u8], spelled: impl FnOnce() -> Result<Vec<u8>, Refusal>) -> Answer {
    if buffer.len() != LIST_MAX {
        return Answer::Refused(Refusal::Shape);
    }
    match spelled() {
        Ok(bytes) => {
            buffer[..bytes.len()].copy_from_slice(&bytes);
            Answer::Done(bytes.len())
        }
        Err(refusal) => Answer::Refused(refusal),
    }
}

/// The writer: puts the one spelling of a list into the front of `buffer`.
/// Refused as the reader is, after SHAPE.
pub fn write_trips(list: &[u8], buffer: &mut [u8]) -> Answer {
    put(buffer, || Ok(spelling(&trips(list)?)))
}

// ---------------------------------------------------------------------------
// Two lists

/// The trips of two lists in the order of their minutes; one that is in both is
/// there once. Refused as the reader is of the first list, then of the second,
/// then TRIP CONFLICT where a minute has two trips that differ.
pub fn joined<'a>(first: &'a [u8], second: &'a [u8]) -> Result<Vec<Trip<'a>>, Refusal> {
    let (first, second) = (trips(first)?, trips(second)?);
    let mut by_minute = BTreeMap::new();
    for trip in first.into_iter().chain(second) {
        let other = by_minute.insert(trip.minute, trip);
        if other.is_some_and(|other| other != trip) {
            return Err(Refusal::TripConflict);
        }
    }
    Ok(by_minute.into_values().collect())
}

/// The join: puts the one spelling of the trips of two lists into the front of
/// `buffer`. TRIPS TOO LONG, after all other refusals, where it has no room.
pub fn join_trips(first: &[u8], second: &[u8], buffer: &mut [u8]) -> Answer {
    put(buffer, || {
        let bytes = spelling(&joined(first, second)?);
        match bytes.len() {
            0..=LIST_MAX => Ok(bytes),
            _ => Err(Refusal::TripsTooLong),
        }
    })
}
