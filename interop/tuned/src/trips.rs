//! Trip lists: lines `minute,metres,driver`, byte by byte.

use crate::trip_lines::{calls, Line, Lines, Number, CHARACTERS, DIGITS, LINE};

/// Whether a driver may have the byte.
const IN_DRIVER: [bool; 256] = {
    let mut table = [false; 256];
    let mut byte = 0;
    while byte < 256 {
        table[byte] = (byte as u8).is_ascii_digit() || (byte as u8).is_ascii_uppercase();
        byte += 1;
    }
    table
};

struct Bytes;

calls!(Bytes);

impl Lines for Bytes {
    #[inline(always)]
    fn form(list: &[u8], at: usize) -> Option<Line> {
        // No loop asks for the end of the list where the longest line fits.
        match list[at..].first_chunk() {
            Some(bytes) => front(bytes, at),
            None => last_line(list, at),
        }
    }
}

/// The line at an index near the end: with bytes after the list that no field has.
#[cold]
#[inline(never)]
fn last_line(list: &[u8], at: usize) -> Option<Line> {
    let mut bytes = [0; LINE];
    let rest = &list[at..];
    bytes[..rest.len()].copy_from_slice(rest);
    front(&bytes, at)
}

/// The line at the front of these bytes, the first of which has this index.
#[inline(always)]
fn front(bytes: &[u8; LINE], at: usize) -> Option<Line> {
    let (minute, bytes) = number(bytes, at)?;
    let (metres, bytes) = number(bytes, minute.end)?;
    let end = metres.end + driver(bytes)? + 1;
    Some(Line {
        minute,
        metres,
        end,
    })
}

/// The number at the front of these bytes, and the bytes after its comma. The
/// loop is of a known length, which lets it be unrolled.
#[inline(always)]
fn number(bytes: &[u8], at: usize) -> Option<(Number, &[u8])> {
    let front: &[u8; DIGITS + 1] = bytes.first_chunk()?;
    let mut value = 0;
    let mut digits = 0;
    while digits < DIGITS {
        let digit = front[digits].wrapping_sub(b'0');
        if digit > 9 {
            break;
        }
        value = 10 * value + u64::from(digit);
        digits += 1;
    }
    if digits == 0 || front[digits] != b',' || value > u32::MAX.into() {
        return None;
    }
    let zeros = match front[0] {
        b'0' => digits - 1 - value.checked_ilog10().unwrap_or(0) as usize,
        _ => 0,
    };
    let end = at + digits + 1;
    Some((Number { value, zeros, end }, bytes.get(digits + 1..)?))
}

/// The length of the driver at the front of these bytes, with LF after it.
#[inline(always)]
fn driver(bytes: &[u8]) -> Option<usize> {
    let front: &[u8; CHARACTERS + 1] = bytes.first_chunk()?;
    let mut length = 0;
    while length < CHARACTERS && IN_DRIVER[usize::from(front[length])] {
        length += 1;
    }
    (length > 0 && front[length] == b'\n').then_some(length)
}
