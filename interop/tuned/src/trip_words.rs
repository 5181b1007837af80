//! Trip lists: lines `minute,metres,driver`, eight bytes of them at a time.

use crate::trip_lines::{calls, Line, Lines, Number};

struct Words;

calls!(Words);

impl Lines for Words {
    #[inline(always)]
    fn form(list: &[u8], at: usize) -> Option<Line> {
        let minute = number(list, at)?;
        let metres = number(list, minute.end)?;
        let end = driver(list, metres.end)?;
        Some(Line {
            minute,
            metres,
            end,
        })
    }
}

/// A word with this byte eight times.
const fn eight(byte: u8) -> u64 {
    u64::from_le_bytes([byte; 8])
}

/// The eight bytes from an index on, the first one lowest; zeros past the end.
#[inline(always)]
fn word(list: &[u8], at: usize) -> u64 {
    match list.get(at..).and_then(|rest| rest.first_chunk()) {
        Some(&bytes) => u64::from_le_bytes(bytes),
        None => last_word(list, at),
    }
}

#[cold]
#[inline(never)]
fn last_word(list: &[u8], at: usize) -> u64 {
    let mut bytes = [0; 8];
    let rest = list.get(at..).unwrap_or_default();
    for (to, from) in bytes.iter_mut().zip(rest) {
        *to = *from;
    }
    u64::from_le_bytes(bytes)
}

/// The top bit of each byte that is no digit. As with [`no_letters`], a byte
/// from 128 on may spoil those above it, and has its own bit: the lowest bit
/// is right.
#[inline(always)]
fn no_digits(word: u64) -> u64 {
    let digits = word ^ eight(b'0');
    (word | digits.wrapping_add(eight(0x7f - 9))) & eight(0x80)
}

/// The top bit of each byte that is no letter A to Z.
#[inline(always)]
fn no_letters(word: u64) -> u64 {
    let letters = word ^ eight(b'A' - 1);
    let above = letters.wrapping_add(eight(0x7f - 26));
    let below = !letters.wrapping_add(eight(0x7f));
    (word | above | below) & eight(0x80)
}

/// Bytes below the lowest set bit, 8 where there is none.
#[inline(always)]
fn bytes_below(word: u64) -> usize {
    (word.trailing_zeros() / 8) as usize
}

/// The byte at an index below 8.
#[inline(always)]
fn byte(word: u64, index: usize) -> u8 {
    (word >> (8 * index)) as u8
}

/// The value of eight digits, 0 bytes below them included: neighbours joined
/// three times.
#[inline(always)]
fn value(word: u64) -> u64 {
    let pairs = (word & eight(0x0f)).wrapping_mul(10 << 8 | 1) >> 8;
    let fours = (pairs & 0x00ff_00ff_00ff_00ff).wrapping_mul(100 << 16 | 1) >> 16;
    (fours & 0x0000_ffff_0000_ffff).wrapping_mul(10_000 << 32 | 1) >> 32
}

/// The number at an index, with its comma.
#[inline(always)]
fn number(list: &[u8], at: usize) -> Option<Number> {
    let word = word(list, at);
    let zeros = bytes_below(word ^ eight(b'0'));
    let digits = bytes_below(no_digits(word));
    if digits == 8 {
        return long_number(list, at, value(word), zeros);
    }
    if digits == 0 || byte(word, digits) != b',' {
        return None;
    }
    Some(Number {
        value: value(word << (64 - 8 * digits)),
        zeros: zeros.min(digits - 1),
        end: at + digits + 1,
    })
}

/// The number at an index whose first eight digits have this value and so many
/// leading zeros.
#[inline(always)]
fn long_number(list: &[u8], at: usize, mut value: u64, mut zeros: usize) -> Option<Number> {
    for digits in 8..=10 {
        let byte = *list.get(at + digits)?;
        if byte == b',' {
            return Some(Number {
                value: u32::try_from(value).ok()?.into(),
                zeros: zeros.min(digits - 1),
                end: at + digits + 1,
            });
        }
        let digit = byte.wrapping_sub(b'0');
        if digit > 9 {
            return None;
        }
        value = 10 * value + u64::from(digit);
        zeros += usize::from(value == 0);
    }
    None
}

/// The index after the LF of the driver at an index.
#[inline(always)]
fn driver(list: &[u8], at: usize) -> Option<usize> {
    let first = word(list, at);
    let letters = bytes_below(no_digits(first) & no_letters(first));
    if letters < 8 {
        return (letters > 0 && byte(first, letters) == b'\n').then_some(at + letters + 1);
    }
    let second = word(list, at + 8);
    let letters = bytes_below(no_digits(second) & no_letters(second));
    let after = match letters {
        8 => *list.get(at + 16)?,
        _ => byte(second, letters),
    };
    (after == b'\n').then_some(at + 8 + letters + 1)
}
