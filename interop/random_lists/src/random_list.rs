//! Random trip lists.

use std::ops::Range;

use layout::LIST_BYTES;
use random_calls::{any_number, random_bytes};
use random_sessions::rng::Rng;
use reference::trips::{DIGITS_MAX, DRIVER_MAX};

/// The characters of a driver.
const CHARACTERS: &[u8; 36] = b"0123456789ABCDEFGHIJKLMNOPQRSTUVWXYZ";
/// The bytes just outside of these, and letters that are small.
const NEIGHBOURS: &[u8; 6] = b"/:@[az";
/// Other bytes that a number and a driver have not.
const OUTSIDE: &[u8] = b"`{ \r\0\x7f\x80\xb0\xc1\xff+-";
/// Commas and LF of a line.
const MARKS: usize = 3;

/// A random list.
pub fn random_list(rng: &mut Rng) -> Vec<u8> {
    if rng.chance(8) {
        return noise(rng);
    }
    let length = length(rng);
    let mut list = rising_list(rng, length);
    for _ in 0..rng.weighted(&[40, 45, 15]) {
        spoil(rng, &mut list);
    }
    list
}

fn length(rng: &mut Rng) -> usize {
    match rng.below(40) {
        0 | 1 => 0,
        2..=19 => rng.between(6, 60),
        20..=33 => rng.between(6, 400),
        34 => rng.between(6, LIST_BYTES),
        35 => rng.between(LIST_BYTES - 60, LIST_BYTES),
        36..=38 => rng.pick(&[LIST_BYTES - 1, LIST_BYTES, LIST_BYTES, LIST_BYTES + 1]),
        _ if rng.chance(20) => 65_536 + rng.below(LIST_BYTES),
        _ => LIST_BYTES + rng.below(100),
    }
}

/// Random bytes, often of few values, so that some are a list.
fn noise(rng: &mut Rng) -> Vec<u8> {
    let length = match rng.below(20) {
        0 => rng.between(LIST_BYTES - 2, LIST_BYTES + 2),
        1 => rng.below(LIST_BYTES),
        2..=5 => rng.below(100),
        _ => rng.below(14),
    };
    let values: &[u8] = match rng.below(5) {
        0 => return random_bytes(rng, length),
        1 => b"0123456789,\nABZ",
        2 => b"09,\nAZ\r",
        3 => b"012,,,\nA",
        _ => b"1,\nA",
    };
    (0..length).map(|_| rng.pick(values)).collect()
}

// ---------------------------------------------------------------------------
// Lists that keep all rules

/// How the lines of a list are made.
pub struct Style {
    /// Whether numbers have leading zeros.
    zeros: bool,
    /// Whether the lines are the shortest.
    short: bool,
    /// The greatest step from a minute to the next.
    step: usize,
}

impl Style {
    pub fn random(rng: &mut Rng, zeros: bool) -> Style {
        Style {
            zeros,
            short: rng.chance(25),
            step: rng.pick(&[1, 1, 10, 1_000, 1 << 20, 1 << 31]),
        }
    }
}

/// A line.
#[derive(Clone, Debug, PartialEq, Eq)]
pub struct Line {
    pub minute: u32,
    pub metres: u32,
    pub driver: Vec<u8>,
    /// The digits that minute and metres are spelled with; no fewer than they have.
    pub widths: [usize; 2],
}

impl Line {
    pub fn length(&self) -> usize {
        self.widths.iter().sum::<usize>() + self.driver.len() + MARKS
    }
}

/// The text of some lines.
pub fn spelled(lines: &[Line]) -> Vec<u8> {
    let mut list = Vec::new();
    for line in lines {
        let [minute, metres] = line.widths;
        let numbers = format!("{:0minute$},{:0metres$},", line.minute, line.metres);
        list.extend(numbers.bytes());
        list.extend(&line.driver);
        list.push(b'\n');
    }
    list
}

/// The digits that a number has.
pub fn width(number: u32) -> usize {
    number.checked_ilog10().unwrap_or(0) as usize + 1
}

/// A list of rising minutes that has this length where that can be, else is
/// shorter.
fn rising_list(rng: &mut Rng, length: usize) -> Vec<u8> {
    let zeros = rng.chance(50);
    let style = Style::random(rng, zeros);
    spelled(&rising_lines(rng, length, &style))
}

/// The lines of such a list.
pub fn rising_lines(rng: &mut Rng, length: usize, style: &Style) -> Vec<Line> {
    let mut lines = Vec::new();
    let mut room = length;
    let mut next = Some(first_minute(rng, style));
    while let Some(minute) = next {
        let (least, most) = (least_line(minute), most_line(minute, style));
        if room < least {
            break;
        }
        let wanted = match style.short {
            true => least,
            false => rng.between(least, most),
        };
        next = u32::try_from(minute as usize + rng.between(1, style.step)).ok();
        let reserve = next.map_or(0, least_line);
        // the last line takes all that is left
        let line_length = match room {
            _ if room >= wanted + reserve => wanted,
            _ if room <= most => room,
            _ => room - reserve,
        };
        room -= line_length;
        lines.push(line(rng, minute, line_length, style));
    }
    lines
}

fn first_minute(rng: &mut Rng, style: &Style) -> u32 {
    match rng.below(4) {
        0 | 1 => 0,
        2 if style.step == 1 => u32::MAX - rng.below(300) as u32,
        2 => u32::MAX - any_number(rng) as u32 % (1 << 28),
        _ => any_number(rng) as u32,
    }
}

fn least_line(minute: u32) -> usize {
    width(minute) + 2 + MARKS
}

fn most_line(minute: u32, style: &Style) -> usize {
    most_widths(minute, style).iter().sum::<usize>() + MARKS
}

fn most_widths(minute: u32, style: &Style) -> [usize; 3] {
    let minute = match style.zeros {
        true => DIGITS_MAX,
        false => width(minute),
    };
    [minute, DIGITS_MAX, DRIVER_MAX]
}

/// A line of this length.
fn line(rng: &mut Rng, minute: u32, length: usize, style: &Style) -> Line {
    let mut widths = [width(minute), 1, 1];
    let most = most_widths(minute, style);
    while widths.iter().sum::<usize>() + MARKS < length {
        let field = rng.below(3);
        widths[field] = most[field].min(widths[field] + 1);
    }
    let digits = match style.zeros {
        true => rng.between(1, widths[1]),
        false => widths[1],
    };
    Line {
        minute,
        metres: number_of_digits(rng, digits),
        driver: driver(rng, widths[2]),
        widths: [widths[0], widths[1]],
    }
}

/// A number that is spelled with this many digits.
fn number_of_digits(rng: &mut Rng, digits: usize) -> u32 {
    let least = match digits {
        1 => 0,
        _ => 10_usize.pow(digits as u32 - 1),
    };
    let most = (10_usize.pow(digits as u32) - 1).min(u32::MAX as usize);
    match rng.below(8) {
        0 => least as u32,
        1 => most as u32,
        _ => rng.between(least, most) as u32,
    }
}

pub fn driver(rng: &mut Rng, length: usize) -> Vec<u8> {
    let characters: &[u8] = if rng.chance(20) { b"09AZ" } else { CHARACTERS };
    (0..length).map(|_| rng.pick(characters)).collect()
}

// ---------------------------------------------------------------------------
// Faults

/// Makes a fault, or what nearly is one.
pub fn spoil(rng: &mut Rng, list: &mut Vec<u8>) {
    match rng.weighted(&[4, 4, 3, 4]) {
        0 => spoil_byte(rng, list),
        1 => spoil_field(rng, list),
        2 => spoil_marks(rng, list),
        _ => spoil_order(rng, list),
    }
}

/// A byte that neither a number nor a driver has.
fn outside(rng: &mut Rng) -> u8 {
    match rng.chance(60) {
        true => rng.pick(NEIGHBOURS),
        false => rng.pick(OUTSIDE),
    }
}

/// A byte that stands in lists, or one that does not.
fn byte(rng: &mut Rng) -> u8 {
    match rng.below(4) {
        0 => rng.next_u64() as u8,
        1 => rng.pick(b"\n,\r0"),
        2 => rng.pick(CHARACTERS),
        _ => outside(rng),
    }
}

/// Changes, removes or inserts a byte, or swaps two.
fn spoil_byte(rng: &mut Rng, list: &mut Vec<u8>) {
    let at = rng.below(list.len() + 1);
    if at == list.len() {
        list.push(byte(rng));
        return;
    }
    match rng.below(5) {
        0 => list[at] = byte(rng),
        1 => list[at] = list[at].wrapping_add(rng.pick(&[1, 255, 32, 128])),
        2 => {
            list.remove(at);
        }
        3 => list.insert(at, byte(rng)),
        _ if rng.chance(50) => list.swap(at, at.saturating_sub(1)),
        _ => {
            let other = rng.below(list.len());
            list.swap(at, other);
        }
    }
}

/// The start of the line that an index is in.
pub fn line_start(list: &[u8], at: usize) -> usize {
    let before = list[..at].iter().rposition(|&byte| byte == b'\n');
    before.map_or(0, |lf| lf + 1)
}

/// A line without its LF, often the last one.
fn some_line(rng: &mut Rng, list: &[u8]) -> Range<usize> {
    let at = match rng.below(4) {
        0 => list.len().saturating_sub(1),
        _ => rng.below(list.len() + 1),
    };
    let start = line_start(list, at);
    let length = list[start..].iter().position(|&byte| byte == b'\n');
    start..length.map_or(list.len(), |length| start + length)
}

/// Replaces a field by one that nearly has the form, or just has it.
fn spoil_field(rng: &mut Rng, list: &mut Vec<u8>) {
    let line = some_line(rng, list);
    let mut fields: Vec<Vec<u8>> = list[line.clone()]
        .split(|&byte| byte == b',')
        .map(<[u8]>::to_vec)
        .collect();
    let index = rng.weighted(&[1, 1, 2]).min(fields.len() - 1);
    fields[index] = match index {
        0 | 1 => odd_number(rng),
        _ => odd_driver(rng),
    };
    list.splice(line, fields.join(&b','));
}

fn odd_number(rng: &mut Rng) -> Vec<u8> {
    let limit = 1 << 32;
    let value = match rng.below(5) {
        0 | 1 => limit + rng.below(4) - 2,
        2 => rng.pick(&[limit + 1_000, 2 * limit, 9_999_999_999, 10_000_000_000]),
        3 => any_number(rng),
        _ => 0,
    };
    let width = rng.pick(&[0, 0, 0, 1, 9, 10, 11, 12, 20]);
    let mut digits = format!("{value:0width$}").into_bytes();
    match rng.below(20) {
        0 => digits.clear(),
        1 => digits[0] = outside(rng),
        2 => digits.insert(0, outside(rng)),
        3 => digits.push(outside(rng)),
        4 => digits.push(rng.pick(CHARACTERS)),
        // one more than 64 bits hold
        5 => digits = b"18446744073709551616".to_vec(),
        _ => {}
    }
    digits
}

fn odd_driver(rng: &mut Rng) -> Vec<u8> {
    if rng.chance(40) {
        let length = rng.pick(&[0, 1, 15, 16, 17, 17, 18, 32]);
        return driver(rng, length);
    }
    let length = rng.between(1, DRIVER_MAX);
    let mut driver = driver(rng, length);
    driver[rng.below(length)] = outside(rng);
    driver
}

/// Adds or removes a comma, a CR, an LF, a field or an empty line.
fn spoil_marks(rng: &mut Rng, list: &mut Vec<u8>) {
    let line = some_line(rng, list);
    match rng.below(9) {
        0 => {
            let comma = |&at: &usize| list[at] == b',';
            let found = match rng.chance(50) {
                true => line.clone().find(comma),
                false => line.clone().rfind(comma),
            };
            found.map(|at| list.remove(at));
        }
        1 => list.insert(rng.between(line.start, line.end), b','),
        2 => list.insert(line.end, b'\r'),
        3 => list.insert(line.start, b'\n'),
        4 => {
            list.pop();
        }
        5 => {
            list.splice(line.end..line.end, *b",A");
        }
        6 if line.end < list.len() => {
            list.remove(line.end);
        }
        7 if line.end < list.len() => list[line.end] = rng.pick(b"\r\0,"),
        _ => list.push(b'\n'),
    }
}

/// Makes the minute of a line equal to the one before or smaller, or has lines
/// twice or in another order.
fn spoil_order(rng: &mut Rng, list: &mut Vec<u8>) {
    let line = some_line(rng, list);
    if line.start == 0 || line.end == list.len() {
        // the last trip at the start
        let last = list[line_start(list, list.len().saturating_sub(1))..].to_vec();
        list.splice(..0, last);
        return;
    }
    let before = line_start(list, line.start - 1)..line.start;
    let minute = digits_at(list, before.start).unwrap_or(0);
    let own = line.start..line.start + digits(&list[line.clone()]).len();
    let width = rng.between(1, DIGITS_MAX);
    let lower = match rng.below(6) {
        0 => minute.saturating_sub(1),
        1 => 0,
        2 => rng.between(0, minute),
        3 => {
            let copy = list[before].to_vec();
            list.splice(line.start..line.start, copy);
            return;
        }
        4 => {
            let (start, middle, end) = (before.start, line.start, line.end + 1);
            list[start..end].rotate_left(middle - start);
            return;
        }
        _ => minute,
    };
    list.splice(own, format!("{lower:0width$}").into_bytes());
}

/// The digits at the start.
pub fn digits(bytes: &[u8]) -> &[u8] {
    let end = bytes.iter().position(|byte| !byte.is_ascii_digit());
    &bytes[..end.unwrap_or(bytes.len())]
}

/// The number that stands at an index, where there is one.
pub fn digits_at(list: &[u8], at: usize) -> Option<usize> {
    let text = std::str::from_utf8(digits(list.get(at..)?)).ok()?;
    text.parse().ok()
}

#[cfg(test)]
mod tests {
    use super::*;
    use reference::trips::trips;

    #[test]
    fn rising_lists_keep_all_rules_and_have_all_lengths() {
        let mut rng = Rng::new(1);
        let mut exact = 0;
        let mut most = 0;
        for length in (0..=LIST_BYTES).chain([LIST_BYTES; 200]) {
            let list = rising_list(&mut rng, length);
            let trips = trips(&list).map(|trips| trips.len());
            assert!(trips.is_ok(), "{}", list.escape_ascii());
            assert!(list.len() <= length);
            exact += usize::from(list.len() == length);
            most = most.max(trips.unwrap());
        }
        // the others come to the last minute too early
        assert!(exact > LIST_BYTES * 2 / 3, "{exact}");
        // ten lines of 6 bytes, ninety of 7, and lines of 8
        assert_eq!(most, 10 + 90 + (LIST_BYTES - 60 - 630) / 8);
    }

    #[test]
    fn lengths_are_exact_from_the_shortest_line_on() {
        let mut rng = Rng::new(2);
        for length in 6..200 {
            let found = (0..100).any(|_| rising_list(&mut rng, length).len() == length);
            assert!(found, "{length}");
        }
    }

    /// Each spoiler makes lists with each refusal that it is there for, and
    /// breaks no empty list.
    #[test]
    fn spoilt_lists_are_refused() {
        use reference::store::Refusal::{TripForm, TripOrder};
        let spoilers: [fn(&mut Rng, &mut Vec<u8>); 4] =
            [spoil_byte, spoil_field, spoil_marks, spoil_order];
        let refusals: [&[_]; 4] = [
            &[TripForm, TripOrder],
            &[TripForm, TripOrder],
            &[TripForm],
            &[TripOrder],
        ];
        let mut rng = Rng::new(3);
        for (spoil, refusals) in spoilers.iter().zip(refusals) {
            let mut seen = Vec::new();
            for length in (0..400).chain([LIST_BYTES; 20]) {
                let mut list = rising_list(&mut rng, length);
                spoil(&mut rng, &mut list);
                seen.push(trips(&list).err());
            }
            for &refusal in refusals {
                let count = seen.iter().filter(|&&seen| seen == Some(refusal)).count();
                assert!(count > 5, "{refusal:?} {count}");
            }
        }
    }

    #[test]
    fn numbers_in_a_list() {
        let list = b"12,x\n";
        assert_eq!(digits_at(list, 0), Some(12));
        assert_eq!(digits_at(list, 1), Some(2));
        for at in [2, 3, 5, 6, usize::MAX] {
            assert_eq!(digits_at(list, at), None);
        }
        assert_eq!([0, 4, 5].map(|at| line_start(list, at)), [0, 0, 5]);
    }
}
