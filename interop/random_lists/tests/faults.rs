//! The comparison finds an implementation with a fault.

use std::collections::BTreeMap;

use layout::{LIST_BYTES, TRIP_NUMBERS};
use random_calls::{faults_found, word, Reference};
use random_lists::{compare, Call, Check, TripLists};
use reference::store::Answer;
use reference::trips::{joined, spelling, trips, Trip};

const RANGE: u32 = 7 << 16;
const FORM: u32 = 10 << 16;
const ORDER: u32 = 11 << 16;
const CONFLICT: u32 = 17 << 16;
const TOO_LONG: u32 = 18 << 16;

/// The reference, with one fault.
struct Faulty<const FAULT: usize>;

const FAULTS: usize = 56;

/// The bytes between two LF.
fn lines(list: &[u8]) -> impl Iterator<Item = &[u8]> {
    list.split_inclusive(|&byte| byte == b'\n')
}

/// The list as the fault lets it be read.
fn seen<const FAULT: usize>(list: &[u8]) -> Vec<u8> {
    let replaced = |from: u8, to: u8| {
        let bytes = list.iter();
        bytes
            .map(|&byte| if byte == from { to } else { byte })
            .collect()
    };
    let fields = |change: &dyn Fn(usize, &[u8]) -> Vec<u8>| {
        let lines = lines(list).map(|line| {
            let fields = line.split(|&byte| byte == b',').enumerate();
            let fields: Vec<Vec<u8>> = fields.map(|(at, field)| change(at, field)).collect();
            fields.join(&b',')
        });
        lines.collect::<Vec<_>>().concat()
    };
    match FAULT {
        // each byte just outside of a driver's
        1 => replaced(b'@', b'A'),
        2 => replaced(b'[', b'Z'),
        3 => replaced(b'/', b'0'),
        4 => replaced(b':', b'9'),
        // small letters
        5 => replaced(b'a', b'A'),
        // CR before LF
        6 => fields(&|_, field| match field.strip_suffix(b"\r\n") {
            Some(field) => [field, b"\n"].concat(),
            None => field.to_vec(),
        }),
        // one above the largest number wraps
        7 => fields(&|_, field| match field {
            b"4294967296" => b"0000000000".to_vec(),
            _ => field.to_vec(),
        }),
        // 11 digits where the first is 0
        8 => fields(&|at, field| match field {
            [b'0', rest @ ..] if at < 2 && rest.len() == 10 => rest.to_vec(),
            _ => field.to_vec(),
        }),
        // 17 characters
        9 => fields(&|at, field| match field {
            [rest @ .., _, b'\n'] if at == 2 && rest.len() == 16 => [rest, b"\n"].concat(),
            _ => field.to_vec(),
        }),
        // empty lines
        10 => {
            let lines = lines(list).filter(|line| *line != b"\n");
            lines.collect::<Vec<_>>().concat()
        }
        // no LF at the end
        11 if !list.is_empty() && !list.ends_with(b"\n") => [list, b"\n"].concat(),
        // a list of the greatest length is too long
        12 if list.len() == LIST_BYTES => vec![b'x'; LIST_BYTES + 1],
        // a list that is too long is read as far as it may go
        13 if list.len() > LIST_BYTES => list[..LIST_BYTES].to_vec(),
        // a fourth field
        14 => fields(&|at, field| match field {
            b"A\n" if at == 3 => b"\n".to_vec(),
            _ => field.to_vec(),
        }),
        // equal minutes: the second line is left out
        32 => {
            let mut last = None;
            let lines = lines(list).filter(|line| {
                let minute = minute(line);
                let equal = minute.is_some() && minute == last;
                last = minute;
                !equal
            });
            lines.collect::<Vec<_>>().concat()
        }
        _ => list.to_vec(),
    }
}

/// The minute of a line, where it begins with one.
fn minute(line: &[u8]) -> Option<u64> {
    let digits = line.split(|&byte| byte == b',').next()?;
    std::str::from_utf8(digits).ok()?.parse().ok()
}

/// As a refusal of the order that comes before one of the form.
fn order_first(list: &[u8], word: u32) -> u32 {
    let mut last = None;
    for line in lines(list).take_while(|_| word == FORM) {
        match (last, minute(line)) {
            (Some(last), Some(minute)) if minute <= last => return ORDER,
            (_, None) => return word,
            (_, minute) => last = minute,
        }
    }
    word
}

/// Writes all fields otherwise into the buffer as it came, and counts the bytes.
fn respell(
    written: &[u8],
    came: &[u8],
    buffer: &mut [u8],
    spell: impl Fn(usize, &str) -> String,
) -> u32 {
    let written = String::from_utf8_lossy(written);
    let text: String = written
        .lines()
        .map(|line| {
            let fields = line.split(',').enumerate();
            let fields: Vec<String> = fields.map(|(at, field)| spell(at, field)).collect();
            fields.join(",") + "\n"
        })
        .collect();
    buffer.copy_from_slice(came);
    buffer[..text.len()].copy_from_slice(text.as_bytes());
    text.len() as u32
}

/// The lines of a list before the first bad one.
fn sound_lines(list: &[u8]) -> Vec<u8> {
    let lines: Vec<&[u8]> = lines(list).collect();
    let counts: Vec<usize> = (1..=lines.len()).collect();
    let sound = |&count: &usize| trips(&lines[..count].concat()).is_ok();
    lines[..counts.partition_point(sound)].concat()
}

/// The trips of both lists by minute, those of the first where both have one;
/// none where two are not alike.
fn merged<'a>(
    one: &[Trip<'a>],
    two: &[Trip<'a>],
    alike: impl Fn(Trip<'a>, Trip<'a>) -> bool,
) -> Option<Vec<Trip<'a>>> {
    let mut all: BTreeMap<u32, Trip> = two.iter().map(|&trip| (trip.minute, trip)).collect();
    for &trip in one {
        match all.insert(trip.minute, trip) {
            Some(other) if !alike(trip, other) => return None,
            _ => {}
        }
    }
    Some(all.into_values().collect())
}

/// Writes these trips into the buffer as it came, and counts the bytes.
fn put(trips: &[Trip], came: &[u8], buffer: &mut [u8]) -> u32 {
    let bytes = spelling(trips);
    if bytes.len() > LIST_BYTES {
        return TOO_LONG;
    }
    buffer.copy_from_slice(came);
    buffer[..bytes.len()].copy_from_slice(&bytes);
    bytes.len() as u32
}

/// The join of two lists that are sound, with a fault. The answer is that of a
/// join without one, and the buffer is as that left it.
fn faulty_join<const FAULT: usize>(
    [first, second]: [&[u8]; 2],
    answer: u32,
    came: &[u8],
    buffer: &mut [u8],
) -> u32 {
    let (one, two) = (trips(first).unwrap(), trips(second).unwrap());
    let (last_one, last_two) = (one.last().copied(), two.last().copied());
    let done = answer < 65_536;
    let all = merged(&one, &two, |_, _| true).unwrap();
    let mut join_alike = |alike: &dyn Fn(Trip, Trip) -> bool| match merged(&one, &two, alike) {
        Some(trips) => put(&trips, came, buffer),
        None => CONFLICT,
    };
    match FAULT {
        // on a conflict the trip of the first list is taken: on each, where the
        // metres differ, where the driver does, where it does late, at the end
        38 => join_alike(&|_, _| true),
        39 => join_alike(&|one, two| one.driver == two.driver),
        40 => join_alike(&|one, two| one.metres == two.metres),
        41 => join_alike(&|one, two| {
            one.metres == two.metres && one.driver.iter().take(8).eq(two.driver.iter().take(8))
        }),
        42 => join_alike(&|one, two| one == two || (Some(one), Some(two)) == (last_one, last_two)),
        // trips that are spelled otherwise are others
        43 if done => {
            let spelled_alike = lines(first).all(|line| {
                let other = lines(second).find(|other| minute(other) == minute(line));
                other.is_none_or(|other| other == line)
            });
            if !spelled_alike {
                buffer.copy_from_slice(came);
                return CONFLICT;
            }
            answer
        }
        // 18 comes before 17
        44 if spelling(&all).len() > LIST_BYTES => TOO_LONG,
        // trips of both are written twice
        45 if done => {
            let mut twice = [one, two].concat();
            twice.sort_by_key(|trip| trip.minute);
            put(&twice, came, buffer)
        }
        // the tail of either list is dropped
        46 | 47 if done => {
            let last = if FAULT == 46 { last_one } else { last_two };
            let kept = all
                .into_iter()
                .filter(|trip| last.is_none_or(|last| trip.minute <= last.minute));
            put(&kept.collect::<Vec<_>>(), came, buffer)
        }
        // one list behind the other
        48 if done => {
            let others = two.into_iter().filter(|trip| !one.contains(trip));
            put(&[one.clone(), others.collect()].concat(), came, buffer)
        }
        // refusing, it has written
        49 if answer == CONFLICT => {
            buffer[0] = buffer[0].wrapping_add(1);
            answer
        }
        50 if answer == TOO_LONG => {
            buffer.copy_from_slice(&spelling(&all)[..LIST_BYTES]);
            answer
        }
        // the limit is one byte off
        51 if answer == LIST_BYTES as u32 => {
            buffer.copy_from_slice(came);
            TOO_LONG
        }
        52 if answer == TOO_LONG && spelling(&all).len() == LIST_BYTES + 1 => {
            buffer.copy_from_slice(&spelling(&all)[..LIST_BYTES]);
            LIST_BYTES as u32
        }
        // the lengths of both lists together count
        53 if done && first.len() + second.len() > LIST_BYTES => {
            buffer.copy_from_slice(came);
            TOO_LONG
        }
        // the rest of the buffer is cleared
        54 if done => {
            buffer[answer as usize..].fill(0);
            answer
        }
        _ => answer,
    }
}

impl<const FAULT: usize> TripLists for Faulty<FAULT> {
    fn read_trip(list: &[u8], place: usize, trip: &mut [u32]) -> u32 {
        // RANGE before SHAPE
        if FAULT == 15 && list.len() > LIST_BYTES {
            return RANGE;
        }
        let place = match FAULT {
            16 => place as u32 as usize,
            _ => place,
        };
        let before = trip.to_vec();
        let word = Reference::read_trip(&seen::<FAULT>(list), place, trip);
        let done = word < 65_536;
        match FAULT {
            // only the lines up to the place are looked at
            17 if !done && place < list.len() => {
                let lines: Vec<&[u8]> = lines(list).take(place + 1).collect();
                return Reference::read_trip(&lines.concat(), place, trip);
            }
            // the count is that of the trips up to the place
            18 if done && place < word as usize => return place as u32 + 1,
            // past the last it clears the trip
            19 if done && trip == before => trip.fill(0),
            // refusing, it clears the trip
            20 if !done => trip.fill(0),
            // the driver's index counts from its line
            21 if done && trip != before => {
                let start = trip[2] as usize;
                let line = list[..start].iter().rposition(|&byte| byte == b'\n');
                trip[2] = (start - line.map_or(0, |lf| lf + 1)) as u32;
            }
            22 => return order_first(list, word),
            _ => {}
        }
        word
    }

    fn next_trip(list: &[u8], at: usize, least: usize, trip: &mut [u32]) -> u32 {
        let (at, least) = match FAULT {
            23 => (at, least as u32 as usize),
            24 => (at as u32 as usize, least),
            // above the least minute
            25 => (at, least.saturating_add(usize::from(least > 0))),
            _ => (at, least),
        };
        // the last byte does not count
        if FAULT == 26 && trip.len() == TRIP_NUMBERS && at.checked_add(1) == Some(list.len()) {
            return 0;
        }
        let before = trip.to_vec();
        let word = Reference::next_trip(&seen::<FAULT>(list), at, least, trip);
        // only where a line starts
        if FAULT == 27 && (1..65_536).contains(&word) && at > 0 && list[at - 1] != b'\n' {
            trip.copy_from_slice(&before);
            return FORM;
        }
        // at the end it clears the trip
        if FAULT == 34 && word == 0 {
            trip.fill(0);
        }
        word
    }

    fn write_trips(list: &[u8], buffer: &mut [u8]) -> u32 {
        let list = seen::<FAULT>(list);
        let came = buffer.to_vec();
        let word = Reference::write_trips(&list, buffer);
        let count = word as usize;
        let written = buffer.get(..count).map(<[u8]>::to_vec).unwrap_or_default();
        match FAULT {
            // leading zeros stay
            28 if count < 65_536 => {
                buffer[..list.len()].copy_from_slice(&list);
                return list.len() as u32;
            }
            // the rest of the buffer is cleared
            29 if count < 65_536 => buffer[count..].fill(0),
            // what comes before the line that is refused is written
            30 if word == ORDER => {
                let line = lines(&list).next().unwrap_or_default();
                buffer[..line.len()].copy_from_slice(line);
            }
            // drivers lose a leading 0
            31 if count < 65_536 => {
                return respell(&written, &came, buffer, |at, field| {
                    match field.strip_prefix('0') {
                        Some(rest) if at == 2 && !rest.is_empty() => rest.to_owned(),
                        _ => field.to_owned(),
                    }
                });
            }
            // the number 0 has no digit
            33 if count < 65_536 => {
                return respell(&written, &came, buffer, |at, field| match field {
                    "0" if at < 2 => String::new(),
                    _ => field.to_owned(),
                });
            }
            _ => {}
        }
        word
    }

    fn join_trips(first: &[u8], second: &[u8], buffer: &mut [u8]) -> u32 {
        let (first, second) = (&*seen::<FAULT>(first), &*seen::<FAULT>(second));
        let came = buffer.to_vec();
        let shape = buffer.len() == LIST_BYTES;
        match FAULT {
            // SHAPE comes last
            35 => {
                if let Err(refusal) = joined(first, second) {
                    return word(Answer::Refused(refusal));
                }
            }
            // the second list is checked before the first
            36 => return Reference::join_trips(second, first, buffer),
            // the lengths of both come before their lines
            37 if shape && second.len() > LIST_BYTES => return RANGE,
            _ => {}
        }
        let answer = Reference::join_trips(first, second, buffer);
        match answer {
            0..65_536 | CONFLICT | TOO_LONG => {
                faulty_join::<FAULT>([first, second], answer, &came, buffer)
            }
            // a conflict, or that the join is too long, is told before a bad line
            // behind it
            FORM | ORDER if FAULT == 55 || FAULT == 56 => {
                let early = [CONFLICT, TOO_LONG][FAULT - 55];
                let [first, second] = [first, second].map(sound_lines);
                let found = Reference::join_trips(&first, &second, &mut [0; LIST_BYTES]);
                if found == early {
                    early
                } else {
                    answer
                }
            }
            _ => answer,
        }
    }
}

#[test]
fn an_implementation_equals_itself_and_gives_every_answer() {
    let tally = compare::<Reference, Faulty<0>>(1, 4_000).unwrap();
    assert_eq!((tally.lists, tally.pairs), (4_000, 4_000));
    assert_eq!(tally.calls(), 36_000);
    assert!((1_000..3_000).contains(&tally.accepted), "{tally:?}");
    assert!((500..3_000).contains(&tally.common), "{tally:?}");
    assert_eq!(tally.missing(), [""; 0]);
    let of_each: &[usize] = &[0, 2, 7, 10, 11];
    for (name, numbers) in [
        ("read_trip", of_each),
        ("next_trip", of_each),
        ("write_trips", of_each),
        ("join_trips", &[0, 2, 7, 10, 11, 17, 18]),
    ] {
        let answers = tally.of(name);
        for &number in numbers {
            assert!(answers[number] > 50, "{name}: {answers:?}");
        }
        assert_eq!(
            numbers.iter().map(|&number| answers[number]).sum::<usize>(),
            answers.iter().sum()
        );
    }
}

#[test]
fn few_lists_do_not_give_every_answer() {
    let tally = compare::<Reference, Reference>(1, 1).unwrap();
    assert!(!tally.missing().is_empty());
}

#[test]
fn every_fault_is_found() {
    let found = faults_found!(Reference, 8_000:
        1 2 3 4 5 6 7 8 9 10 11 12 13 14 15 16 17 18 19 20
        21 22 23 24 25 26 27 28 29 30 31 32 33 34 35 36 37 38 39 40
        41 42 43 44 45 46 47 48 49 50 51 52 53 54 55 56
    );
    assert_eq!(found, [true; FAULTS]);
}

/// By the laws, without another implementation that is right.
#[test]
fn some_faults_are_found_beside_themselves() {
    let found = faults_found!(itself, 8_000:
        10 17 18 19 20 21 22 23 25 26 28 29 30 31 33 34 36 37 38 43
        44 45 46 48 49 51 53 54 55 56
    );
    assert_eq!(found, [true; 30]);
}

#[test]
fn a_difference_is_told_in_its_simplest_form() {
    let difference = compare::<Reference, Faulty<21>>(1, 8_000).unwrap_err();
    // the second of two trips
    assert_eq!(difference.list, b"0,0,0\n1,0,0\n");
    let Check::Call(Call::ReadTrip { place: 1, trip }) = &difference.check else {
        panic!("{difference}");
    };
    assert_eq!(*trip, [1; TRIP_NUMBERS]);
    let text = difference.to_string();
    assert!(text.starts_with("seed 1, list "), "{text}");
    assert!(text.contains(": the buffers differ: "), "{text}");
    assert!(
        text.ends_with("\nread_trip place 1, trip [1, 1, 1, 1]\non 12 bytes: \"0,0,0\\n1,0,0\\n\""),
        "{text}"
    );

    // by a law
    let difference = compare::<Faulty<28>, Faulty<28>>(1, 8_000).unwrap_err();
    assert_eq!(difference.list, b"0,0,0\n");
    assert_eq!(difference.check, Check::Laws { step: 1 });
}

#[test]
fn a_difference_on_two_lists_is_told_in_its_simplest_form() {
    // drivers of one minute that differ
    let difference = compare::<Reference, Faulty<40>>(1, 8_000).unwrap_err();
    let Check::Call(Call::JoinTrips { second, buffer }) = &difference.check else {
        panic!("{difference}");
    };
    for list in [&difference.list, second] {
        assert!(list.starts_with(b"0,") && list.len() == 6, "{difference}");
    }
    assert_eq!(*buffer, [1; LIST_BYTES]);
    let text = difference.to_string();
    assert!(text.contains("\njoin_trips with 6 bytes: \"0,"), "{text}");
    assert!(
        text.contains("buffer of 4096: 4096 x 01\non 6 bytes: \"0,"),
        "{text}"
    );

    // by a law: one list behind the other
    let difference = compare::<Faulty<48>, Faulty<48>>(1, 8_000).unwrap_err();
    let second = b"0,0,0\n".to_vec();
    assert_eq!(difference.list, b"1,0,0\n");
    assert_eq!(difference.check, Check::JoinLaws { second });
}
