//! What holds of one implementation, whatever another one says.

use std::collections::BTreeMap;
use std::ptr;

use layout::{LIST_BYTES, TRIP_NUMBERS};
use reference::trips::Trip;

use crate::call::with_lf_behind;
use crate::trip_lists::TripLists;

/// What a call finds in a trip that it is lent.
const TRIP: [u32; TRIP_NUMBERS] = [0x5a5a_5a5a; TRIP_NUMBERS];
/// What a call finds in a buffer that it is lent.
const BYTE: u8 = 0x5a;

/// The answers of a join that is refused for what the two lists are together.
const CONFLICT: u32 = 17 << 16;
const TOO_LONG: u32 = 18 << 16;

/// Holds the calls against each other on one list. Says what is wrong where
///
/// - the cursor, from line to line, does not give the trips that `read_trip`
///   gives at each place in this step, at the last and past it, or does not end
///   with its refusal;
/// - what is written is not refused alike, is longer than the list, has other
///   trips, or is not written as it stands;
/// - the list with as many leading zeros as have room is written otherwise.
///
/// Answers the number of trips, or nothing where the list is refused.
pub fn laws<L: TripLists>(list: &[u8], step: usize) -> Result<Option<usize>, String> {
    let bytes = with_lf_behind(list);
    let list = &bytes[..list.len()];
    let (trips, end) = walk::<L>(list)?;
    let count = trips.len();
    let read_word = if end == 0 { count as u32 } else { end };
    let last = count.saturating_sub(1);
    for place in (0..count).step_by(step).chain([last, count, usize::MAX]) {
        let mut trip = TRIP;
        let word = L::read_trip(list, place, &mut trip);
        if word != read_word {
            return Err(format!(
                "read_trip at {place} answers {word:x}; the cursor finds {count} trips and ends with {end:x}"
            ));
        }
        let found = trips.get(place).filter(|_| end == 0);
        let expected = found.unwrap_or(&TRIP);
        if trip != *expected {
            return Err(format!(
                "read_trip leaves {trip:?} at {place}; the cursor tells {expected:?}"
            ));
        }
    }

    let written = write::<L>(list)?;
    if written.as_ref().err().copied().unwrap_or(0) != end {
        return Err(format!(
            "the cursor ends with {end:x}, written: {}",
            told(&written)
        ));
    }
    let Ok(written) = written else {
        return Ok(None);
    };
    if written.len() > list.len() {
        return Err(format!("what is written is longer: {}", told(&Ok(written))));
    }
    let trips = with_drivers(list, &trips)?;
    let (written_trips, written_end) = walk::<L>(&written)?;
    if written_end != 0 || with_drivers(&written, &written_trips)? != trips {
        return Err(format!(
            "what is written has other trips: {}",
            told(&Ok(written))
        ));
    }
    let padded = padded(&trips, LIST_BYTES - written.len());
    for same in [&written, &padded] {
        let again = write::<L>(same)?;
        if again.as_ref() != Ok(&written) {
            let again = told(&again);
            let (same, written) = (same.escape_ascii(), told(&Ok(written.clone())));
            return Err(format!("written: {written}, and from \"{same}\": {again}"));
        }
    }
    Ok(Some(count))
}

/// Holds the joins of two lists against the other calls and each other. Says what
/// is wrong where
///
/// - the first list with itself, or with the empty list, is joined otherwise than
///   it is written;
/// - the join is not refused as the first list is, then as the second;
/// - of lists that are written, the join is not TRIP CONFLICT where the cursor
///   finds different trips of a minute, else TRIPS TOO LONG where all trips
///   together have no room, else all of them, whichever list comes first;
/// - `read_trip` does not count the trips of the joined list, or that list with
///   either of the two is joined otherwise than as it stands.
///
/// Answers the number of common trips, or nothing where the join is refused.
pub fn join_laws<L: TripLists>(first: &[u8], second: &[u8]) -> Result<Option<usize>, String> {
    let written = write::<L>(first)?;
    for (one, two) in [(first, first), (first, b""), (b"", first)] {
        joins_to::<L>(one, two, &written)?;
    }
    if let Err(word) = written.and(write::<L>(second)?) {
        joins_to::<L>(first, second, &Err(word))?;
        return Ok(None);
    }

    let (trips, other_trips) = (all_trips::<L>(first)?, all_trips::<L>(second)?);
    let count = trips.len() + other_trips.len();
    let mut union = BTreeMap::new();
    let mut conflict = false;
    for trip in trips.into_iter().chain(other_trips) {
        let other = union.insert(trip.minute, trip);
        conflict |= other.is_some_and(|other| other != trip);
    }
    let union: Vec<Trip> = union.into_values().collect();
    let spelled = padded(&union, 0);
    let expected = match spelled.len() {
        _ if conflict => Err(CONFLICT),
        0..=LIST_BYTES => Ok(spelled),
        _ => Err(TOO_LONG),
    };
    joins_to::<L>(first, second, &expected)?;
    joins_to::<L>(second, first, &expected)?;
    let Ok(joined) = &expected else {
        return Ok(None);
    };
    let word = L::read_trip(joined, 0, &mut TRIP.clone());
    if word as usize != union.len() {
        return Err(format!("read_trip answers {word:x}: {}", told(&expected)));
    }
    joins_to::<L>(joined, first, &expected)?;
    joins_to::<L>(second, joined, &expected)?;
    Ok(Some(count - union.len()))
}

/// Says what is wrong where two lists are joined otherwise.
fn joins_to<L: TripLists>(
    first: &[u8],
    second: &[u8],
    expected: &Result<Vec<u8>, u32>,
) -> Result<(), String> {
    let [one, two] = &[first, second].map(with_lf_behind);
    // a list and itself are lent as the same memory
    let two = if ptr::eq(first, second) { one } else { two };
    let joined = filled("join_trips", |buffer| {
        L::join_trips(&one[..first.len()], &two[..second.len()], buffer)
    })?;
    if joined == *expected {
        return Ok(());
    }
    let (first, second) = (first.escape_ascii(), second.escape_ascii());
    let (joined, expected) = (told(&joined), told(expected));
    Err(format!(
        "\"{first}\" joined with \"{second}\": {joined}, and not {expected}"
    ))
}

/// The trips of a list that is accepted.
fn all_trips<L: TripLists>(list: &[u8]) -> Result<Vec<Trip<'_>>, String> {
    let (trips, end) = walk::<L>(list)?;
    if end != 0 {
        return Err(format!(
            "the cursor ends with {end:x} on a list that is written"
        ));
    }
    with_drivers(list, &trips)
}

/// The trips that the cursor gives from the start of the list on, and the word
/// that ends them: 0 at the end of the list, or a refusal.
fn walk<L: TripLists>(list: &[u8]) -> Result<(Vec<[u32; TRIP_NUMBERS]>, u32), String> {
    let bytes = with_lf_behind(list);
    let mut trips = Vec::new();
    let (mut at, mut least) = (0, 0);
    loop {
        let mut trip = TRIP;
        let word = L::next_trip(&bytes[..list.len()], at, least, &mut trip);
        if word == 0 || word > 65_535 {
            return match trip == TRIP {
                true => Ok((trips, word)),
                false => Err(format!("next_trip answers {word:x} and leaves {trip:?}")),
            };
        }
        let next = word as usize;
        if next <= at || (trip[0] as usize) < least {
            return Err(format!(
                "next_trip at {at} with the least minute {least} goes to {next}, with {trip:?}"
            ));
        }
        trips.push(trip);
        at = next;
        least = trip[0] as usize + 1;
    }
}

/// What is written, or the refusal, as text.
fn told(written: &Result<Vec<u8>, u32>) -> String {
    match written {
        Ok(bytes) => format!("\"{}\"", bytes.escape_ascii()),
        Err(word) => format!("{word:x}"),
    }
}

/// The bytes that are written, or the refusal.
fn write<L: TripLists>(list: &[u8]) -> Result<Result<Vec<u8>, u32>, String> {
    let bytes = with_lf_behind(list);
    filled("write_trips", |buffer| {
        L::write_trips(&bytes[..list.len()], buffer)
    })
}

/// The bytes that a call writes, or the refusal.
fn filled(name: &str, call: impl FnOnce(&mut [u8]) -> u32) -> Result<Result<Vec<u8>, u32>, String> {
    let came = [BYTE; LIST_BYTES];
    let mut buffer = came;
    let word = call(&mut buffer);
    let (written, rest) = match word {
        65_536.. => (Err(word), &buffer[..]),
        _ => match buffer.split_at_checked(word as usize) {
            Some((front, rest)) => (Ok(front.to_vec()), rest),
            None => return Err(format!("{name} counts {word} bytes")),
        },
    };
    if *rest != came[..rest.len()] {
        return Err(format!("{name} answers {word:x} and wrote more"));
    }
    Ok(written)
}

/// The trips that these numbers tell.
fn with_drivers<'a>(
    list: &'a [u8],
    trips: &[[u32; TRIP_NUMBERS]],
) -> Result<Vec<Trip<'a>>, String> {
    let trip = |numbers: &[u32; TRIP_NUMBERS]| {
        let [minute, metres, start, length] = *numbers;
        let driver = list.get(start as usize..start as usize + length as usize);
        driver
            .map(|driver| Trip {
                minute,
                metres,
                driver,
            })
            .ok_or_else(|| format!("the driver of {numbers:?} is outside of the list"))
    };
    trips.iter().map(trip).collect()
}

/// The trips with numbers of ten digits, as far as there is room for zeros.
fn padded(trips: &[Trip<'_>], mut room: usize) -> Vec<u8> {
    let mut padded = Vec::new();
    for Trip {
        minute,
        metres,
        driver,
    } in trips
    {
        let short = format!("{minute},{metres},");
        let long = format!("{minute:010},{metres:010},");
        let zeros = long.len() - short.len();
        if zeros <= room {
            room -= zeros;
            padded.extend(long.bytes());
        } else {
            padded.extend(short.bytes());
        }
        padded.extend(*driver);
        padded.push(b'\n');
    }
    padded
}

#[cfg(test)]
mod tests {
    use super::*;

    #[test]
    fn zeros_as_far_as_there_is_room() {
        let trip = |minute| Trip {
            minute,
            metres: 70,
            driver: b"A0",
        };
        let trips = [trip(5), trip(600)];
        let padded = |room| String::from_utf8(padded(&trips, room)).unwrap();
        assert_eq!(padded(14), "5,70,A0\n600,70,A0\n");
        assert_eq!(padded(17), "0000000005,0000000070,A0\n600,70,A0\n");
        assert_eq!(padded(16), "5,70,A0\n0000000600,0000000070,A0\n");
        assert_eq!(
            padded(32),
            "0000000005,0000000070,A0\n0000000600,0000000070,A0\n"
        );
    }
}
