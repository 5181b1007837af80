//! Random pairs of lists, to be joined.

use layout::LIST_BYTES;
use random_sessions::rng::Rng;
use reference::trips::{DIGITS_MAX, DRIVER_MAX};

use crate::random_list::{driver, random_list, rising_lines, spelled, spoil, width, Line, Style};

/// A random pair.
pub fn random_pair(rng: &mut Rng) -> [Vec<u8>; 2] {
    if rng.chance(5) {
        return [random_list(rng), random_list(rng)];
    }
    let style = Style::random(rng, false);
    let length = joined_length(rng);
    let lines = rising_lines(rng, length, &style);
    let mut lists = deal(rng, lines);
    for _ in 0..rng.weighted(&[70, 25, 5]) {
        conflict(rng, &mut lists);
    }
    let mut pair = lists.map(|mut list| {
        add_zeros(rng, &mut list);
        spelled(&list)
    });
    let spoilt: &[usize] = match rng.weighted(&[72, 10, 10, 8]) {
        0 => &[],
        1 => &[0],
        2 => &[1],
        _ => &[0, 1],
    };
    for &which in spoilt {
        match rng.chance(20) {
            true => lengthen(rng, &mut pair[which]),
            false => spoil(rng, &mut pair[which]),
        }
    }
    pair
}

/// The length of the joined list, where that has no conflict.
fn joined_length(rng: &mut Rng) -> usize {
    match rng.below(80) {
        0 => 0,
        1..=40 => rng.between(6, 120),
        41..=69 => rng.between(6, 400),
        70 => rng.between(6, 2 * LIST_BYTES),
        71 => rng.between(LIST_BYTES - 60, LIST_BYTES + 60),
        72..=77 => LIST_BYTES + 1 - rng.pick(&[0, 0, 1, 1, 2]),
        _ => LIST_BYTES + rng.below(LIST_BYTES),
    }
}

/// Gives each line to the first list, to the second or to both, as far as they
/// have room.
fn deal(rng: &mut Rng, lines: Vec<Line>) -> [Vec<Line>; 2] {
    let shares: [&[usize]; 3] = [&[0], &[1], &[0, 1]];
    let weights = rng.pick(&[
        // by turns, with more and more in both
        [1, 1, 0],
        [1, 1, 0],
        [1, 1, 1],
        [1, 1, 10],
        [1, 1, 60],
        // equal; one a part of the other, or empty
        [0, 0, 1],
        [1, 0, 2],
        [0, 1, 2],
        [1, 0, 0],
        [0, 1, 0],
    ]);
    // or one after the other, with some lines between that are in both
    let one_after = rng.chance(30).then(|| {
        let end = rng.below(lines.len() + 1);
        let common = [0, 0, rng.below(lines.len() + 1)];
        (end, end + rng.pick(&common), rng.below(2))
    });
    let mut lists = [Vec::new(), Vec::new()];
    let mut rooms = [LIST_BYTES; 2];
    for (place, line) in lines.into_iter().enumerate() {
        let share = match one_after {
            Some((end, _, early)) if place < end => early,
            Some((_, start, early)) if place >= start => 1 - early,
            Some(_) => 2,
            None => rng.weighted(&weights),
        };
        let length = line.length();
        let with_room = |which: &usize| rooms[*which] >= length;
        let mut takers: Vec<usize> = shares[share].iter().copied().filter(with_room).collect();
        if takers.is_empty() {
            takers.extend([0, 1].iter().find(|which| with_room(which)));
        }
        for which in takers {
            rooms[which] -= length;
            lists[which].push(line.clone());
        }
    }
    lists
}

/// Makes a line of one list differ from that of the same minute in the other.
fn conflict(rng: &mut Rng, lists: &mut [Vec<Line>; 2]) {
    if rng.chance(50) {
        lists.swap(0, 1);
    }
    let [list, other] = lists;
    let place_in = |lines: &[Line], minute| lines.binary_search_by_key(&minute, |line| line.minute);
    let in_both = |&place: &usize| place_in(other, list[place].minute).is_ok();
    let common: Vec<usize> = (0..list.len()).filter(in_both).collect();
    let place = match (common.first(), common.last()) {
        (Some(&first), Some(&last)) => match rng.below(4) {
            0 => first,
            1 => last,
            _ => rng.pick(&common),
        },
        _ if other.is_empty() => return,
        _ => {
            let line = other[rng.below(other.len())].clone();
            let place = place_in(list, line.minute).unwrap_or_else(|place| place);
            list.insert(place, line);
            place
        }
    };
    let line = &mut list[place];
    let parts = rng.below(3);
    if parts != 0 {
        line.metres = other_number(rng, line.metres);
        line.widths[1] = width(line.metres);
    }
    if parts != 1 {
        line.driver = other_driver(rng, &line.driver);
    }
}

/// Another number: near, with one digit more or less, with one bit changed.
fn other_number(rng: &mut Rng, number: u32) -> u32 {
    let other = match rng.below(5) {
        0 => number.wrapping_add(1),
        1 => number.wrapping_sub(1),
        2 => number.saturating_mul(10),
        3 => number / 10,
        _ => number,
    };
    match other == number {
        true => number ^ 1 << rng.below(32),
        false => other,
    }
}

/// Another driver: with one character more, less or changed, or all.
fn other_driver(rng: &mut Rng, name: &[u8]) -> Vec<u8> {
    loop {
        let mut other = name.to_vec();
        let at = rng.below(name.len());
        match rng.below(8) {
            0 => other.truncate(name.len() - 1),
            1 => {
                other.remove(0);
            }
            2 => other.extend(driver(rng, 1)),
            3 => other.insert(0, b'0'),
            4 => {
                let length = rng.between(1, DRIVER_MAX);
                other = driver(rng, length);
            }
            _ => other[at] = driver(rng, 1)[0],
        }
        if other != name && (1..=DRIVER_MAX).contains(&other.len()) {
            return other;
        }
    }
}

/// Gives some numbers leading zeros, mostly as far as the list has room.
fn add_zeros(rng: &mut Rng, list: &mut [Line]) {
    let percent = rng.pick(&[0, 0, 10, 50, 100]);
    let length: usize = list.iter().map(Line::length).sum();
    let mut room = match rng.chance(1) {
        true => usize::MAX,
        false => LIST_BYTES.saturating_sub(length),
    };
    for width in list.iter_mut().flat_map(|line| &mut line.widths) {
        if rng.chance(percent) {
            let zeros = rng.between(0, DIGITS_MAX - *width).min(room);
            room -= zeros;
            *width += zeros;
        }
    }
}

/// Makes a list too long, or of the greatest length, by bytes at its end.
fn lengthen(rng: &mut Rng, list: &mut Vec<u8>) {
    let length = LIST_BYTES + rng.pick(&[0, 1, 1, 2, 60]);
    list.resize(length.max(list.len()), rng.pick(b"A0,\n\0"));
}

#[cfg(test)]
mod tests {
    use std::collections::BTreeMap;

    use super::*;
    use reference::store::Refusal;
    use reference::trips::{spelling, trips, Trip};

    /// What can be said of two lists that are accepted, and whether it holds.
    fn kinds(one: &[Trip], two: &[Trip]) -> [(&'static str, bool); 21] {
        let by_minute = |list: &[Trip]| -> BTreeMap<u32, Vec<u8>> {
            let spelled = |&trip: &Trip| (trip.minute, spelling(&[trip]));
            list.iter().map(spelled).collect()
        };
        let (mut union, others) = (by_minute(one), by_minute(two));
        let common: Vec<(Trip, Trip)> = two
            .iter()
            .filter(|trip| union.contains_key(&trip.minute))
            .map(|&trip| {
                (
                    *one.iter()
                        .find(|other| other.minute == trip.minute)
                        .unwrap(),
                    trip,
                )
            })
            .collect();
        union.extend(others);
        let length = union.values().map(Vec::len).sum::<usize>();
        let shorter = spelling(one).len().min(spelling(two).len());

        let after = |one: &[Trip], two: &[Trip]| match (one.last(), two.first()) {
            (Some(last), Some(first)) => last.minute < first.minute,
            _ => false,
        };
        let one_after = [after(one, two), after(two, one)];
        let empty = [one.is_empty(), two.is_empty()];
        let place = common.iter().position(|(one, two)| one != two);
        let parts = place.map(|place| {
            let (one, two) = common[place];
            [one.metres != two.metres, one.driver != two.driver]
        });
        let last = common.len().saturating_sub(1);
        let sound = place.is_none();
        let fits = sound && length <= LIST_BYTES;
        let mostly_common = common.len() > union.len() / 2 && one != two;
        [
            ("both empty", empty == [true; 2]),
            ("the first empty", empty == [true, false]),
            ("the second empty", empty == [false, true]),
            ("equal", one == two && empty == [false; 2]),
            ("the second after the first", one_after[0]),
            ("the first after the second", one_after[1]),
            (
                "by turns",
                common.is_empty() && empty == [false; 2] && one_after == [false; 2],
            ),
            (
                "some in both",
                fits && !common.is_empty() && common.len() < one.len().min(two.len()),
            ),
            (
                "long, mostly in both",
                fits && mostly_common && shorter > 3_000,
            ),
            ("other metres", parts == Some([true, false])),
            ("another driver", parts == Some([false, true])),
            ("other metres and driver", parts == Some([true; 2])),
            (
                "a conflict in the first of both",
                place == Some(0) && last > 0,
            ),
            (
                "a conflict amid",
                place.is_some_and(|place| place > 0 && place < last),
            ),
            ("a conflict in the last", last > 0 && place == Some(last)),
            ("a conflict, too long", !sound && length > LIST_BYTES),
            ("4,095 bytes", sound && length == LIST_BYTES - 1),
            ("4,096 bytes", sound && length == LIST_BYTES),
            ("4,097 bytes", sound && length == LIST_BYTES + 1),
            (
                "too long, mostly in both",
                sound && length > LIST_BYTES && mostly_common,
            ),
            ("far too long", sound && length > 6_000),
        ]
    }

    #[test]
    fn pairs_of_all_kinds() {
        let mut rng = Rng::new(1);
        let mut seen: BTreeMap<&str, usize> = BTreeMap::new();
        let mut refused: BTreeMap<[u8; 2], usize> = BTreeMap::new();
        let mut spelled_otherwise = 0;
        for _ in 0..20_000 {
            let [first, second] = random_pair(&mut rng);
            let (one, two) = (trips(&first), trips(&second));
            if let (Ok(one), Ok(two)) = (&one, &two) {
                for (kind, holds) in kinds(one, two) {
                    *seen.entry(kind).or_default() += usize::from(holds);
                }
                spelled_otherwise += usize::from(one == two && first != second);
            }
            let numbers = [one.err(), two.err()].map(|refusal| refusal.map_or(0, Refusal::number));
            *refused.entry(numbers).or_default() += 1;
        }
        assert!(seen.values().all(|&count| count > 20), "{seen:?}");
        assert!(spelled_otherwise > 200, "{spelled_otherwise}");
        // 0, 7, 10 and 11 of the one beside each of the other
        assert_eq!(refused.len(), 16);
        assert!(refused.values().all(|&count| count > 10), "{refused:?}");
    }
}
