//! Trip lists as drivers leave them.

use layout::LIST_BYTES;
use random_sessions::rng::Rng;

/// Lists of a scenario. A box reads a list once, so it is new to it: there are
/// more of them than a processor learns by heart, as it does the lengths of the
/// fields of 64 lists.
pub const LISTS: usize = 1_024;

const DRIVERS: [&str; 6] = ["ANN", "OLGA", "HUGO7", "MARTIN", "D4NIELA", "CHARLOTT"];

/// How a number is spelled.
#[derive(Clone, Copy, Debug, PartialEq, Eq)]
pub enum Spelling {
    /// Without leading zeros.
    Plain,
    /// With one leading zero at least, in up to ten digits.
    Zeros,
}

impl Spelling {
    fn of(self, number: usize, rng: &mut Rng) -> String {
        let digits = number.to_string();
        match self {
            Spelling::Plain => digits,
            Spelling::Zeros => {
                let width = rng.between(digits.len() + 1, (digits.len() + 4).min(10));
                format!("{digits:0>width$}")
            }
        }
    }
}

/// Lists of 4,096 bytes. Their minutes have eight digits and rise by 1 to 90,
/// the metres have three to six digits.
pub fn lists(spelling: Spelling) -> Vec<Vec<u8>> {
    let mut rng = Rng::new(7);
    let lists = std::iter::repeat_with(|| list(&mut rng, spelling));
    lists.take(LISTS).collect()
}

/// How the trips of a list lie in two that are joined.
#[derive(Clone, Copy, Debug, PartialEq, Eq)]
pub enum Parting {
    /// Each in one of them, at random.
    ByTurns,
    /// The first ones in the first list, the others in the second.
    OneAfterTheOther,
    /// Each in one of them, and half of them in the other too, with zeros.
    HalfInBoth,
}

/// Pairs of lists. The join of a pair is the one of [`lists`] at its index.
pub fn pairs(parting: Parting) -> Vec<[Vec<u8>; 2]> {
    let mut rng = Rng::new(8);
    let lists = lists(Spelling::Plain).into_iter();
    lists.map(|list| pair(&list, parting, &mut rng)).collect()
}

fn pair(list: &[u8], parting: Parting, rng: &mut Rng) -> [Vec<u8>; 2] {
    let mut pair = [Vec::new(), Vec::new()];
    let first_bytes = rng.between(LIST_BYTES / 4, 3 * LIST_BYTES / 4);
    for line in list.split_inclusive(|&byte| byte == b'\n') {
        let which = match parting {
            Parting::OneAfterTheOther => usize::from(pair[0].len() >= first_bytes),
            _ => rng.below(2),
        };
        pair[which].extend(line);
        if parting == Parting::HalfInBoth && rng.chance(50) {
            pair[1 - which].extend(with_zeros(line, rng));
        }
    }
    pair
}

fn with_zeros(line: &[u8], rng: &mut Rng) -> Vec<u8> {
    let text = std::str::from_utf8(line).expect("a line is ASCII");
    let fields: Vec<String> = text
        .split(',')
        .map(|field| match field.parse() {
            Ok(number) => Spelling::Zeros.of(number, rng),
            // the driver
            Err(_) => field.to_owned(),
        })
        .collect();
    fields.join(",").into_bytes()
}

/// Left for the last lines of a list, which are drawn until they fill it.
const LAST_BYTES: usize = 128;

fn list(rng: &mut Rng, spelling: Spelling) -> Vec<u8> {
    let mut list = Vec::new();
    let mut minute = rng.between(25_000_000, 35_000_000);
    let mut before_last = (0, minute);
    while list.len() != LIST_BYTES {
        if list.len() > LIST_BYTES {
            list.truncate(before_last.0);
            minute = before_last.1;
        } else if list.len() < LIST_BYTES - LAST_BYTES {
            before_last = (list.len(), minute);
        }
        minute += rng.between(1, 90);
        let least = rng.pick(&[100, 1_000, 10_000, 100_000]);
        let metres = rng.between(least, 10 * least - 1);
        let numbers = [minute, metres].map(|number| spelling.of(number, rng));
        let line = format!("{},{},{}\n", numbers[0], numbers[1], rng.pick(&DRIVERS));
        list.extend(line.bytes());
    }
    list
}

#[cfg(test)]
mod tests {
    use std::collections::{BTreeMap, BTreeSet};

    use super::*;

    /// The fields of the lines.
    fn fields(list: &[u8]) -> Vec<[&str; 3]> {
        let text = std::str::from_utf8(list).unwrap();
        let lines = text.strip_suffix('\n').unwrap().split('\n');
        let fields = lines.map(|line| line.split(',').collect::<Vec<&str>>());
        fields.map(|fields| fields.try_into().unwrap()).collect()
    }

    fn has_zeros([minute, metres, _]: [&str; 3]) -> bool {
        let zeros = [minute, metres].map(|number| number.starts_with('0'));
        assert_eq!(zeros[0], zeros[1]);
        zeros[0]
    }

    #[test]
    fn lists_are_as_told() {
        for spelling in [Spelling::Plain, Spelling::Zeros] {
            let lists = lists(spelling);
            assert_eq!(lists.len(), LISTS);
            for list in lists {
                assert_eq!(list.len(), LIST_BYTES);
                let mut before = 0;
                for fields in fields(&list) {
                    assert_eq!(has_zeros(fields), spelling == Spelling::Zeros);
                    assert!(fields[..2].iter().all(|number| number.len() <= 10));
                    let minute: usize = fields[0].parse().unwrap();
                    let metres: usize = fields[1].parse().unwrap();
                    assert!((25_000_000..50_000_000).contains(&minute));
                    assert!(before == 0 || (1..=90).contains(&(minute - before)));
                    assert!((100..1_000_000).contains(&metres));
                    assert!(DRIVERS.contains(&fields[2]));
                    before = minute;
                }
            }
        }
    }

    /// Metres and drivers by their minutes, and the minutes with zeros.
    fn trips(list: &[u8]) -> (BTreeMap<usize, (usize, &str)>, BTreeSet<usize>) {
        let (mut trips, mut with_zeros) = (BTreeMap::new(), BTreeSet::new());
        for fields in fields(list) {
            let [minute, metres] = [0, 1].map(|field| fields[field].parse().unwrap());
            assert!(trips
                .last_key_value()
                .is_none_or(|(&last, _)| last < minute));
            trips.insert(minute, (metres, fields[2]));
            if has_zeros(fields) {
                with_zeros.insert(minute);
            }
        }
        (trips, with_zeros)
    }

    #[test]
    fn pairs_are_as_told() {
        let lists = lists(Spelling::Plain);
        for parting in [
            Parting::ByTurns,
            Parting::OneAfterTheOther,
            Parting::HalfInBoth,
        ] {
            let pairs = pairs(parting);
            assert_eq!(pairs.len(), LISTS);
            for (pair, list) in pairs.iter().zip(&lists) {
                assert!(pair.iter().all(|list| list.len() <= LIST_BYTES));
                let [(first, first_zeros), (second, second_zeros)] =
                    [0, 1].map(|which| trips(&pair[which]));
                let (join, _) = trips(list);
                let mut both = first.clone();
                both.extend(&second);
                assert_eq!(both, join);
                let in_both = first
                    .iter()
                    .filter(|(minute, _)| second.contains_key(minute));
                // none has other metres or another driver
                assert!(in_both
                    .clone()
                    .all(|(minute, trip)| second[minute] == *trip));
                let in_both: BTreeSet<usize> = in_both.map(|(&minute, _)| minute).collect();
                assert!(first_zeros.is_disjoint(&second_zeros));
                assert_eq!(&first_zeros | &second_zeros, in_both);

                let minutes: Vec<usize> = join.into_keys().collect();
                let turns = minutes
                    .windows(2)
                    .filter(|two| first.contains_key(&two[0]) != first.contains_key(&two[1]))
                    .count();
                let trips = minutes.len();
                match parting {
                    Parting::ByTurns => assert!(turns > trips / 3 && in_both.is_empty()),
                    Parting::OneAfterTheOther => {
                        assert!(turns == 1 && in_both.is_empty());
                        assert!(pair.iter().all(|list| list.len() > LIST_BYTES / 5));
                        assert!(first.last_key_value() < second.first_key_value());
                    }
                    Parting::HalfInBoth => {
                        assert!((trips / 3..2 * trips / 3).contains(&in_both.len()));
                    }
                }
            }
        }
    }
}
