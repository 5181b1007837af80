//! Random calls on a list, and on two.

use std::fmt;

use layout::{LIST_BYTES, TRIP_NUMBERS};
use random_calls::{any_number, guarded, random_bytes, with_smaller_numbers, Bytes, BESIDE};
use random_sessions::rng::Rng;

use crate::random_list::{digits_at, line_start};
use crate::trip_lists::TripLists;

/// One call with its arguments but for the list, or the first one of two, and the
/// buffer that it fills.
#[derive(Clone, Debug, PartialEq, Eq)]
pub enum Call {
    /// See [`TripLists::read_trip`].
    ReadTrip {
        /// Which trip.
        place: usize,
        /// Takes the trip.
        trip: Vec<u32>,
    },
    /// See [`TripLists::next_trip`].
    NextTrip {
        /// Where the line starts.
        at: usize,
        /// The least minute.
        least: usize,
        /// Takes the trip.
        trip: Vec<u32>,
    },
    /// See [`TripLists::write_trips`].
    WriteTrips {
        /// Takes the spelling.
        buffer: Vec<u8>,
    },
    /// See [`TripLists::join_trips`].
    JoinTrips {
        /// The second list.
        second: Vec<u8>,
        /// Takes the joined list.
        buffer: Vec<u8>,
    },
}

/// The names of the calls, in the order of [`Call::kind`].
pub const KINDS: [&str; 4] = ["read_trip", "next_trip", "write_trips", "join_trips"];

/// The answers that a call on one list can give.
const OF_ONE_LIST: &[usize] = &[0, 2, 7, 10, 11];
/// The answers that each call can give.
pub const NUMBERS: [&[usize]; KINDS.len()] = [
    OF_ONE_LIST,
    OF_ONE_LIST,
    OF_ONE_LIST,
    &[0, 2, 7, 10, 11, 17, 18],
];
/// The greatest of them.
pub const GREATEST: usize = 18;

impl Call {
    /// A random call on this list.
    pub fn random(rng: &mut Rng, list: &[u8]) -> Call {
        match rng.weighted(&[3, 5, 2]) {
            0 => Call::ReadTrip {
                place: place(rng, list),
                trip: trip(rng),
            },
            1 => {
                let at = index(rng, list);
                Call::NextTrip {
                    at,
                    least: least(rng, list, at),
                    trip: trip(rng),
                }
            }
            _ => Call::WriteTrips {
                buffer: buffer(rng, list.len()),
            },
        }
    }

    /// The join of a list with this one.
    pub fn join(rng: &mut Rng, second: Vec<u8>) -> Call {
        Call::JoinTrips {
            buffer: buffer(rng, second.len()),
            second,
        }
    }

    /// The index of the call's name.
    pub fn kind(&self) -> usize {
        match self {
            Call::ReadTrip { .. } => 0,
            Call::NextTrip { .. } => 1,
            Call::WriteTrips { .. } => 2,
            Call::JoinTrips { .. } => 3,
        }
    }

    /// The second list, where two are joined.
    pub fn second(&self) -> Option<&Vec<u8>> {
        match self {
            Call::JoinTrips { second, .. } => Some(second),
            _ => None,
        }
    }

    /// The same call with another second list, where two are joined.
    pub fn with_second(&self, second: Vec<u8>) -> Call {
        match self {
            Call::JoinTrips { buffer, .. } => Call::JoinTrips {
                second,
                buffer: buffer.clone(),
            },
            call => call.clone(),
        }
    }

    /// Carries the call out, on slices that lie between guards.
    pub fn run<L: TripLists>(mut self, list: &[u8]) -> Ran {
        let second = self.second().cloned().unwrap_or_default();
        let (ran, first_intact, first_kept) = lend(list, |list| {
            lend(&second, |second| match &mut self {
                Call::ReadTrip { place, trip } => {
                    guarded(trip, |trip| L::read_trip(list, *place, trip))
                }
                Call::NextTrip { at, least, trip } => {
                    guarded(trip, |trip| L::next_trip(list, *at, *least, trip))
                }
                Call::WriteTrips { buffer } => {
                    guarded(buffer, |buffer| L::write_trips(list, buffer))
                }
                Call::JoinTrips { buffer, .. } => {
                    guarded(buffer, |buffer| L::join_trips(list, second, buffer))
                }
            })
        });
        let ((word, own_intact), second_intact, second_kept) = ran;
        Ran {
            word,
            call: self,
            intact: own_intact && first_intact && second_intact,
            lists_kept: first_kept && second_kept,
        }
    }

    /// Makes the call with both. Says what is wrong where the answers or the
    /// buffers differ, where the second one altered the list or, refusing, its
    /// buffer, or where one wrote outside of what it was lent.
    pub fn compare<A: TripLists, B: TripLists>(&self, list: &[u8]) -> Result<u32, String> {
        let two = self.clone().run::<B>(list);
        let one = self.clone().run::<A>(list);
        self.judge(&one, &two)
    }

    fn judge(&self, one: &Ran, two: &Ran) -> Result<u32, String> {
        for (ran, which) in [(two, ""), (one, "the first one: ")] {
            if !ran.intact {
                return Err(format!("{which}{BESIDE}"));
            }
            if !ran.lists_kept {
                return Err(format!("{which}a list did not stay as it came"));
            }
        }
        let number = (two.word >> 16) as usize;
        if number != 0 && two.call != *self {
            return Err("the buffer of a refused call did not stay as it came".to_owned());
        }
        if one.word != two.word {
            return Err(format!(
                "the answers differ: {:x} and {:x}",
                one.word, two.word
            ));
        }
        if !NUMBERS[self.kind()].contains(&number) {
            return Err(format!("the answer {:x} has no meaning", two.word));
        }
        if one.call != two.call {
            return Err(format!(
                "the buffers differ: after {} and after {}",
                one.call, two.call
            ));
        }
        Ok(two.word)
    }

    /// Calls of the same kind with one thing made simpler: a number smaller, or
    /// a buffer of one value.
    pub fn simpler(&self) -> Vec<Call> {
        let mut simpler = with_smaller_numbers(self, Call::numbers);
        let mut call = self.clone();
        match &mut call {
            Call::ReadTrip { trip, .. } | Call::NextTrip { trip, .. } => trip.fill(1),
            Call::WriteTrips { buffer } | Call::JoinTrips { buffer, .. } => buffer.fill(1),
        }
        if call != *self {
            simpler.push(call);
        }
        simpler
    }

    fn numbers(&mut self) -> Vec<&mut usize> {
        match self {
            Call::ReadTrip { place, .. } => vec![place],
            Call::NextTrip { at, least, .. } => vec![at, least],
            Call::WriteTrips { .. } | Call::JoinTrips { .. } => vec![],
        }
    }

    /// The call that asks for the same trip where these bytes in front of it are
    /// taken out of the list.
    pub fn without(&self, bytes: &[u8]) -> Call {
        let mut call = self.clone();
        match &mut call {
            Call::ReadTrip { place, .. } => {
                let lines = bytes.iter().filter(|&&byte| byte == b'\n').count();
                *place = place.saturating_sub(lines);
            }
            Call::NextTrip { at, .. } => *at = at.saturating_sub(bytes.len()),
            Call::WriteTrips { .. } | Call::JoinTrips { .. } => {}
        }
        call
    }
}

/// A list, and behind it an LF that is not its own: a call that reads on finds
/// it.
pub fn with_lf_behind(list: &[u8]) -> Vec<u8> {
    [list, b"\n"].concat()
}

/// Lends a list between guards, with that LF behind it. Answers what the call
/// answers, whether the guards are as they were made, and whether the list and
/// the LF are as they came.
fn lend<R>(list: &[u8], call: impl FnOnce(&[u8]) -> R) -> (R, bool, bool) {
    let mut bytes = with_lf_behind(list);
    let (answer, intact) = guarded(&mut bytes, |bytes| call(&bytes[..list.len()]));
    (answer, intact, bytes.strip_suffix(b"\n") == Some(list))
}

/// A call that was made.
#[derive(Clone, Debug, PartialEq, Eq)]
pub struct Ran {
    /// The answer: 65,536 * number + count.
    pub word: u32,
    /// The call, with its buffer as it was left.
    pub call: Call,
    /// Whether all guards are as they were made.
    pub intact: bool,
    /// Whether each list is as it came, and the byte behind it.
    pub lists_kept: bool,
}

/// A list as text.
pub struct Text<'a>(pub &'a [u8]);

impl fmt::Display for Text<'_> {
    fn fmt(&self, f: &mut fmt::Formatter<'_>) -> fmt::Result {
        write!(f, "{} bytes: \"{}\"", self.0.len(), self.0.escape_ascii())
    }
}

impl fmt::Display for Call {
    fn fmt(&self, f: &mut fmt::Formatter<'_>) -> fmt::Result {
        write!(f, "{} ", KINDS[self.kind()])?;
        match self {
            Call::ReadTrip { place, trip } => write!(f, "place {place}, trip {trip:?}"),
            Call::NextTrip { at, least, trip } => {
                write!(f, "at {at}, least {least}, trip {trip:?}")
            }
            Call::WriteTrips { buffer } => {
                write!(f, "buffer of {}: {}", buffer.len(), Bytes(buffer))
            }
            Call::JoinTrips { second, buffer } => {
                write!(f, "with {}, ", Text(second))?;
                write!(f, "buffer of {}: {}", buffer.len(), Bytes(buffer))
            }
        }
    }
}

/// A place: of a trip, around their number, or far beyond.
fn place(rng: &mut Rng, list: &[u8]) -> usize {
    let count = list.iter().filter(|&&byte| byte == b'\n').count();
    match rng.below(10) {
        0..=5 => rng.below(count + 1),
        6 | 7 => (count + rng.below(4)).saturating_sub(2),
        8 => any_number(rng),
        _ => rng.pick(&[0, 65_536, 1 << 32, (1 << 32) + count / 2, usize::MAX]),
    }
}

/// An index: of the start of a line, amid one, around the end, or far beyond.
fn index(rng: &mut Rng, list: &[u8]) -> usize {
    let any = rng.below(list.len() + 1);
    match rng.below(20) {
        0..=10 => line_start(list, any),
        11..=14 => any,
        15 | 16 => (list.len() + rng.below(4)).saturating_sub(2),
        17 => list.len(),
        18 => any_number(rng),
        _ => rng.pick(&[0, 65_536, 1 << 32, (1 << 32) + any, usize::MAX]),
    }
}

/// A least minute: often around the one that stands there.
fn least(rng: &mut Rng, list: &[u8], at: usize) -> usize {
    let minute = digits_at(list, at).unwrap_or(0);
    match rng.below(20) {
        0..=6 => 0,
        7..=10 => minute,
        11 | 12 => minute.saturating_add(1),
        13 => minute.saturating_sub(1),
        14 | 15 => any_number(rng),
        16 => minute.saturating_add(1 << 32),
        _ => rng.pick(&[1, (1 << 32) - 1, 1 << 32, (1 << 32) + 1, usize::MAX]),
    }
}

/// A buffer for a list, mostly of the length that is right. Another length is at
/// times that of the list.
fn buffer(rng: &mut Rng, list: usize) -> Vec<u8> {
    let length = match rng.below(12) {
        0 => rng.pick(&[0, 1, LIST_BYTES - 1, LIST_BYTES + 1, 2 * LIST_BYTES]),
        1 => list,
        _ => LIST_BYTES,
    };
    random_bytes(rng, length)
}

fn trip(rng: &mut Rng) -> Vec<u32> {
    let length = match rng.below(12) {
        0 => rng.pick(&[0, 1, TRIP_NUMBERS - 1, TRIP_NUMBERS + 1, 2 * TRIP_NUMBERS]),
        _ => TRIP_NUMBERS,
    };
    (0..length).map(|_| rng.next_u64() as u32).collect()
}

#[cfg(test)]
mod tests {
    use super::*;
    use random_calls::Reference;

    /// As calls that write where they may not leave it.
    #[test]
    fn what_was_not_lent_for_writing_is_told() {
        let call = Call::ReadTrip {
            place: 0,
            trip: vec![5; TRIP_NUMBERS],
        };
        let right = call.clone().run::<Reference>(b"1,2,A\n");
        assert_eq!(call.judge(&right, &right), Ok(1));
        let beside = Ran {
            intact: false,
            ..right.clone()
        };
        let list_altered = Ran {
            lists_kept: false,
            ..right.clone()
        };
        for (ran, what) in [
            (beside, BESIDE),
            (list_altered, "a list did not stay as it came"),
        ] {
            assert_eq!(call.judge(&right, &ran), Err(what.to_owned()));
            let first = format!("the first one: {what}");
            assert_eq!(call.judge(&ran, &right), Err(first));
        }
    }

    #[test]
    fn a_call_keeps_its_trip() {
        let list = b"1,2,A\n3,4,B\n5,6,C\n";
        let numbers = |call: Call, list: &[u8]| match call.run::<Reference>(list).call {
            Call::ReadTrip { trip, .. } | Call::NextTrip { trip, .. } => trip[..2].to_vec(),
            Call::WriteTrips { .. } | Call::JoinTrips { .. } => vec![],
        };
        let trip = vec![0; TRIP_NUMBERS];
        let read = Call::ReadTrip {
            place: 2,
            trip: trip.clone(),
        };
        let next = Call::NextTrip {
            at: 12,
            least: 0,
            trip,
        };
        for call in [read, next] {
            assert_eq!(numbers(call.clone(), list), [5, 6]);
            assert_eq!(numbers(call.without(&list[..6]), &list[6..]), [5, 6]);
        }
    }
}
