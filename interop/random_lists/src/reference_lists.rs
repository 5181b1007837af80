//! The reference over the slices and words of `boxstore.h`.

use layout::{LIST_BYTES, TRIP_NUMBERS};
use random_calls::{word, Reference};
use reference::store::{Answer, Refusal};
use reference::trips::{self, Trip};

use crate::trip_lists::TripLists;

// The number that the reference has of its own is this one.
const _: () = assert!(trips::LIST_MAX == LIST_BYTES);

/// Puts down a trip whose line ends before this index.
fn put(found: Trip<'_>, end: usize, trip: &mut [u32]) {
    let length = found.driver.len();
    // the driver and LF are the last of the line
    let start = end - 1 - length;
    trip.copy_from_slice(&[found.minute, found.metres, start as u32, length as u32]);
}

fn refused(refusal: Refusal) -> u32 {
    word(Answer::Refused(refusal))
}

impl TripLists for Reference {
    fn read_trip(list: &[u8], place: usize, trip: &mut [u32]) -> u32 {
        if trip.len() != TRIP_NUMBERS {
            return refused(Refusal::Shape);
        }
        match trips::read_trip(list, place) {
            Ok((found, count)) => {
                if let Some(found) = found {
                    let lines = list.split_inclusive(|&byte| byte == b'\n');
                    put(found, lines.take(place + 1).map(<[u8]>::len).sum(), trip);
                }
                word(Answer::Done(count))
            }
            Err(refusal) => refused(refusal),
        }
    }

    fn next_trip(list: &[u8], at: usize, least: usize, trip: &mut [u32]) -> u32 {
        if trip.len() != TRIP_NUMBERS {
            return refused(Refusal::Shape);
        }
        match trips::next_trip(list, at, least) {
            Ok(Some((found, end))) => {
                put(found, end, trip);
                word(Answer::Done(end))
            }
            Ok(None) => word(Answer::Done(0)),
            Err(refusal) => refused(refusal),
        }
    }

    fn write_trips(list: &[u8], buffer: &mut [u8]) -> u32 {
        word(trips::write_trips(list, buffer))
    }

    fn join_trips(first: &[u8], second: &[u8], buffer: &mut [u8]) -> u32 {
        word(trips::join_trips(first, second, buffer))
    }
}

#[cfg(test)]
mod tests {
    use super::*;

    #[test]
    fn words_and_numbers() {
        let list = b"5,1200,ANNA\n017,0,B7\n";
        let mut trip = [1, 2, 3, 4];
        assert_eq!(Reference::read_trip(list, 1, &mut trip), 2);
        assert_eq!(trip, [17, 0, 18, 2]);
        assert_eq!(Reference::next_trip(list, 0, 5, &mut trip), 12);
        assert_eq!(trip, [5, 1200, 7, 4]);
        // amid a line
        assert_eq!(Reference::next_trip(list, 14, 0, &mut trip), 21);
        assert_eq!(trip, [7, 0, 18, 2]);

        let kept = trip;
        assert_eq!(Reference::read_trip(list, 2, &mut trip), 2);
        assert_eq!(Reference::next_trip(list, 21, 0, &mut trip), 0);
        assert_eq!(Reference::next_trip(list, 1, 0, &mut trip), 10 << 16);
        assert_eq!(Reference::next_trip(list, 0, 6, &mut trip), 11 << 16);
        assert_eq!(Reference::read_trip(b"x", 0, &mut trip), 10 << 16);
        let long = [b'x'; LIST_BYTES + 1];
        assert_eq!(Reference::read_trip(&long, 0, &mut trip), 7 << 16);
        assert_eq!(Reference::next_trip(&long, 0, 0, &mut trip), 7 << 16);
        assert_eq!(trip, kept);
        // SHAPE comes first
        for length in [0, 3, 5] {
            let mut trip = vec![9; length];
            assert_eq!(Reference::read_trip(&long, 0, &mut trip), 2 << 16);
            assert_eq!(Reference::next_trip(&long, 0, 0, &mut trip), 2 << 16);
            assert_eq!(trip, vec![9; length]);
        }

        let mut buffer = [0xaa; LIST_BYTES];
        assert_eq!(Reference::write_trips(list, &mut buffer), 20);
        assert_eq!(buffer[..21], *b"5,1200,ANNA\n17,0,B7\n\xaa");
        assert_eq!(Reference::write_trips(b"", &mut [0; 9]), 2 << 16);
        let other = b"6,1,C\n17,0,B7\n";
        assert_eq!(Reference::join_trips(list, other, &mut buffer), 26);
        assert_eq!(buffer[..27], *b"5,1200,ANNA\n6,1,C\n17,0,B7\n\xaa");
        let conflict = Reference::join_trips(list, b"5,1200,BOB\n", &mut buffer);
        assert_eq!(conflict, 17 << 16);
        assert_eq!(Reference::join_trips(b"", b"", &mut [0; 9]), 2 << 16);
    }
}
