//! Trip lists.

use core::fmt;
use core::iter::FusedIterator;
use core::str;

use layout::TRIP_NUMBERS;

use crate::{raw, Error, LIST_BYTES};

/// A trip of a list.
#[derive(Clone, Copy, Debug, PartialEq, Eq, Hash)]
pub struct Trip<'a> {
    /// When; above the minute of the trip before.
    pub minute: u32,
    /// How far.
    pub metres: u32,
    /// Who: up to sixteen capital letters and digits, where they stand in the list.
    pub driver: &'a str,
}

impl<'a> Trip<'a> {
    /// The trip that these numbers tell of a list.
    fn new(list: &'a [u8], numbers: [u32; TRIP_NUMBERS]) -> Trip<'a> {
        let [minute, metres, driver, letters] = numbers;
        let driver = &list[driver as usize..][..letters as usize];
        Trip {
            minute,
            metres,
            driver: str::from_utf8(driver).expect("letters and digits"),
        }
    }
}

/// Looks a trip up by its place in a list, counted from 0: the trip, if there is
/// one, and how many the list has. The whole list is checked, wherever the place is.
///
/// ```
/// use boxstore::{read_trip, Error};
///
/// # fn main() -> Result<(), Error> {
/// let (trip, count) = read_trip(b"29001234,12400,ANNA\n29001301,800,B7\n", 1)?;
/// let trip = trip.unwrap();
/// assert_eq!((trip.minute, trip.metres, trip.driver), (29_001_301, 800, "B7"));
/// assert_eq!(count, 2);
///
/// assert_eq!(read_trip(b"5,1,ANNA\n", 1)?, (None, 1));
/// assert_eq!(read_trip(b"5,1,ANNA\n4,1,B7\n", 0), Err(Error::TripOrder));
/// # Ok(())
/// # }
/// ```
pub fn read_trip(list: &[u8], place: usize) -> Result<(Option<Trip<'_>>, usize), Error> {
    let mut trip = [0; TRIP_NUMBERS];
    let count = Error::decode(raw::read_trip(list, place, &mut trip))?;
    Ok(((place < count).then(|| Trip::new(list, trip)), count))
}

/// The trips of a list, in their order. The whole list is checked first.
///
/// ```
/// # fn main() -> Result<(), boxstore::Error> {
/// let list = b"29001234,0012400,ANNA\n29001301,800,B7\n29001377,0,ANNA\n";
/// let trips = boxstore::trips(list)?;
/// assert_eq!(trips.len(), 3);
/// let anna = trips.filter(|trip| trip.driver == "ANNA");
/// assert_eq!(anna.map(|trip| trip.metres).sum::<u32>(), 12_400);
/// # Ok(())
/// # }
/// ```
pub fn trips(list: &[u8]) -> Result<Trips<'_>, Error> {
    let (_, left) = read_trip(list, usize::MAX)?;
    Ok(Trips { list, at: 0, left })
}

/// The trips of a list that are left: see [`trips`].
#[derive(Clone)]
pub struct Trips<'a> {
    /// A list that was checked.
    list: &'a [u8],
    /// Where the line of the next trip begins.
    at: usize,
    /// The number of trips from there on.
    left: usize,
}

impl<'a> Iterator for Trips<'a> {
    type Item = Trip<'a>;

    fn next(&mut self) -> Option<Trip<'a>> {
        self.left = self.left.checked_sub(1)?;
        let mut trip = [0; TRIP_NUMBERS];
        // the minutes were found to rise
        let answer = raw::next_trip(self.list, self.at, 0, &mut trip);
        self.at = Error::decode(answer).expect("the list was checked");
        Some(Trip::new(self.list, trip))
    }

    fn size_hint(&self) -> (usize, Option<usize>) {
        (self.left, Some(self.left))
    }
}

impl ExactSizeIterator for Trips<'_> {}

impl FusedIterator for Trips<'_> {}

impl fmt::Debug for Trips<'_> {
    fn fmt(&self, f: &mut fmt::Formatter<'_>) -> fmt::Result {
        f.debug_list().entries(self.clone()).finish()
    }
}

/// Writes a list in its one spelling, its numbers without leading zeros, and
/// answers the part of the buffer that has it; the rest keeps its bytes. All
/// lists of the same trips share it, and no others do.
///
/// The call takes about 5 KB of stack, most of it for the spelled list.
///
/// ```
/// use boxstore::{write_trips, LIST_BYTES};
///
/// # fn main() -> Result<(), boxstore::Error> {
/// let mut buffer = [0; LIST_BYTES];
/// let spelling = write_trips(b"0029001234,0800,B7\n", &mut buffer)?;
/// assert_eq!(spelling, b"29001234,800,B7\n");
/// # Ok(())
/// # }
/// ```
pub fn write_trips<'a>(list: &[u8], buffer: &'a mut [u8; LIST_BYTES]) -> Result<&'a [u8], Error> {
    let count = Error::decode(raw::write_trips(list, buffer))?;
    Ok(&buffer[..count])
}

/// Joins two lists into one, in the order of the minutes and in its one spelling,
/// and answers the part of the buffer that has it; the rest keeps its bytes. A
/// trip that both lists have is there once.
///
/// The first list is checked as [`trips`] checks it, and refused with
/// [`Error::Range`], [`Error::TripForm`] or [`Error::TripOrder`]; then the second.
/// Then the join is refused with [`Error::TripConflict`] where a minute has other
/// metres or another driver in the second list, else with
/// [`Error::TripsTooLong`] where the joined list is longer than [`LIST_BYTES`].
///
/// The call takes about 5 KB of stack, most of it for the joined list.
///
/// ```
/// use boxstore::{join_trips, Error, LIST_BYTES};
///
/// # fn main() -> Result<(), Error> {
/// let mut buffer = [0; LIST_BYTES];
/// let old_box = b"29001234,12400,ANNA\n29001301,800,B7\n";
/// let new_box = b"29001301,0800,B7\n29001377,0,ANNA\n";
/// assert_eq!(
///     join_trips(old_box, new_box, &mut buffer)?,
///     b"29001234,12400,ANNA\n29001301,800,B7\n29001377,0,ANNA\n"
/// );
///
/// let other = join_trips(old_box, b"29001301,900,B7\n", &mut buffer);
/// assert_eq!(other, Err(Error::TripConflict));
/// # Ok(())
/// # }
/// ```
pub fn join_trips<'a>(
    first: &[u8],
    second: &[u8],
    buffer: &'a mut [u8; LIST_BYTES],
) -> Result<&'a [u8], Error> {
    let count = Error::decode(raw::join_trips(first, second, buffer))?;
    Ok(&buffer[..count])
}
