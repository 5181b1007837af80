//! The refusals.

use core::fmt;

/// Why a call was refused. All but [`Error::Cut`] leave everything as it was.
/// [`Device`](crate::Device) gives SHAPE from `from_media` alone, and BOOKS never;
/// the calls on trip lists give RANGE and those from TRIP FORM on.
///
/// `Display` and `Debug` print the same words, so that a `main` which returns
/// an error tells what it means.
#[derive(Clone, Copy, PartialEq, Eq, Hash)]
#[non_exhaustive]
pub enum Error {
    /// SHAPE (2): lent memory has another length than the call needs.
    Shape,
    /// MEDIA (3): a stored size is above 4,096.
    Media,
    /// BOOKS (4): the cache state, or a record of sizes, is not sound.
    Books,
    /// DOWN (5): the device is not mounted.
    Down,
    /// NO FILE (6): the file number is above 7.
    NoFile,
    /// RANGE (7): a position, a size, or the end of a write is above its limit:
    /// 4,096, or what the call of [`raw`](crate::raw) says. The size may be that
    /// of a trip list.
    Range,
    /// NO ROOM (8): the first page of a write is not cached, while 24 others
    /// are. Sync a file first.
    NoRoom,
    /// CUT (9): the budget was below the media writes needed. The device is
    /// down, as after a loss of power at that moment: mount it.
    Cut {
        /// The media writes that were done, as many as the budget.
        done: usize,
    },
    /// TRIP FORM (10): a line of the trip list lacks the form
    /// `minute,metres,driver`.
    TripForm,
    /// TRIP ORDER (11): the minute of a trip is not above that of the line
    /// before.
    TripOrder,
    /// TRIP CONFLICT (17): the lists have trips of the same minute that differ in
    /// metres or driver.
    TripConflict,
    /// TRIPS TOO LONG (18): the joined list is longer than 4,096 bytes.
    TripsTooLong,
}

impl Error {
    /// The number of the refusal: 2 to 11, 17 or 18.
    pub fn number(self) -> u32 {
        match self {
            Error::Shape => 2,
            Error::Media => 3,
            Error::Books => 4,
            Error::Down => 5,
            Error::NoFile => 6,
            Error::Range => 7,
            Error::NoRoom => 8,
            Error::Cut { .. } => 9,
            Error::TripForm => 10,
            Error::TripOrder => 11,
            Error::TripConflict => 17,
            Error::TripsTooLong => 18,
        }
    }

    /// Takes apart the answer of a call of [`raw`](crate::raw), which is
    /// 65,536 * number + count: the count of a call that was done, or the
    /// refusal.
    ///
    /// # Panics
    ///
    /// Where the number is none of 0, 2 to 11, 17 and 18. No call gives such an
    /// answer.
    pub fn decode(answer: u32) -> Result<usize, Error> {
        let count = (answer & 65_535) as usize;
        Err(match answer >> 16 {
            0 => return Ok(count),
            2 => Error::Shape,
            3 => Error::Media,
            4 => Error::Books,
            5 => Error::Down,
            6 => Error::NoFile,
            7 => Error::Range,
            8 => Error::NoRoom,
            9 => Error::Cut { done: count },
            10 => Error::TripForm,
            11 => Error::TripOrder,
            17 => Error::TripConflict,
            18 => Error::TripsTooLong,
            number => panic!("no answer of the store has the number {number}"),
        })
    }
}

impl fmt::Display for Error {
    fn fmt(&self, f: &mut fmt::Formatter<'_>) -> fmt::Result {
        match self {
            Error::Shape => write!(
                f,
                "SHAPE (2): lent memory has another length than the call needs"
            ),
            Error::Media => write!(f, "MEDIA (3): a stored size is above 4,096"),
            Error::Books => write!(f, "BOOKS (4): the cache state, or a record of sizes, is not sound"),
            Error::Down => write!(f, "DOWN (5): the device is not mounted"),
            Error::NoFile => write!(f, "NO FILE (6): the file number is above 7"),
            Error::Range => write!(
                f,
                "RANGE (7): a position, a size, or the end of a write is above its limit"
            ),
            Error::NoRoom => write!(
                f,
                "NO ROOM (8): the first page of the write is not cached, while 24 others are"
            ),
            Error::Cut { done } => write!(
                f,
                "CUT (9): the budget paid for {done} media write{}, and more were needed; the device is down",
                if *done == 1 { "" } else { "s" }
            ),
            Error::TripForm => write!(
                f,
                "TRIP FORM (10): a line of the trip list lacks the form minute,metres,driver"
            ),
            Error::TripOrder => write!(
                f,
                "TRIP ORDER (11): the minute of a trip is not above that of the line before"
            ),
            Error::TripConflict => write!(
                f,
                "TRIP CONFLICT (17): the lists have trips of the same minute that differ in metres or driver"
            ),
            Error::TripsTooLong => write!(
                f,
                "TRIPS TOO LONG (18): the joined list is longer than 4,096 bytes"
            ),
        }
    }
}

impl fmt::Debug for Error {
    fn fmt(&self, f: &mut fmt::Formatter<'_>) -> fmt::Result {
        fmt::Display::fmt(self, f)
    }
}

impl core::error::Error for Error {}

#[cfg(test)]
mod tests {
    use super::Error;
    use std::boxed::Box;
    use std::format;
    use std::string::ToString;

    const ALL: [(Error, &str); 14] = [
        (
            Error::Shape,
            "SHAPE (2): lent memory has another length than the call needs",
        ),
        (Error::Media, "MEDIA (3): a stored size is above 4,096"),
        (Error::Books, "BOOKS (4): the cache state, or a record of sizes, is not sound"),
        (Error::Down, "DOWN (5): the device is not mounted"),
        (Error::NoFile, "NO FILE (6): the file number is above 7"),
        (
            Error::Range,
            "RANGE (7): a position, a size, or the end of a write is above its limit",
        ),
        (
            Error::NoRoom,
            "NO ROOM (8): the first page of the write is not cached, while 24 others are",
        ),
        (
            Error::Cut { done: 0 },
            "CUT (9): the budget paid for 0 media writes, and more were needed; the device is down",
        ),
        (
            Error::Cut { done: 1 },
            "CUT (9): the budget paid for 1 media write, and more were needed; the device is down",
        ),
        (
            Error::Cut { done: 17 },
            "CUT (9): the budget paid for 17 media writes, and more were needed; the device is down",
        ),
        (
            Error::TripForm,
            "TRIP FORM (10): a line of the trip list lacks the form minute,metres,driver",
        ),
        (
            Error::TripOrder,
            "TRIP ORDER (11): the minute of a trip is not above that of the line before",
        ),
        (
            Error::TripConflict,
            "TRIP CONFLICT (17): the lists have trips of the same minute that differ in metres or driver",
        ),
        (
            Error::TripsTooLong,
            "TRIPS TOO LONG (18): the joined list is longer than 4,096 bytes",
        ),
    ];

    #[test]
    fn texts() {
        for (error, text) in ALL {
            assert_eq!(error.to_string(), text);
            assert_eq!(format!("{error:?}"), text);
            assert!(text.contains(&format!("({})", error.number())));
        }
    }

    #[test]
    fn a_result_prints_the_meaning() {
        let refused: Result<usize, Error> = Err(Error::NoFile);
        assert_eq!(
            format!("{refused:?}"),
            "Err(NO FILE (6): the file number is above 7)"
        );
    }

    #[test]
    fn answers_are_taken_apart() {
        assert_eq!(Error::decode(0), Ok(0));
        assert_eq!(Error::decode(4_096), Ok(4_096));
        assert_eq!(Error::decode(65_535), Ok(65_535));
        for (error, _) in ALL {
            let count = match error {
                Error::Cut { done } => done as u32,
                _ => 0,
            };
            assert_eq!(Error::decode(65_536 * error.number() + count), Err(error));
        }
    }

    #[test]
    fn answers_that_no_call_gives() {
        for number in [1, 12, 16, 19, 65_535] {
            let caught = std::panic::catch_unwind(|| Error::decode(65_536 * number));
            assert!(caught.is_err(), "{number}");
        }
    }

    #[test]
    fn it_is_a_boxed_error_too() {
        let error: Box<dyn std::error::Error + Send + Sync> = Error::Down.into();
        assert_eq!(error.to_string(), "DOWN (5): the device is not mounted");
        assert_eq!(error.downcast_ref(), Some(&Error::Down));
    }
}
