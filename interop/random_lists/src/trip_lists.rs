//! What is compared: the calls of `boxstore.h` on trip lists.

/// Trip lists, as `boxstore.h` describes them. An answer is 65,536 * number +
/// count.
pub trait TripLists {
    /// Puts down the trip at a place, and counts the trips.
    fn read_trip(list: &[u8], place: usize, trip: &mut [u32]) -> u32;
    /// Puts down the trip of the line at an index, and tells the index after it.
    fn next_trip(list: &[u8], at: usize, least: usize, trip: &mut [u32]) -> u32;
    /// Writes the one spelling of a list, and counts its bytes.
    fn write_trips(list: &[u8], buffer: &mut [u8]) -> u32;
    /// Joins two lists into one, in its one spelling, and counts its bytes.
    fn join_trips(first: &[u8], second: &[u8], buffer: &mut [u8]) -> u32;
}

/// Implements [`TripLists`] for a type by a module with a function for each
/// call: `trip_lists_by!(Name, path::of::module)`.
///
/// [`TripLists`]: crate::TripLists
#[macro_export]
macro_rules! trip_lists_by {
    ($name:ty, $($module:ident)::+) => {
        impl $crate::TripLists for $name {
            #[inline(always)]
            fn read_trip(list: &[u8], place: usize, trip: &mut [u32]) -> u32 {
                $($module)::+::read_trip(list, place, trip)
            }
            #[inline(always)]
            fn next_trip(list: &[u8], at: usize, least: usize, trip: &mut [u32]) -> u32 {
                $($module)::+::next_trip(list, at, least, trip)
            }
            #[inline(always)]
            fn write_trips(list: &[u8], buffer: &mut [u8]) -> u32 {
                $($module)::+::write_trips(list, buffer)
            }
            #[inline(always)]
            fn join_trips(first: &[u8], second: &[u8], buffer: &mut [u8]) -> u32 {
                $($module)::+::join_trips(first, second, buffer)
            }
        }
    };
}
