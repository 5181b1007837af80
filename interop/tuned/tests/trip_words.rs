//! The tuned calls on trip lists, by words.

mod worked_trips;

use tuned::trip_words as calls;
