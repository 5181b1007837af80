//! The tuned calls on trip lists, byte by byte.

mod worked_trips;

use tuned::trips as calls;
