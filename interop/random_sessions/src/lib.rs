//! Random sessions for a session program, and their comparison with the
//! reference.

pub mod command_line;
pub mod compare;
pub mod generate;
pub mod program;
pub mod rng;
pub mod shrink;
pub mod tally;
