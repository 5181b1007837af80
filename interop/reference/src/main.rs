//! The session program on standard input and output.

use std::io::{self, Write};
use std::process::ExitCode;

fn main() -> ExitCode {
    match reference::session::run(io::stdin().lock(), io::stdout().lock()) {
        Ok(()) => ExitCode::SUCCESS,
        Err(error) => {
            // Nothing is left to do if standard error fails as well.
            let _ = writeln!(io::stderr(), "reference: {error}");
            ExitCode::FAILURE
        }
    }
}
