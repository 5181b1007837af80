//! How the program ends.

use std::process::{Command, Output};

fn bench(argument: &str) -> Output {
    let mut command = Command::new(env!("CARGO_BIN_EXE_bench"));
    command.arg(argument).output().expect("the program runs")
}

#[test]
fn help_is_no_error() {
    let output = bench("--help");
    assert_eq!(output.status.code(), Some(0));
    assert!(output.stdout.starts_with(b"usage: bench"));
    assert!(output.stderr.is_empty());
}

#[test]
fn an_unknown_argument_is_an_error() {
    let output = bench("--nothing");
    assert_eq!(output.status.code(), Some(2));
    assert!(output.stdout.is_empty());
    assert!(output.stderr.starts_with(b"usage: bench"));
}
