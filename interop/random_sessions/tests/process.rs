//! Comparing with real processes, and the command line.

use std::process::{Command, Output};
use std::time::{Duration, Instant};

use random_sessions::compare::compare_seed;
use random_sessions::program::{Executable, Feed, Program};
use random_sessions::tally::Tally;
use reference::session::run_bytes;

const PROGRAM: &str = env!("CARGO_BIN_EXE_faulty_program");

fn faulty(fault: &str, timeout: Duration) -> Executable {
    Executable {
        variables: vec![("SESSION_FAULT".to_owned(), fault.to_owned())],
        ..Executable::new(PROGRAM, timeout)
    }
}

fn random_sessions(arguments: &[&str], fault: &str) -> Output {
    Command::new(env!("CARGO_BIN_EXE_random_sessions"))
        .args(arguments)
        .env("SESSION_FAULT", fault)
        .output()
        .unwrap()
}

fn text(bytes: &[u8]) -> &str {
    std::str::from_utf8(bytes).unwrap()
}

#[test]
fn a_right_program_is_equal() {
    let mut tally = Tally::default();
    let mut program = faulty("", Duration::from_secs(60));
    assert!(compare_seed(&mut program, 1, 100_000, &mut tally).is_ok());
    assert!(tally.lines >= 100_000);
}

#[test]
fn a_crash_is_found_and_shortened() {
    let mut program = faulty("abort", Duration::from_secs(60));
    let difference = compare_seed(&mut program, 1, 50_000, &mut Tally::default()).unwrap_err();
    assert_eq!(difference.shortest.to_bytes(), b"S,3,\n");
    assert_eq!(difference.actual.stdout, difference.expected);
    let problem = difference.actual.problem.unwrap();
    assert!(problem.contains("signal"), "{problem}");
}

#[test]
fn lines_cut_at_the_end_of_a_read_are_found() {
    let mut program = faulty("blocks", Duration::from_secs(60));
    let difference = compare_seed(&mut program, 1, 50_000, &mut Tally::default()).unwrap_err();
    let lines = difference.shortest.lines.len();
    assert!(lines <= 10, "{}", difference.report("p"));
}

#[test]
fn status_stderr_hang_and_endless_output_are_problems() {
    let long = b"M,0\n".repeat(100_000);
    let cases = [
        ("status", &b"M,0\n"[..], 60, "exit status: 3", true),
        (
            "stderr",
            b"M,0\n",
            60,
            "standard error: warning: \\xc3\\xbc\\n",
            true,
        ),
        ("hang", b"M,0\n", 2, "still running after 2s", true),
        ("deaf", &long, 2, "still running after 2s", false),
        ("endless", b"M,0\n", 60, "prints without end", false),
    ];
    for (fault, input, timeout, expected, right_output) in cases {
        let start = Instant::now();
        let outcome = faulty(fault, Duration::from_secs(timeout)).run(input, Feed::Whole);
        let problem = outcome.problem.unwrap_or_default();
        assert!(problem.contains(expected), "{fault}: {problem}");
        assert_eq!(outcome.stdout == run_bytes(input), right_output, "{fault}");
        assert!(start.elapsed() < Duration::from_secs(59), "{fault}");
    }
}

#[test]
fn pieces_reach_a_right_program_whole() {
    let input = b"M,0\nW,1,0,300,65\nR,1,254,4\n".repeat(2000);
    for seed in 0..3 {
        let outcome = faulty("", Duration::from_secs(60)).run(&input, Feed::Pieces(seed));
        assert_eq!(outcome.problem, None);
        assert!(outcome.stdout == run_bytes(&input));
    }
}

#[test]
fn pieces_show_a_program_that_stops_at_a_short_read() {
    // Larger than a pipe holds, so that the program cannot have all of it at once.
    let input = b"M,0\nW,1,0,300,65\nR,1,254,4\n".repeat(20_000);
    let expected = run_bytes(&input);
    let mut program = faulty("short", Duration::from_secs(60));
    let shown = (0..10).any(|seed| program.run(&input, Feed::Pieces(seed)).stdout != expected);
    assert!(shown);
}

#[test]
fn command_compares_and_tells_what_it_reached() {
    let arguments = [
        "compare", PROGRAM, "--lines", "60000", "--seed", "1", "--seed", "2", "--fresh",
    ];
    let output = random_sessions(&arguments, "");
    let out = text(&output.stdout);
    assert_eq!(output.status.code(), Some(0), "{out}");
    assert!(output.stderr.is_empty());
    let fresh = out.strip_prefix("fresh seed: ").unwrap();
    let fresh = &fresh[..fresh.find('\n').unwrap()];
    for part in [
        "seed 1: ",
        "seed 2: ",
        &format!("seed {fresh}: "),
        "3 seeds, ",
        "all equal",
        " 9 CUT ",
        "short writes: ",
        "syncs cut: ",
    ] {
        assert!(out.contains(part), "{part} not in\n{out}");
    }
}

#[test]
fn command_reports_a_difference() {
    let arguments = ["compare", PROGRAM, "--lines", "50000", "--seed", "1"];
    let output = random_sessions(&arguments, "abort");
    let out = text(&output.stdout);
    assert_eq!(output.status.code(), Some(1), "{out}");
    assert!(out.contains("DIFFERENCE in session "), "{out}");
    assert!(
        out.contains(&format!("printf 'S,3,\\n' | {PROGRAM}\n")),
        "{out}"
    );
    let repeat = out.split("to repeat:\n  random_sessions ").nth(1).unwrap();
    let again: Vec<&str> = repeat.split_whitespace().collect();
    let second = random_sessions(&again, "abort");
    assert_eq!(second.status.code(), Some(1));
    assert_eq!(text(&second.stdout), out);
    // The repeated command stops with the session that failed.
    assert_eq!(random_sessions(&again, "").status.code(), Some(0));
}

#[test]
fn command_help_and_errors() {
    for arguments in [&[][..], &["--help"]] {
        let output = random_sessions(arguments, "");
        assert_eq!(output.status.code(), Some(0));
        assert!(text(&output.stdout).contains("random_sessions compare PROGRAM"));
    }
    for arguments in [&["compare"][..], &["--lines", "3"], &["print", "--other"]] {
        let output = random_sessions(arguments, "");
        assert_eq!(output.status.code(), Some(2));
        assert!(output.stdout.is_empty());
        assert!(text(&output.stderr).starts_with("random_sessions: "));
    }
    let missing = ["compare", "/no/such/program", "--lines", "1", "--seed", "1"];
    let output = random_sessions(&missing, "");
    assert_eq!(output.status.code(), Some(1));
    assert!(text(&output.stdout).contains("no such program"));
}

#[test]
fn command_prints_a_session() {
    let output = random_sessions(&["print", "--seed", "5", "--lines", "3000"], "");
    assert_eq!(output.status.code(), Some(0));
    let lines = output.stdout.iter().filter(|&&byte| byte == b'\n').count();
    assert_eq!(lines, 3000);
}
