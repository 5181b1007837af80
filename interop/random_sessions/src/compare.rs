//! Compares a program with the reference on random sessions.

use std::fmt::Write as _;
use std::time::Duration;

use reference::session::run_bytes;

use crate::generate::{session, Session, SPECIAL_SESSIONS};
use crate::program::{Feed, Outcome, Program};
use crate::shrink::{shrink, Limits};
use crate::tally::Tally;

/// How much work the shortening of a failing session may be.
pub const SHRINK_LIMITS: Limits = Limits {
    runs: 20_000,
    time: Duration::from_secs(120),
};

/// A session on which a program differs from the reference.
#[derive(Clone, Debug)]
pub struct Difference {
    /// The seed that gave the session.
    pub seed: u64,
    /// The number of the session in the seed.
    pub index: u64,
    /// Lines of the seed up to the end of that session.
    pub lines: usize,
    /// The shortest session found that shows a difference.
    pub shortest: Session,
    /// What the reference prints for it.
    pub expected: Vec<u8>,
    /// What came of the program.
    pub actual: Outcome,
    /// Whether a second run of the session showed a difference too. If not,
    /// it was not shortened.
    pub repeats: bool,
}

/// Runs one session: what the reference prints and what comes of the program.
fn run_both(program: &mut impl Program, session: &Session) -> (Vec<u8>, Outcome) {
    let input = session.to_bytes();
    (run_bytes(&input), program.run(&input, session.feed))
}

fn differs(expected: &[u8], actual: &Outcome) -> bool {
    actual.stdout != expected || actual.problem.is_some()
}

/// Compares on sessions of one seed, of at least `lines` lines together. Adds
/// the sessions to the tally.
pub fn compare_seed(
    program: &mut impl Program,
    seed: u64,
    lines: usize,
    tally: &mut Tally,
) -> Result<(), Box<Difference>> {
    let first = tally.lines;
    let mut index = 0;
    while tally.lines - first < lines || index < SPECIAL_SESSIONS {
        let session = session(seed, index);
        let (expected, actual) = run_both(program, &session);
        tally.add(&session.to_bytes(), &expected);
        if differs(&expected, &actual) {
            let (expected_again, actual_again) = run_both(program, &session);
            let mut difference = Difference {
                seed,
                index,
                lines: tally.lines - first,
                shortest: session,
                expected,
                actual,
                repeats: differs(&expected_again, &actual_again),
            };
            if difference.repeats {
                shorten(program, &mut difference);
            }
            return Err(Box::new(difference));
        }
        index += 1;
    }
    Ok(())
}

fn shorten(program: &mut impl Program, difference: &mut Difference) {
    let session = difference.shortest.clone();
    let shortest = shrink(session, SHRINK_LIMITS, |session| {
        let (expected, actual) = run_both(program, session);
        differs(&expected, &actual)
    });
    // A difference that comes and goes may need more than one run.
    for _ in 0..5 {
        let (expected, actual) = run_both(program, &shortest);
        if differs(&expected, &actual) {
            difference.shortest = shortest;
            difference.expected = expected;
            difference.actual = actual;
            return;
        }
    }
}

/// The most lines of a session or an output that a report shows.
const SHOWN_LINES: usize = 60;
/// The most bytes of one line that a report shows.
const SHOWN_BYTES: usize = 100;
/// The longest input that a report gives as a command.
const SHOWN_INPUT: usize = 10_000;

impl Difference {
    /// Describes the difference for a reader; `program` is how to call it.
    pub fn report(&self, program: &str) -> String {
        let mut text = String::new();
        let input = self.shortest.to_bytes();
        let ending = if self.shortest.final_lf || self.shortest.lines.is_empty() {
            ""
        } else {
            ", the last without LF"
        };
        let _ = writeln!(
            text,
            "DIFFERENCE in session {} of seed {}",
            self.index, self.seed
        );
        if !self.repeats {
            text.push_str("It did not show again in a second run, so it is not shortened.\n");
        }
        let _ = writeln!(
            text,
            "shortest session found: {} lines, {} bytes{ending}",
            self.shortest.lines.len(),
            input.len()
        );
        show(&mut text, self.shortest.lines.iter().map(Vec::as_slice));
        if self.shortest.feed != Feed::Whole {
            text.push_str("  (fed in pieces with pauses)\n");
        }
        text.push_str("expected output:\n");
        show_output(&mut text, &self.expected);
        text.push_str("actual output:\n");
        show_output(&mut text, &self.actual.stdout);
        if let Some(problem) = &self.actual.problem {
            let _ = writeln!(text, "and the program: {problem}");
        }
        if let Some(line) = first_different(&self.expected, &self.actual.stdout) {
            let _ = writeln!(text, "first different output line: {line}");
        }
        if input.len() <= SHOWN_INPUT {
            let _ = writeln!(
                text,
                "shortest session:\n  printf '{}' | {program}",
                printf_escaped(&input)
            );
        }
        let _ = writeln!(
            text,
            "to repeat:\n  random_sessions compare {program} --lines {} --seed {}",
            self.lines, self.seed
        );
        text
    }
}

/// The number of the first output line that differs, the header being 1.
fn first_different(expected: &[u8], actual: &[u8]) -> Option<usize> {
    if expected == actual {
        return None;
    }
    let same = expected
        .iter()
        .zip(actual)
        .take_while(|(left, right)| left == right)
        .count();
    let before = &expected[..same];
    Some(1 + before.iter().filter(|&&byte| byte == b'\n').count())
}

fn show_output(text: &mut String, output: &[u8]) {
    if output.is_empty() {
        text.push_str("  (nothing)\n");
        return;
    }
    match output.strip_suffix(b"\n") {
        Some(lines) => show(text, lines.split(|&byte| byte == b'\n')),
        None => {
            show(text, output.split(|&byte| byte == b'\n'));
            text.push_str("  (the last line lacks its LF)\n");
        }
    }
}

fn show<'a>(text: &mut String, lines: impl Iterator<Item = &'a [u8]>) {
    let mut hidden = 0;
    for (index, line) in lines.enumerate() {
        if index >= SHOWN_LINES {
            hidden += 1;
        } else if line.len() > SHOWN_BYTES {
            let start = line[..SHOWN_BYTES].escape_ascii();
            let _ = writeln!(text, "  {start}... ({} bytes)", line.len());
        } else {
            let _ = writeln!(text, "  {}", line.escape_ascii());
        }
    }
    if hidden > 0 {
        let _ = writeln!(text, "  ... and {hidden} more lines");
    }
}

/// The bytes as a format of printf(1) between single quotes.
fn printf_escaped(bytes: &[u8]) -> String {
    let mut text = String::new();
    for &byte in bytes {
        match byte {
            b'\n' => text.push_str("\\n"),
            b',' | b' ' => text.push(byte.into()),
            _ if byte.is_ascii_alphanumeric() => text.push(byte.into()),
            _ => {
                let _ = write!(text, "\\{byte:03o}");
            }
        }
    }
    text
}

#[cfg(test)]
mod tests {
    use super::*;
    use layout::{FILE_BYTES, PAGE_BYTES};
    use reference::session::Command;

    /// A wrong program: the reference behind a filter of its lines.
    fn filtered(filter: impl Fn(&[u8]) -> Option<Vec<u8>>) -> impl FnMut(&[u8]) -> Vec<u8> {
        move |input| {
            let mut changed = Vec::new();
            for line in input.split_inclusive(|&byte| byte == b'\n') {
                let (body, end) = match line.strip_suffix(b"\n") {
                    Some(body) => (body, &b"\n"[..]),
                    None => (line, &b""[..]),
                };
                match filter(body) {
                    Some(other) => changed.extend_from_slice(&other),
                    None => changed.extend_from_slice(body),
                }
                changed.extend_from_slice(end);
            }
            run_bytes(&changed)
        }
    }

    /// Asserts that a wrong program is found within so many lines, on each of
    /// some seeds, and that the session is shortened to so many lines.
    fn found(within: usize, at_most: usize, mut program: impl FnMut(&[u8]) -> Vec<u8>) {
        for seed in [1, 2, 3] {
            let mut tally = Tally::default();
            let difference = compare_seed(&mut program, seed, within, &mut tally)
                .expect_err("the fault is not found");
            assert!(difference.repeats);
            let lines = difference.shortest.lines.len();
            let report = difference.report("PROGRAM");
            assert!(lines <= at_most, "seed {seed}: {lines} lines\n{report}");
            assert_ne!(difference.expected, difference.actual.stdout);
            // What is shown is what happens.
            let input = difference.shortest.to_bytes();
            assert_eq!(run_bytes(&input), difference.expected);
            assert_eq!(program(&input), difference.actual.stdout);
        }
    }

    #[test]
    fn the_reference_is_equal_to_itself() {
        let mut tally = Tally::default();
        let mut program = run_bytes;
        let result = compare_seed(&mut program, 1, 50_000, &mut tally);
        assert!(result.is_ok());
        assert!(tally.lines >= 50_000);
        assert!(tally.sessions > 5);
    }

    #[test]
    fn at_least_the_special_sessions_are_run() {
        let mut inputs = Vec::new();
        let mut program = |input: &[u8]| {
            inputs.push(input.to_vec());
            run_bytes(input)
        };
        assert!(compare_seed(&mut program, 1, 1, &mut Tally::default()).is_ok());
        let special = |index| session(1, index).to_bytes();
        assert_eq!(inputs, [special(0), special(1), special(2)]);
    }

    #[test]
    fn truncate_left_out() {
        found(
            10_000,
            4,
            filtered(|line| match Command::parse(line)? {
                Command::Truncate {
                    file,
                    size: ..=FILE_BYTES,
                } => Some(format!("R,{file},0,0").into_bytes()),
                _ => None,
            }),
        );
    }

    #[test]
    fn sync_budget_one_higher() {
        found(
            10_000,
            4,
            filtered(|line| match Command::parse(line)? {
                Command::Sync { file, budget } => {
                    Some(format!("S,{file},{}", (budget + 1).min(65_535)).into_bytes())
                }
                _ => None,
            }),
        );
    }

    #[test]
    fn mount_budget_one_higher() {
        found(
            30_000,
            4,
            filtered(|line| match Command::parse(line)? {
                Command::Mount { budget } => {
                    Some(format!("M,{}", (budget + 1).min(65_535)).into_bytes())
                }
                _ => None,
            }),
        );
    }

    #[test]
    fn leading_zero_refused() {
        found(
            30_000,
            1,
            filtered(|line| {
                Command::parse(line)?;
                let leading = |field: &[u8]| field.len() > 1 && field[0] == b'0';
                line.split(|&byte| byte == b',')
                    .any(leading)
                    .then(|| b"x".to_vec())
            }),
        );
    }

    #[test]
    fn sixth_digit_accepted() {
        found(
            30_000,
            1,
            filtered(|line| {
                if line.len() > 40 || Command::parse(line).is_some() {
                    return None;
                }
                let shorter: Vec<&[u8]> = line
                    .split(|&byte| byte == b',')
                    .map(|field| match field {
                        [b'0', rest @ ..] if field.len() == 6 => rest,
                        _ => field,
                    })
                    .collect();
                Some(shorter.join(&b','))
            }),
        );
    }

    #[test]
    fn position_off_by_one_at_a_page_boundary() {
        found(
            10_000,
            4,
            filtered(|line| match Command::parse(line)? {
                Command::Write {
                    file,
                    position,
                    length,
                    byte,
                } if position > 0
                    && position % PAGE_BYTES == 0
                    && position + length < FILE_BYTES =>
                {
                    Some(format!("W,{file},{},{length},{byte}", position + 1).into_bytes())
                }
                _ => None,
            }),
        );
    }

    #[test]
    fn line_of_41_bytes_accepted_by_cutting_it() {
        found(
            60_000,
            1,
            filtered(|line| {
                if line.len() <= 40 {
                    return None;
                }
                let valid = (1..=40)
                    .rev()
                    .find(|&end| Command::parse(&line[..end]).is_some())?;
                Some(line[..valid].to_vec())
            }),
        );
    }

    #[test]
    fn trailing_carriage_return_accepted() {
        found(
            60_000,
            1,
            filtered(|line| line.strip_suffix(b"\r").map(<[u8]>::to_vec)),
        );
    }

    #[test]
    fn write_of_4097_cut_to_4096() {
        found(
            60_000,
            2,
            filtered(|line| {
                let text = std::str::from_utf8(line).ok()?;
                text.contains(",4097,")
                    .then(|| text.replace(",4097,", ",4096,").into_bytes())
            }),
        );
    }

    #[test]
    fn last_line_without_lf_lost() {
        found(60_000, 1, |input| {
            let end = input.iter().rposition(|&byte| byte == b'\n');
            run_bytes(&input[..end.map_or(0, |end| end + 1)])
        });
    }

    #[test]
    fn empty_input_without_header() {
        found(1, 0, |input| {
            if input.is_empty() {
                Vec::new()
            } else {
                run_bytes(input)
            }
        });
    }

    #[test]
    fn line_split_at_a_block_boundary_lost() {
        found(60_000, 4, |input| {
            let mut kept = Vec::new();
            let mut start = 0;
            for line in input.split_inclusive(|&byte| byte == b'\n') {
                let end = start + line.len();
                if start / 4096 == (end - 1) / 4096 || line.len() > 4096 {
                    kept.extend_from_slice(line);
                }
                start = end;
            }
            run_bytes(&kept)
        });
    }

    #[test]
    fn report_shows_session_outputs_and_commands() {
        let mut program = filtered(|line| (line == b"\xff'").then(|| b"M,0".to_vec()));
        let session = Session {
            lines: vec![b"M,0".to_vec(), b"\xff'".to_vec()],
            final_lf: false,
            feed: Feed::Whole,
        };
        let (expected, actual) = run_both(&mut program, &session);
        assert!(differs(&expected, &actual));
        let mut difference = Difference {
            seed: 7,
            index: 3,
            lines: 1234,
            shortest: session,
            expected,
            actual,
            repeats: true,
        };
        let report = difference.report("./p");
        for part in [
            "session 3 of seed 7",
            "2 lines, 6 bytes, the last without LF",
            "  \\xff\\'\n",
            "expected output:\n  answer,count,bytes\n  0,0,\n  1,0,\n",
            "actual output:\n  answer,count,bytes\n  0,0,\n  0,0,\n",
            "first different output line: 3\n",
            "printf 'M,0\\n\\377\\047' | ./p\n",
            "random_sessions compare ./p --lines 1234 --seed 7\n",
        ] {
            assert!(report.contains(part), "{part} not in\n{report}");
        }
        assert!(!report.contains("in pieces"));
        difference.shortest.feed = Feed::Pieces(1);
        difference.actual.problem = Some("signal: 11".to_owned());
        difference.actual.stdout.clear();
        let report = difference.report("./p");
        assert!(report.contains("actual output:\n  (nothing)\nand the program: signal: 11\n"));
        assert!(report.contains("fed in pieces"));
    }

    #[test]
    fn a_difference_that_does_not_repeat_is_told_as_such() {
        let mut runs = 0;
        let mut program = |input: &[u8]| {
            runs += 1;
            if runs == 4 {
                Vec::new()
            } else {
                run_bytes(input)
            }
        };
        let difference = compare_seed(&mut program, 1, 10_000, &mut Tally::default()).unwrap_err();
        assert_eq!(difference.index, 3);
        assert!(!difference.repeats);
        assert!(difference.report("p").contains("did not show again"));
        assert_eq!(difference.shortest, session(1, 3));
    }
}
