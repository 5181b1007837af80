//! Compares a session program with the reference on random sessions.

use std::io::{self, BufWriter, Write};
use std::path::Path;
use std::process::ExitCode;
use std::time::Duration;

use random_sessions::command_line::{self, compare_on, number, Options, Seeds};
use random_sessions::compare::compare_seed;
use random_sessions::generate::Generator;
use random_sessions::program::Executable;
use random_sessions::tally::Tally;

const HELP: &str = "\
random_sessions - compares a session program with the reference

  random_sessions compare PROGRAM --lines N --seed S [--seed S ...] [--fresh]
                          [--timeout SECONDS]
      Runs PROGRAM on random sessions of at least N lines in all, spread over
      the seeds, and compares what it prints with the reference, byte by byte.
      A crash, a hang, an exit status other than 0 and anything on standard
      error are differences too. At the first difference it prints the shortest
      session it can find that shows one.
      --fresh    adds a seed that is new each time, and prints it
      --timeout  the longest that one session may take (default 30)

  random_sessions print --seed S --lines N
      Prints one random session of N lines.

  random_sessions --help
      Prints this text.

A seed is a number from 0 to 18446744073709551615. The same seed gives the same
sessions. PROGRAM is called without arguments; a name without a slash is looked
up in the PATH.

Exit status: 0 no difference, 1 a difference (or an error of input or output),
2 wrong arguments.
";

/// What the arguments ask for.
#[derive(Debug, PartialEq, Eq)]
enum Task {
    Help,
    Compare {
        program: String,
        lines: usize,
        seeds: Seeds,
        timeout: Duration,
    },
    Print {
        seed: u64,
        lines: usize,
    },
}

fn parse(arguments: &[String]) -> Result<Task, String> {
    let Some((command, rest)) = command_line::command(arguments) else {
        return Ok(Task::Help);
    };
    let compare = match command {
        "compare" => true,
        "print" => false,
        _ => return Err(format!("unknown command '{command}'")),
    };
    let mut program = None;
    let mut timeout = 30;
    let options = Options::read(rest, "--lines", compare, |argument, rest| {
        match argument {
            "--timeout" if compare => timeout = number(argument, rest)?,
            _ if argument.starts_with('-') => return Ok(false),
            _ if compare && program.is_none() => program = Some(argument.to_owned()),
            _ => return Ok(false),
        }
        Ok(true)
    })?;
    let lines = options.amount()?;
    if !compare {
        let seed = options.one_seed()?;
        return Ok(Task::Print { seed, lines });
    }
    Ok(Task::Compare {
        seeds: options.seeds()?,
        program: program.ok_or("PROGRAM is missing")?,
        lines,
        timeout: Duration::from_secs(timeout),
    })
}

/// Compares on all seeds; true if there is no difference.
fn compare(
    program: &str,
    lines: usize,
    seeds: &[u64],
    timeout: Duration,
    out: &mut impl Write,
) -> io::Result<bool> {
    let mut executable = Executable::new(program, timeout);
    let mut tally = Tally::default();
    let counts = |lines: usize, sessions: usize| format!("{lines} lines in {sessions} sessions");
    let end = compare_on(seeds, lines, out, |seed, lines| {
        let before = (tally.lines, tally.sessions);
        compare_seed(&mut executable, seed, lines, &mut tally)
            .map_err(|difference| difference.report(program))?;
        Ok(counts(tally.lines - before.0, tally.sessions - before.1))
    })?;
    let Some(end) = end else {
        return Ok(false);
    };
    writeln!(out, "total: {}, {end}", counts(tally.lines, tally.sessions))?;
    writeln!(out, "{tally}")?;
    Ok(true)
}

/// Prints one session.
fn print(seed: u64, lines: usize, out: impl Write) -> io::Result<()> {
    let mut out = BufWriter::with_capacity(1 << 16, out);
    let mut generator = Generator::new(seed);
    let mut line = Vec::new();
    for _ in 0..lines {
        line.clear();
        generator.next_line(&mut line);
        line.push(b'\n');
        out.write_all(&line)?;
    }
    out.flush()
}

fn perform(task: Task) -> io::Result<bool> {
    let mut out = io::stdout();
    match task {
        Task::Help => out.write_all(HELP.as_bytes()).map(|()| true),
        Task::Print { seed, lines } => print(seed, lines, out.lock()).map(|()| true),
        Task::Compare {
            program,
            lines,
            seeds,
            timeout,
        } => {
            let seeds = seeds.all(&mut out)?;
            if program.contains('/') && !Path::new(&program).is_file() {
                writeln!(out, "{program}: there is no such program")?;
                return Ok(false);
            }
            compare(&program, lines, &seeds, timeout, &mut out)
        }
    }
}

fn main() -> ExitCode {
    command_line::main("random_sessions", parse, perform)
}

#[cfg(test)]
mod tests {
    use super::*;

    fn parse_line(line: &str) -> Result<Task, String> {
        let arguments: Vec<String> = line.split_whitespace().map(str::to_owned).collect();
        parse(&arguments)
    }

    #[test]
    fn arguments() {
        assert_eq!(parse_line(""), Ok(Task::Help));
        assert_eq!(parse_line("--help"), Ok(Task::Help));
        assert_eq!(parse_line("compare --help"), Ok(Task::Help));
        assert_eq!(
            parse_line("compare p --lines 10 --seed 1 --seed 2 --fresh"),
            Ok(Task::Compare {
                program: "p".to_owned(),
                lines: 10,
                seeds: Seeds {
                    given: vec![1, 2],
                    fresh: true,
                },
                timeout: Duration::from_secs(30),
            })
        );
        assert_eq!(
            parse_line("print --seed 18446744073709551615 --lines 3"),
            Ok(Task::Print {
                seed: u64::MAX,
                lines: 3
            })
        );
        for wrong in [
            "other",
            "compare",
            "compare p",
            "compare p --lines 10",
            "compare --lines 10 --seed 1",
            "compare p q --lines 10 --seed 1",
            "compare p --lines x --seed 1",
            "compare p --lines 10 --seed",
            "compare p --lines 10 --lines 11 --seed 1",
            "compare p --lines 10 --seed -1",
            "compare p --lines 10 --seed 1 --other",
            "print --lines 10",
            "print --seed 1",
            "print --seed 1 --seed 2 --lines 10",
            "print --seed 1 --lines 10 --fresh",
            "print p --seed 1 --lines 10",
        ] {
            assert!(parse_line(wrong).is_err(), "{wrong}");
        }
    }

    #[test]
    fn print_gives_the_lines_asked_for() {
        let mut first = Vec::new();
        print(3, 5000, &mut first).unwrap();
        assert_eq!(first.iter().filter(|&&byte| byte == b'\n').count(), 5000);
        assert!(first.ends_with(b"\n"));
        let mut second = Vec::new();
        print(3, 5000, &mut second).unwrap();
        assert_eq!(first, second);
        let mut longer = Vec::new();
        print(3, 6000, &mut longer).unwrap();
        assert!(longer.starts_with(&first));
        let mut other = Vec::new();
        print(4, 5000, &mut other).unwrap();
        assert_ne!(first, other);
    }
}
