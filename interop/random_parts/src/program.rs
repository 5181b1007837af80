//! The programs that compare two stores on parts, by their arguments.

use std::fmt::Display;
use std::io::{self, Write};
use std::process::ExitCode;

use random_sessions::command_line::{self, compare_on, Options, Seeds};

use crate::check::{check, HistoryTally};
use crate::compare::{compare, Tally};
use crate::part_store::PartStore;

/// What the arguments ask for.
#[derive(Debug, PartialEq, Eq)]
enum Task {
    Help,
    Calls { amount: usize, seeds: Seeds },
    Histories { amount: usize, seeds: Seeds },
}

fn parse(arguments: &[String]) -> Result<Task, String> {
    let Some((command, rest)) = command_line::command(arguments) else {
        return Ok(Task::Help);
    };
    let amount_option = match command {
        "calls" => "--calls",
        "histories" => "--histories",
        _ => return Err(format!("unknown command '{command}'")),
    };
    let options = Options::read(rest, amount_option, true, |_, _| Ok(false))?;
    let amount = options.amount();
    let seeds = options.seeds()?;
    let amount = amount?;
    Ok(if command == "calls" {
        Task::Calls { amount, seeds }
    } else {
        Task::Histories { amount, seeds }
    })
}

/// Counts of a seed, or of all.
trait Counts: Default {
    fn add(&mut self, other: &Self);
    fn line(&self) -> String;
    fn missing(&self) -> Vec<String>;
}

impl Counts for Tally {
    fn add(&mut self, other: &Self) {
        self.add(other);
    }

    fn line(&self) -> String {
        format!(
            "{} calls ({} on sound parts, {} on damaged ones), {} collections",
            self.calls(),
            self.sound(),
            self.damaged(),
            self.collections
        )
    }

    fn missing(&self) -> Vec<String> {
        self.missing()
    }
}

impl Counts for HistoryTally {
    fn add(&mut self, other: &Self) {
        self.add(other);
    }

    fn line(&self) -> String {
        format!(
            "{} histories, {} calls, {} cuts, {} mounts checked ({} files with a part of the \
             changes), {} syncs checked, at most {} steps",
            self.histories,
            self.calls,
            self.all_cuts(),
            self.mounts,
            self.partial,
            self.syncs,
            self.longest
        )
    }

    fn missing(&self) -> Vec<String> {
        self.missing()
    }
}

/// Compares on all seeds; true if there is no difference and all came up.
fn run<C: Counts, E: Display>(
    amount: usize,
    seeds: &[u64],
    one_seed: impl Fn(u64, usize) -> Result<C, E>,
    out: &mut impl Write,
) -> io::Result<bool> {
    let mut total = C::default();
    let end = compare_on(seeds, amount, out, |seed, amount| {
        let counts = one_seed(seed, amount)
            .map_err(|difference| format!("{difference}\nDIFFERENCE at seed {seed}\n"))?;
        total.add(&counts);
        Ok(counts.line())
    })?;
    let Some(end) = end else {
        return Ok(false);
    };
    writeln!(out, "total: {}, {end}", total.line())?;
    let missing = total.missing();
    if !missing.is_empty() {
        writeln!(out, "did not come up: {}", missing.join(", "))?;
    }
    Ok(missing.is_empty())
}

/// Compares two stores as the arguments of this process say: calls on `A` and
/// `B`, histories on `H` and `B`. `help` is the text that `--help` prints.
pub fn main<A: PartStore, H: PartStore, B: PartStore>(name: &str, help: &str) -> ExitCode {
    command_line::main(name, parse, |task| {
        let mut out = io::stdout();
        match task {
            Task::Help => out.write_all(help.as_bytes()).map(|()| true),
            Task::Calls { amount, seeds } => {
                let seeds = seeds.all(&mut out)?;
                run(amount, &seeds, compare::<A, B>, &mut out)
            }
            Task::Histories { amount, seeds } => {
                let seeds = seeds.all(&mut out)?;
                run(amount, &seeds, check::<H, B>, &mut out)
            }
        }
    })
}

#[cfg(test)]
mod tests {
    use super::*;
    use crate::Stepwise;
    use random_calls::Reference;

    fn parse_line(line: &str) -> Result<Task, String> {
        let arguments: Vec<String> = line.split_whitespace().map(str::to_owned).collect();
        parse(&arguments)
    }

    #[test]
    fn arguments() {
        assert_eq!(parse_line(""), Ok(Task::Help));
        assert_eq!(parse_line("calls --help"), Ok(Task::Help));
        assert_eq!(
            parse_line("calls --calls 10 --seed 1 --seed 2"),
            Ok(Task::Calls {
                amount: 10,
                seeds: Seeds {
                    given: vec![1, 2],
                    fresh: false,
                },
            })
        );
        assert_eq!(
            parse_line("histories --fresh --histories 3"),
            Ok(Task::Histories {
                amount: 3,
                seeds: Seeds {
                    given: vec![],
                    fresh: true,
                },
            })
        );
        for wrong in [
            "other",
            "calls",
            "calls --calls 10",
            "calls --histories 10 --seed 1",
            "histories --histories 10",
            "histories --calls 10 --seed 1",
        ] {
            assert!(parse_line(wrong).is_err(), "{wrong}");
        }
    }

    #[test]
    fn what_does_not_come_up_is_told() {
        let mut out = Vec::new();
        let equal = run(1, &[3], compare::<Stepwise, Reference>, &mut out);
        assert!(!equal.unwrap());
        let equal = run(1, &[3], check::<Reference, Reference>, &mut out);
        assert!(!equal.unwrap());
        let text = String::from_utf8(out).unwrap();
        assert!(text.starts_with("seed 3: 6 calls ("), "{text}");
        assert!(text.contains("\nseed 3: 1 histories, "), "{text}");
        assert_eq!(text.matches("\ndid not come up: ").count(), 2, "{text}");
    }
}
