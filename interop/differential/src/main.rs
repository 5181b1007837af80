//! Compares the archive with the reference, and with model files.

use std::fmt::Display;
use std::io::{self, Write};
use std::process::ExitCode;

use differential::{check, Archive};
use random_calls::{compare as compare_calls, Reference};
use random_lists::compare as compare_lists;
use random_sessions::command_line::{self, compare_on, Options, Seeds};

const HELP: &str = "\
differential - compares the archive of the proved store with the reference

  differential calls --calls N --seed S [--seed S ...] [--fresh]
      Makes at least N calls in all, spread over the seeds, on arbitrary memory:
      any lengths, states and numbers, every call of boxstore.h on a store.
      Compares the answers and all memory after each call, and checks that each
      call gave each answer that it can give.

  differential histories --histories N --seed S [--seed S ...] [--fresh]
      Makes at least N histories in all, spread over the seeds: reads, looks,
      writes, truncates, syncs and mounts with any budget, and losses of power.
      Cuts each sync and each mount after each number of media writes as well,
      and mounts. Compares as above, and holds reads, sizes, media after a sync
      and what each mount finds against model files.

  differential lists --lists N --seed S [--seed S ...] [--fresh]
      Makes at least N trip lists in all, spread over the seeds: ones that keep
      all rules, ones with a fault or two, and random bytes; and as many pairs to
      be joined. Compares the calls on trip lists as above, and holds the
      archive's against each other: what is written is taken again and written as
      it stands, is no longer and has the same trips, the cursor gives the trips
      that are read place by place, and a joined list has the trips of both,
      whichever comes first.

  differential --help
      Prints this text.

  --fresh adds a seed that is new each time, and prints it.

A seed is a number from 0 to 18446744073709551615. The same seed gives the same
calls, histories and lists. At the first difference it prints the simplest form
that it can find.

Exit status: 0 no difference, 1 a difference, or too few calls, histories or
lists for all that must come up (or an error of output), 2 wrong arguments.
";

/// What is compared.
#[derive(Clone, Copy, Debug, PartialEq, Eq)]
enum Kind {
    Calls,
    Histories,
    Lists,
}

/// What the arguments ask for.
#[derive(Debug, PartialEq, Eq)]
enum Task {
    Help,
    Compare {
        kind: Kind,
        amount: usize,
        seeds: Seeds,
    },
}

fn parse(arguments: &[String]) -> Result<Task, String> {
    let Some((command, rest)) = command_line::command(arguments) else {
        return Ok(Task::Help);
    };
    let (kind, amount_option) = match command {
        "calls" => (Kind::Calls, "--calls"),
        "histories" => (Kind::Histories, "--histories"),
        "lists" => (Kind::Lists, "--lists"),
        _ => return Err(format!("unknown command '{command}'")),
    };
    let options = Options::read(rest, amount_option, true, |_, _| Ok(false))?;
    let amount = options.amount();
    let seeds = options.seeds()?;
    Ok(Task::Compare {
        kind,
        amount: amount?,
        seeds,
    })
}

/// Counts of a seed, or of all.
trait Counts: Default {
    fn add(&mut self, other: &Self);
    fn line(&self) -> String;
    fn missing(&self) -> Vec<String>;
}

impl Counts for random_calls::Tally {
    fn add(&mut self, other: &Self) {
        self.add(other);
    }

    fn line(&self) -> String {
        format!(
            "{} calls (states sound {}, unsound {}; lengths wrong {})",
            self.calls(),
            self.sound,
            self.unsound,
            self.wrong_lengths
        )
    }

    fn missing(&self) -> Vec<String> {
        let missing = self.missing().into_iter();
        missing
            .map(|(call, number)| format!("{call} answering {number}"))
            .collect()
    }
}

impl Counts for differential::Tally {
    fn add(&mut self, other: &Self) {
        self.add(other);
    }

    fn line(&self) -> String {
        format!(
            "{} histories, {} calls, {} cuts, {} mounts checked ({} files with a part of the changes), \
             {} syncs checked",
            self.histories, self.calls, self.cuts, self.mounts, self.parts, self.syncs
        )
    }

    fn missing(&self) -> Vec<String> {
        self.missing()
    }
}

impl Counts for random_lists::Tally {
    fn add(&mut self, other: &Self) {
        self.add(other);
    }

    fn line(&self) -> String {
        let joins = self.of("join_trips");
        let answers = joins.iter().enumerate().filter(|(_, &count)| count > 0);
        let answers: Vec<String> = answers
            .map(|(number, count)| format!("{number}: {count}"))
            .collect();
        format!(
            "{} lists, {} calls ({} lists of {} trips accepted), {} pairs ({})",
            self.lists,
            self.calls(),
            self.accepted,
            self.trips,
            self.pairs,
            answers.join(", ")
        )
    }

    fn missing(&self) -> Vec<String> {
        self.missing()
    }
}

/// Compares on all seeds; true if there is no difference and all came up.
fn run<C: Counts, E: Display>(
    amount: usize,
    seeds: &[u64],
    one_seed: impl Fn(u64, usize) -> Result<C, E>,
    out: &mut impl Write,
) -> io::Result<bool> {
    let mut total = C::default();
    let end = compare_on(seeds, amount, out, |seed, amount| {
        let counts = one_seed(seed, amount)
            .map_err(|difference| format!("{difference}\nDIFFERENCE at seed {seed}\n"))?;
        total.add(&counts);
        Ok(counts.line())
    })?;
    let Some(end) = end else {
        return Ok(false);
    };
    writeln!(out, "total: {}, {end}", total.line())?;
    let missing = total.missing();
    if !missing.is_empty() {
        writeln!(out, "did not come up: {}", missing.join(", "))?;
    }
    Ok(missing.is_empty())
}

fn perform(task: Task) -> io::Result<bool> {
    let mut out = io::stdout();
    match task {
        Task::Help => out.write_all(HELP.as_bytes()).map(|()| true),
        Task::Compare {
            kind,
            amount,
            seeds,
        } => {
            let seeds = seeds.all(&mut out)?;
            match kind {
                Kind::Calls => run(
                    amount,
                    &seeds,
                    compare_calls::<Reference, Archive>,
                    &mut out,
                ),
                Kind::Histories => run(amount, &seeds, check::<Reference, Archive>, &mut out),
                Kind::Lists => run(
                    amount,
                    &seeds,
                    compare_lists::<Reference, Archive>,
                    &mut out,
                ),
            }
        }
    }
}

fn main() -> ExitCode {
    command_line::main("differential", parse, perform)
}

#[cfg(test)]
mod tests {
    use super::*;

    fn parse_line(line: &str) -> Result<Task, String> {
        let arguments: Vec<String> = line.split_whitespace().map(str::to_owned).collect();
        parse(&arguments)
    }

    #[test]
    fn arguments() {
        assert_eq!(parse_line(""), Ok(Task::Help));
        assert_eq!(parse_line("--help"), Ok(Task::Help));
        assert_eq!(parse_line("calls --help"), Ok(Task::Help));
        assert_eq!(
            parse_line("calls --calls 10 --seed 1 --seed 18446744073709551615"),
            Ok(Task::Compare {
                kind: Kind::Calls,
                amount: 10,
                seeds: Seeds {
                    given: vec![1, u64::MAX],
                    fresh: false,
                },
            })
        );
        assert_eq!(
            parse_line("histories --fresh --histories 3"),
            Ok(Task::Compare {
                kind: Kind::Histories,
                amount: 3,
                seeds: Seeds {
                    given: vec![],
                    fresh: true,
                },
            })
        );
        assert_eq!(
            parse_line("lists --lists 5 --seed 0"),
            Ok(Task::Compare {
                kind: Kind::Lists,
                amount: 5,
                seeds: Seeds {
                    given: vec![0],
                    fresh: false,
                },
            })
        );
        for wrong in [
            "other",
            "calls",
            "calls --calls 10",
            "calls --seed 1",
            "calls --histories 10 --seed 1",
            "calls --calls x --seed 1",
            "calls --calls 10 --seed",
            "calls --calls 10 --calls 11 --seed 1",
            "calls --calls 10 --seed -1",
            "calls --calls 10 --seed 1 --other",
            "calls --calls 10 --seed 1 more",
            "histories --calls 10 --seed 1",
            "histories --histories 10",
            "lists --calls 10 --seed 1",
            "lists --lists 10",
        ] {
            assert!(parse_line(wrong).is_err(), "{wrong}");
        }
    }

    #[test]
    fn a_line_for_each_seed_and_a_total() {
        let mut out = Vec::new();
        let compare = compare_calls::<Reference, Reference>;
        let equal = run(30_000, &[3, 4], compare, &mut out);
        assert!(equal.unwrap());
        let text = String::from_utf8(out).unwrap();
        let lines: Vec<&str> = text.lines().collect();
        assert_eq!(lines.len(), 3, "{text}");
        assert!(lines[0].starts_with("seed 3: 15000 calls (states sound "));
        assert!(lines[1].starts_with("seed 4: 15000 calls "));
        assert!(lines[2].starts_with("total: 30000 calls "));

        let mut out = Vec::new();
        let compare = compare_lists::<Reference, Reference>;
        assert!(run(2_000, &[3, 4], compare, &mut out).unwrap());
        let text = String::from_utf8(out).unwrap();
        assert!(
            text.starts_with("seed 3: 1000 lists, 9000 calls ("),
            "{text}"
        );
        assert!(
            text.contains("\ntotal: 2000 lists, 18000 calls ("),
            "{text}"
        );
        assert!(text.contains(" accepted), 1000 pairs (0: "), "{text}");
        for number in [2, 7, 10, 11, 17, 18] {
            assert!(text.contains(&format!(", {number}: ")), "{text}");
        }
    }

    #[test]
    fn what_does_not_come_up_is_told() {
        let mut out = Vec::new();
        let equal = run(1, &[3], check::<Reference, Reference>, &mut out);
        assert!(!equal.unwrap());
        let text = String::from_utf8(out).unwrap();
        assert!(text.starts_with("seed 3: 1 histories, "), "{text}");
        assert!(text.contains("\ndid not come up: "), "{text}");
    }

    #[test]
    fn a_difference_ends_it() {
        let mut out = Vec::new();
        let failing = |seed, amount| match seed {
            8 => Err(format!("what differs in {amount}")),
            _ => Ok(random_calls::Tally::default()),
        };
        assert!(!run(10, &[7, 8, 9], failing, &mut out).unwrap());
        let text = String::from_utf8(out).unwrap();
        assert!(text.starts_with("seed 7: 0 calls"), "{text}");
        assert!(
            text.ends_with("what differs in 4\nDIFFERENCE at seed 8\n"),
            "{text}"
        );
    }
}
