//! What the programs that compare on seeds have in common: their arguments, the
//! lines that they print, and how they end.

use std::io::{self, Write};
use std::process::ExitCode;
use std::slice::Iter;
use std::time::Instant;

use crate::rng::fresh_seed;

/// Carries out what the arguments of this process ask for. The exit status is 0
/// where `perform` answers true, 1 where it answers false or fails, and 2 where
/// `parse` does.
pub fn main<T>(
    name: &str,
    parse: impl FnOnce(&[String]) -> Result<T, String>,
    perform: impl FnOnce(T) -> io::Result<bool>,
) -> ExitCode {
    let arguments: Result<Vec<String>, _> = std::env::args_os()
        .skip(1)
        .map(|argument| argument.into_string())
        .collect();
    let task = arguments
        .map_err(|argument| format!("{argument:?} is not valid Unicode"))
        .and_then(|arguments| parse(&arguments));
    let (status, message) = match task.map(perform) {
        Ok(Ok(true)) => return ExitCode::SUCCESS,
        Ok(Ok(false)) => return ExitCode::from(1),
        Ok(Err(error)) => (1, error.to_string()),
        Err(message) => (2, format!("{message}\nTry '{name} --help'.")),
    };
    // Nothing is left to do if standard error fails as well.
    let _ = writeln!(io::stderr(), "{name}: {message}");
    ExitCode::from(status)
}

/// The command and what follows it; nothing where the help is asked for.
pub fn command(arguments: &[String]) -> Option<(&str, &[String])> {
    let help = |argument: &String| argument == "--help" || argument == "-h";
    let (command, rest) = arguments.split_first()?;
    (!arguments.iter().any(help)).then_some((command, rest))
}

/// The number that an option takes.
pub fn number(option: &str, rest: &mut Iter<'_, String>) -> Result<u64, String> {
    let value = rest
        .next()
        .ok_or_else(|| format!("{option} needs a number"))?;
    value
        .parse()
        .map_err(|_| format!("{option}: '{value}' is not a number"))
}

/// The options that the commands have in common.
#[derive(Debug)]
pub struct Options {
    amount_option: &'static str,
    amount: Option<usize>,
    seeds: Seeds,
}

impl Options {
    /// Reads `amount_option` with a number, which tells how much is compared,
    /// `--seed` with a number, and `--fresh` where the command has it. `other`
    /// is given each other argument, with those that follow, and says whether
    /// it takes it.
    pub fn read(
        arguments: &[String],
        amount_option: &'static str,
        has_fresh: bool,
        mut other: impl FnMut(&str, &mut Iter<'_, String>) -> Result<bool, String>,
    ) -> Result<Options, String> {
        let mut amount = None;
        let mut seeds = Seeds::default();
        let mut rest = arguments.iter();
        while let Some(argument) = rest.next() {
            match argument.as_str() {
                "--seed" => seeds.given.push(number(argument, &mut rest)?),
                "--fresh" if has_fresh => seeds.fresh = true,
                _ if argument == amount_option && amount.is_some() => {
                    return Err(format!("{argument} is given twice"));
                }
                _ if argument == amount_option => {
                    let value = number(argument, &mut rest)?;
                    amount = Some(usize::try_from(value).map_err(|error| error.to_string())?);
                }
                _ if other(argument, &mut rest)? => {}
                _ if argument.starts_with('-') => {
                    return Err(format!("unknown option '{argument}'"));
                }
                _ => return Err(format!("unexpected argument '{argument}'")),
            }
        }
        Ok(Options {
            amount_option,
            amount,
            seeds,
        })
    }

    /// How much is compared.
    pub fn amount(&self) -> Result<usize, String> {
        self.amount
            .ok_or_else(|| format!("{} is missing", self.amount_option))
    }

    /// The seeds, of which there is at least one.
    pub fn seeds(self) -> Result<Seeds, String> {
        if self.seeds.given.is_empty() && !self.seeds.fresh {
            return Err("--seed or --fresh is missing".to_owned());
        }
        Ok(self.seeds)
    }

    /// The seed, where there is one and no more.
    pub fn one_seed(&self) -> Result<u64, String> {
        match self.seeds.given[..] {
            [seed] => Ok(seed),
            _ => Err("one --seed is needed".to_owned()),
        }
    }
}

/// The seeds of a comparison.
#[derive(Debug, Default, PartialEq, Eq)]
pub struct Seeds {
    /// Those of the arguments.
    pub given: Vec<u64>,
    /// Whether one is added that is new each time.
    pub fresh: bool,
}

impl Seeds {
    /// All of them. A fresh one is printed.
    pub fn all(self, out: &mut impl Write) -> io::Result<Vec<u64>> {
        let mut seeds = self.given;
        if self.fresh {
            let seed = fresh_seed();
            writeln!(out, "fresh seed: {seed}")?;
            seeds.push(seed);
        }
        Ok(seeds)
    }
}

/// Compares on each seed its part of the amount, and prints a line for it: what
/// `one_seed` tells of it, and the time. Answers the end of a line for the
/// total. At a difference, prints what `one_seed` tells of that, and answers
/// nothing.
pub fn compare_on(
    seeds: &[u64],
    amount: usize,
    out: &mut impl Write,
    mut one_seed: impl FnMut(u64, usize) -> Result<String, String>,
) -> io::Result<Option<String>> {
    let start = Instant::now();
    for &seed in seeds {
        let seed_start = Instant::now();
        match one_seed(seed, amount.div_ceil(seeds.len())) {
            Ok(counts) => {
                let seconds = seed_start.elapsed().as_secs_f64();
                writeln!(out, "seed {seed}: {counts}, {seconds:.2} s, equal")?;
            }
            Err(difference) => {
                write!(out, "{difference}")?;
                return Ok(None);
            }
        }
    }
    let seconds = start.elapsed().as_secs_f64();
    let count = seeds.len();
    Ok(Some(format!("{count} seeds, {seconds:.2} s, all equal")))
}

#[cfg(test)]
mod tests {
    use super::*;

    fn words(line: &str) -> Vec<String> {
        line.split_whitespace().map(str::to_owned).collect()
    }

    /// A command with the option `--size`, a number, and `word`.
    fn read(line: &str) -> Result<Options, String> {
        Options::read(&words(line), "--calls", true, |argument, rest| {
            match argument {
                "--size" => number(argument, rest).map(drop)?,
                _ => return Ok(argument == "word"),
            }
            Ok(true)
        })
    }

    #[test]
    fn options_in_any_order() {
        let options = read("--seed 5 word --fresh --size 3 --calls 7 --seed 4").unwrap();
        assert_eq!(options.amount(), Ok(7));
        let seeds = Seeds {
            given: vec![5, 4],
            fresh: true,
        };
        assert_eq!(options.seeds(), Ok(seeds));
        assert_eq!(read("--seed 5").unwrap().one_seed(), Ok(5));
    }

    #[test]
    fn what_is_wrong_is_told() {
        for (line, message) in [
            ("--seed", "--seed needs a number"),
            ("--seed -1", "--seed: '-1' is not a number"),
            ("--size x", "--size: 'x' is not a number"),
            ("--calls 1 --calls 1", "--calls is given twice"),
            ("--lines 1", "unknown option '--lines'"),
            ("words", "unexpected argument 'words'"),
        ] {
            assert_eq!(read(line).unwrap_err(), message);
        }
        let without_fresh = Options::read(&words("--fresh"), "--calls", false, |_, _| Ok(false));
        assert_eq!(without_fresh.unwrap_err(), "unknown option '--fresh'");

        let missing = "--calls is missing";
        assert_eq!(read("").unwrap().amount(), Err(missing.to_owned()));
        let missing = "--seed or --fresh is missing";
        assert_eq!(read("").unwrap().seeds(), Err(missing.to_owned()));
        for line in ["", "--seed 1 --seed 1"] {
            let needed = "one --seed is needed";
            assert_eq!(read(line).unwrap().one_seed(), Err(needed.to_owned()));
        }
    }

    #[test]
    fn help_comes_before_the_command() {
        for line in ["", "--help", "compare -h", "other --help --seed"] {
            assert_eq!(command(&words(line)), None);
        }
        let line = words("compare p");
        assert_eq!(command(&line), Some(("compare", &line[1..])));
    }

    #[test]
    fn a_fresh_seed_is_printed() {
        let mut out = Vec::new();
        let mut seeds = Seeds {
            given: vec![3],
            fresh: true,
        };
        let all = seeds.all(&mut out).unwrap();
        assert_eq!((all.len(), all[0]), (2, 3));
        assert_eq!(out, format!("fresh seed: {}\n", all[1]).into_bytes());

        seeds = Seeds {
            given: vec![3],
            fresh: false,
        };
        assert_eq!(seeds.all(&mut out).unwrap(), [3]);
    }
}
