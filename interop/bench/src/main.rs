//! Times the proved store beside the tuned one, on trip lists by words as well,
//! beside the plain work, and beside what a program on Linux would take
//! otherwise. Prints Markdown.

mod lists;
mod others;
mod scenario;
mod timing;

use std::hint::black_box;
use std::io::{self, Write};
use std::process::ExitCode;
use std::time::Duration;

use layout::{FILE_BYTES, PAGE_BYTES};
use random_calls::store_of;
use random_lists::trip_lists_by;

use others::{Named, Other, Room};
use scenario::{different, Calls, Run, Scenario, Step, Work};
use timing::{measure, median, ratio, Effort, Side};

store_of!(
    /// The proved code, over its archive.
    Proved,
    boxstore::raw
);
store_of!(
    /// The store written for speed.
    Tuned,
    tuned
);
store_of!(
    /// The same store, with trip lists eight bytes at a time.
    ByWords,
    tuned
);
trip_lists_by!(Proved, boxstore::raw);
trip_lists_by!(Tuned, tuned::trips);
trip_lists_by!(ByWords, tuned::trip_words);

const TUNED: &str = "tuned";
const BY_WORDS: &str = "by words";

const HELP: &str = "\
usage: bench                   all scenarios, as Markdown tables
       bench --check           two passes of each, with the comparisons only, untimed
       bench --rounds N        rounds of each side (15)
       bench --millis N        milliseconds of one side in one round (20)
       bench --only TEXT       scenarios whose name has the text
       bench --profile N       N passes of the proved side alone, for a profiler
       bench --help            this text
";

/// What the arguments ask for.
struct Options {
    check: bool,
    effort: Effort,
    only: String,
    profile: Option<usize>,
}

fn options(arguments: impl Iterator<Item = String>) -> Option<Options> {
    let mut options = Options {
        check: false,
        effort: Effort {
            rounds: 15,
            round: Duration::from_millis(20),
        },
        only: String::new(),
        profile: None,
    };
    let mut arguments = arguments;
    while let Some(argument) = arguments.next() {
        match argument.as_str() {
            "--check" => options.check = true,
            "--rounds" => options.effort.rounds = positive(arguments.next())?,
            "--millis" => {
                let millis = positive(arguments.next())?;
                options.effort.round = Duration::from_millis(millis as u64);
            }
            "--only" => options.only = arguments.next()?,
            "--profile" => options.profile = Some(positive(arguments.next())?),
            _ => return None,
        }
    }
    Some(options)
}

fn positive(argument: Option<String>) -> Option<usize> {
    argument?.parse().ok().filter(|&number| number > 0)
}

fn main() -> ExitCode {
    if std::env::args()
        .skip(1)
        .any(|argument| argument == "--help")
    {
        print!("{HELP}");
        return ExitCode::SUCCESS;
    }
    let Some(options) = options(std::env::args().skip(1)) else {
        eprint!("{HELP}");
        return ExitCode::from(2);
    };
    match run(&options, &mut io::stdout().lock()) {
        Ok(()) => ExitCode::SUCCESS,
        Err(error) => {
            eprintln!("bench: {error}");
            ExitCode::FAILURE
        }
    }
}

fn run(options: &Options, out: &mut impl Write) -> io::Result<()> {
    let mut scenarios = scenario::all();
    scenarios.retain(|scenario| scenario.name.contains(&options.only));
    if scenarios.is_empty() {
        return Err(io::Error::other("no scenario has that name"));
    }
    if let Some(passes) = options.profile {
        for scenario in &scenarios {
            let mut run = scenario.ready::<Proved>();
            run.passes::<Proved>(&scenario.steps, passes);
        }
        return Ok(());
    }

    let room = Room::new()?;
    let mut others = others::all(&room.folder)?;
    for scenario in &scenarios {
        check::<Tuned>(scenario, TUNED).map_err(io::Error::other)?;
        if scenario.is_on_lists() {
            check::<ByWords>(scenario, BY_WORDS).map_err(io::Error::other)?;
        }
    }
    for (name, other) in &mut others {
        if let Some(other) = other {
            check_other(name, other.as_mut()).map_err(io::Error::other)?;
        }
    }
    if options.check {
        writeln!(
            out,
            "bench: {} scenarios: proved and tuned give the same answers and leave the same memory; \
             so do trip lists by words, in {} of them",
            scenarios.len(),
            scenarios.iter().filter(|scenario| scenario.is_on_lists()).count()
        )?;
        for (name, other) in &others {
            match other {
                Some(_) => writeln!(out, "{name}: keeps what it is given")?,
                None => writeln!(out, "{name}: not installed, skipped")?,
            }
        }
        return Ok(());
    }

    writeln!(
        out,
        "| scenario | calls/s proved | calls/s tuned | time, proved / tuned | time, proved / by words | bytes/s proved | time, proved / plain copy |"
    )?;
    writeln!(out, "|---|--:|--:|--:|--:|--:|--:|")?;
    let mut proved = Vec::new();
    for scenario in &scenarios {
        let row = time_scenario(scenario, options.effort).map_err(io::Error::other)?;
        writeln!(
            out,
            "| {} | {} | {} | {:.2} | {} | {} | {} |",
            scenario.name,
            scaled(row.calls / row.proved),
            scaled(row.calls / row.tuned),
            row.to_tuned,
            or_none(row.to_words.map(|ratio| format!("{ratio:.2}"))),
            row.bytes_per_second(),
            or_none(row.to_plain.map(|ratio| format!("{ratio:.1}"))),
        )?;
        out.flush()?;
        proved.push((scenario.name, row));
    }
    writeln!(
        out,
        "\nThe media are memory, on both sides. The plain copy is the plain work on the bytes that the calls move: a copy of \
         those between caller and store and of the pages written to the media, a fill of those that a trim clears, and a \
         scan (an OR over the bytes) of those that a mount or a format has to look at; of a trip list a scan where it is \
         read or joined, and a copy of what is written. bytes/s counts all these. Tuned goes through a trip list byte by byte, by words \
         takes eight bytes at a time. \
         Medians of {} rounds of {} ms; a ratio is the median of those of the rounds.\n",
        options.effort.rounds,
        options.effort.round.as_millis(),
    )?;
    table_of_others(&proved, &mut others, options.effort, out)
}

/// A cell of the table that not every scenario has.
fn or_none(cell: Option<String>) -> String {
    cell.unwrap_or("-".to_owned())
}

/// A number with three digits.
fn scaled(number: f64) -> String {
    let (number, unit) = match number {
        n if n >= 1e9 => (n / 1e9, " G"),
        n if n >= 1e6 => (n / 1e6, " M"),
        n if n >= 1e3 => (n / 1e3, " k"),
        n => (n, ""),
    };
    let digits = match number {
        n if n >= 100.0 => 0,
        n if n >= 10.0 => 1,
        _ => 2,
    };
    format!("{number:.digits$}{unit}")
}

/// The comparison of the proved side with another, step by step.
fn check<S: Calls>(scenario: &Scenario, name: &str) -> Result<(), String> {
    let (mut one, mut two) = (scenario.ready::<Proved>(), scenario.ready::<S>());
    for pass in 1..=2 {
        for (index, &step) in scenario.steps.iter().enumerate() {
            let answers = (one.step::<Proved>(step), two.step::<S>(step));
            let what = if same_answer(step, answers.0, answers.1) {
                different(&one, &two)
            } else {
                Some("answers".to_owned())
            };
            if let Some(what) = what {
                return Err(format!(
                    "{}: pass {pass}, step {index}, {step:?}: the {what} of proved and {name} differ ({answers:x?})",
                    scenario.name
                ));
            }
        }
    }
    Ok(())
}

/// A look that finds no byte may name any place.
fn same_answer(step: Step, one: u64, two: u64) -> bool {
    let empty = |look: u64| look & 65_535 == 0;
    one == two || (matches!(step, Step::Look { .. }) && empty(one) && empty(two))
}

/// What was measured of one scenario; times in seconds.
struct Row {
    /// Calls of one pass.
    calls: f64,
    /// Bytes of one pass.
    bytes: f64,
    /// A pass of the proved store.
    proved: f64,
    /// A pass of the tuned store.
    tuned: f64,
    /// Proved over tuned.
    to_tuned: f64,
    /// Proved over trip lists by words, on trip lists.
    to_words: Option<f64>,
    /// Proved over the plain work, where there is some.
    to_plain: Option<f64>,
}

impl Row {
    fn bytes_per_second(&self) -> String {
        or_none((self.bytes > 0.0).then(|| scaled(self.bytes / self.proved)))
    }
}

fn time_scenario(scenario: &Scenario, effort: Effort) -> Result<Row, String> {
    let work = work(scenario);
    let mut proved = scenario.ready::<Proved>();
    let mut tuned = scenario.ready::<Tuned>();
    let mut by_words = scenario.ready::<ByWords>();
    let from = vec![1; FILE_BYTES];
    let mut to = vec![0; FILE_BYTES];
    let mut sides = vec![
        side::<Proved>(&mut proved, scenario),
        side::<Tuned>(&mut tuned, scenario),
        Box::new(|passes| plain_work(&work, &from, &mut to, passes)),
    ];
    if scenario.is_on_lists() {
        sides.push(side::<ByWords>(&mut by_words, scenario));
    }
    let times = measure(&mut sides, effort);
    drop(sides);
    let mut others = vec![(TUNED, &tuned)];
    if scenario.is_on_lists() {
        others.push((BY_WORDS, &by_words));
    }
    for (name, other) in others {
        if let Some(what) = different(&proved, other) {
            return Err(format!(
                "{}: after the rounds the {what} of proved and {name} differ",
                scenario.name
            ));
        }
    }
    let bytes: usize = work.iter().map(|work| work.bytes()).sum();
    Ok(Row {
        calls: scenario.calls() as f64,
        bytes: bytes as f64,
        proved: median(&times[0]),
        tuned: median(&times[1]),
        to_tuned: ratio(&times[0], &times[1]),
        to_words: times.get(3).map(|by_words| ratio(&times[0], by_words)),
        to_plain: (bytes > 0).then(|| ratio(&times[0], &times[2])),
    })
}

fn side<'a, S: Calls>(run: &'a mut Run, scenario: &'a Scenario) -> Side<'a> {
    Box::new(|passes| run.passes::<S>(&scenario.steps, passes))
}

/// The plain work of one pass, after a first pass.
fn work(scenario: &Scenario) -> Vec<Work> {
    let mut run = scenario.ready::<Tuned>();
    run.passes::<Tuned>(&scenario.steps, 1);
    let steps = scenario.steps.iter();
    steps.flat_map(|&step| run.work::<Tuned>(step)).collect()
}

/// An OR over bytes. A page at a time, since a loop of a known length is faster.
fn or(bytes: &[u8]) -> u8 {
    let fold = |bytes: &[u8]| bytes.iter().fold(0, |or, byte| or | byte);
    let pages = bytes.chunks_exact(PAGE_BYTES);
    fold(pages.remainder()) | pages.map(fold).fold(0, |or, page| or | page)
}

/// The plain work, and nothing else.
#[inline(never)]
fn plain_work(work: &[Work], from: &[u8], to: &mut [u8], passes: usize) {
    for _ in 0..passes {
        for &work in work {
            let from = black_box(&from[..work.bytes()]);
            let to = black_box(&mut to[..work.bytes()]);
            match work {
                Work::Copy(_) => to.copy_from_slice(from),
                Work::Scan(_) => {
                    black_box(or(from));
                }
                Work::Fill(_) => to.fill(0),
            }
        }
        black_box(&mut *to);
    }
}

const SERIAL: &[u8; 12] = b"SN-000042-A7";
const ENTRIES: [[u8; 8]; 8] = [*b"00123456"; 8];
/// Groups of eight entries until a file of the store is full.
const GROUPS: usize = FILE_BYTES / 64;

fn odometer(other: &mut dyn Other) {
    for group in 0..GROUPS {
        other.append(8 * group, &ENTRIES);
    }
    other.clear();
}

/// What is stored is there.
fn check_other(name: &str, other: &mut dyn Other) -> Result<(), String> {
    let require = |holds: bool, what: &str| {
        if holds {
            Ok(())
        } else {
            Err(format!("{name}: {what}"))
        }
    };
    other.serial(&[b'-'; 12]);
    other.serial(SERIAL);
    require(other.stored_serial() == SERIAL, "the serial is another")?;
    for group in 0..GROUPS {
        other.append(8 * group, &ENTRIES);
    }
    require(other.entries() == 8 * GROUPS, "entries are missing")?;
    other.clear();
    require(other.entries() == 0, "entries are left")?;
    odometer(other);
    require(other.entries() == 0, "entries are left")?;
    let bytes: [u8; FILE_BYTES] = std::array::from_fn(|i| (i / 7) as u8);
    other.fill(&[9; FILE_BYTES]);
    other.fill(&bytes);
    let mut buffer = [0; FILE_BYTES];
    other.read(&mut buffer);
    require(buffer == bytes, "the file has other bytes")
}

/// A scenario of the others.
struct OtherScenario {
    /// The start of the name of the store's scenario.
    start: &'static str,
    /// What one operation is.
    operation: &'static str,
    /// Operations of one pass.
    operations: usize,
    /// Bytes that the caller gives or gets in one pass.
    payload: usize,
    /// One pass.
    pass: fn(&mut dyn Other),
}

const OTHER_SCENARIOS: [OtherScenario; 4] = [
    OtherScenario {
        start: "serial",
        operation: "write 12 bytes and sync",
        operations: 16,
        payload: 16 * 12,
        pass: |other| {
            for _ in 0..16 {
                other.serial(black_box(SERIAL));
            }
        },
    },
    OtherScenario {
        start: "odometer",
        operation: "append 8 times 8 bytes and sync; once in 65, clear and sync",
        operations: GROUPS + 1,
        payload: FILE_BYTES,
        pass: odometer,
    },
    OtherScenario {
        start: "fill",
        operation: "write 16 pages and sync",
        operations: 1,
        payload: FILE_BYTES,
        pass: |other| other.fill(black_box(&[7; FILE_BYTES])),
    },
    OtherScenario {
        start: "read 4,096 bytes, none",
        operation: "read 4,096 bytes",
        operations: 16,
        payload: 16 * FILE_BYTES,
        pass: |other| {
            let mut buffer = [0; FILE_BYTES];
            for _ in 0..16 {
                other.read(black_box(&mut buffer));
            }
        },
    },
];

impl OtherScenario {
    /// Operations and payload bytes a second, as cells of the table.
    fn rates(&self, time: f64) -> String {
        let per_second = |number: usize| scaled(number as f64 / time);
        format!(
            "{} | {}",
            per_second(self.operations),
            per_second(self.payload)
        )
    }
}

fn table_of_others(
    proved: &[(&str, Row)],
    others: &mut [Named],
    effort: Effort,
    out: &mut impl Write,
) -> io::Result<()> {
    for (name, _) in others.iter().filter(|(_, other)| other.is_none()) {
        writeln!(out, "{name}: not installed, skipped\n")?;
    }
    writeln!(
        out,
        "| one operation | kept by | operations/s | payload bytes/s | time, over the proved store |"
    )?;
    writeln!(out, "|---|---|--:|--:|--:|")?;
    for scenario in OTHER_SCENARIOS {
        let mut rows = proved.iter();
        let Some((_, row)) = rows.find(|(name, _)| name.starts_with(scenario.start)) else {
            continue;
        };
        writeln!(
            out,
            "| {} | the proved store, in memory | {} | 1 |",
            scenario.operation,
            scenario.rates(row.proved),
        )?;
        for (kept_by, other) in others.iter_mut() {
            let Some(other) = other else {
                continue;
            };
            let mut sides: [Side<'_>; 1] = [Box::new(|passes| {
                for _ in 0..passes {
                    (scenario.pass)(other.as_mut());
                }
            })];
            let time = median(&measure(&mut sides, effort)[0]);
            writeln!(
                out,
                "| | {kept_by} | {} | {} |",
                scenario.rates(time),
                scaled(time / row.proved),
            )?;
            out.flush()?;
        }
    }
    writeln!(
        out,
        "\nThe others keep their files on a RAM disk (/dev/shm) and make system calls; the store makes none, and its media \
         here are memory. So this compares what they cost beside the disk, and not the disk. An operation that writes is \
         one commit; the payload is what the caller gives or gets. LMDB has its usual settings, SQLite journal_mode=WAL \
         and synchronous=FULL. pwrite with fdatasync is not safe against a torn write; LMDB and SQLite are; the store \
         presumes that the part does each page whole or not at all."
    )
}

#[cfg(test)]
mod tests {
    use super::*;

    #[test]
    fn looks_that_find_no_byte_are_alike() {
        let look = Step::Look {
            file: 0,
            position: 0,
        };
        assert!(same_answer(look, 5 << 32, 0));
        assert!(!same_answer(look, 5 << 32 | 1, 6 << 32 | 1));
        assert!(!same_answer(look, 5 << 32 | 1, 5 << 32));
        assert!(!same_answer(Step::Mount, 5 << 32, 0));
        assert!(same_answer(Step::Mount, 3, 3));
    }

    /// An operation of the store is a sync with the calls before it, or a read.
    #[test]
    fn operations_and_payload_are_those_of_the_store() {
        let scenarios = scenario::all();
        for other in OTHER_SCENARIOS {
            let mut scenarios = scenarios.iter();
            let scenario = scenarios
                .find(|scenario| scenario.name.starts_with(other.start))
                .expect("there is one");
            let (mut operations, mut payload) = (0, 0);
            for &step in &scenario.steps {
                match step {
                    Step::Sync { .. } => operations += 1,
                    Step::Write { length, .. } => payload += length,
                    Step::Read { length, .. } => {
                        operations += 1;
                        payload += length;
                    }
                    _ => {}
                }
            }
            assert_eq!(
                (other.operations, other.payload),
                (operations, payload),
                "{}",
                other.start
            );
        }
    }

    #[test]
    fn numbers_have_three_digits() {
        let numbers = [0.594, 12.34, 999.4, 1_234.0, 45_678.0, 3_456_789.0, 4.2e9];
        let texts = numbers.map(scaled);
        assert_eq!(
            texts,
            ["0.59", "12.3", "999", "1.23 k", "45.7 k", "3.46 M", "4.20 G"]
        );
    }
}
