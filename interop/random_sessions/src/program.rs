//! Programs under test: anything that turns the input of a session into its
//! output, in this process or in another.

use std::io::{self, Read, Write};
use std::path::PathBuf;
use std::process::{Child, Command, Stdio};
use std::sync::mpsc;
use std::thread;
use std::time::{Duration, Instant};

use crate::rng::Rng;

/// How the input is fed.
#[derive(Clone, Copy, Debug, PartialEq, Eq)]
pub enum Feed {
    /// As fast as it is taken.
    Whole,
    /// In odd-sized pieces with short pauses; the number chooses the sizes.
    Pieces(u64),
}

/// What came of a run.
#[derive(Clone, Debug, Default, PartialEq, Eq)]
pub struct Outcome {
    /// What the program printed.
    pub stdout: Vec<u8>,
    /// What else there is to say of it, such as a crash. Always a difference.
    pub problem: Option<String>,
}

/// A session program.
pub trait Program {
    /// Runs one session.
    fn run(&mut self, input: &[u8], feed: Feed) -> Outcome;
}

impl<F: FnMut(&[u8]) -> Vec<u8>> Program for F {
    fn run(&mut self, input: &[u8], _: Feed) -> Outcome {
        Outcome {
            stdout: self(input),
            problem: None,
        }
    }
}

/// A program that is run as a process of its own for each session.
#[derive(Clone, Debug)]
pub struct Executable {
    /// The program.
    pub path: PathBuf,
    /// Environment variables it gets beside those of this process.
    pub variables: Vec<(String, String)>,
    /// The longest a session may take.
    pub timeout: Duration,
}

/// The most standard error that is kept.
const STDERR_KEPT: u64 = 4096;

impl Executable {
    /// A program with the environment of this process.
    pub fn new(path: impl Into<PathBuf>, timeout: Duration) -> Self {
        Executable {
            path: path.into(),
            variables: Vec::new(),
            timeout,
        }
    }

    fn start(&self) -> io::Result<Child> {
        Command::new(&self.path)
            .envs(self.variables.iter().cloned())
            .stdin(Stdio::piped())
            .stdout(Stdio::piped())
            .stderr(Stdio::piped())
            .spawn()
    }
}

impl Program for Executable {
    fn run(&mut self, input: &[u8], feed: Feed) -> Outcome {
        let mut child = match self.start() {
            Ok(child) => child,
            Err(error) => {
                return Outcome {
                    stdout: Vec::new(),
                    problem: Some(format!("cannot be started: {error}")),
                }
            }
        };
        let deadline = Instant::now() + self.timeout;
        let mut stdin = child.stdin.take().expect("stdin is a pipe");
        let stdout = child.stdout.take().expect("stdout is a pipe");
        let stderr = child.stderr.take().expect("stderr is a pipe");

        // The threads are not joined: a process that outlives its parent may
        // keep a pipe open for ever.
        let owned = input.to_vec();
        thread::spawn(move || {
            // A program that ends early closes the pipe; its output tells.
            let _ = feed_all(&mut stdin, &owned, feed);
        });
        let output_max = output_limit(input);
        let stdout = collect(stdout, output_max);
        let stderr = collect(stderr, STDERR_KEPT);

        let mut problems = Vec::new();
        let printed = receive(&stdout, deadline);
        let complained = receive(&stderr, deadline);
        match wait(&mut child, deadline) {
            Ok(Some(status)) if status.success() => {}
            Ok(Some(status)) => problems.push(status.to_string()),
            Ok(None) => problems.push(format!("still running after {:?}", self.timeout)),
            Err(error) => problems.push(format!("cannot be waited for: {error}")),
        }
        let timed_out = printed.is_none() || complained.is_none();
        if timed_out && problems.is_empty() {
            problems.push(format!("output not closed after {:?}", self.timeout));
        }
        // After a timeout the child has been ended, which ends its output.
        let last = Instant::now() + Duration::from_millis(200);
        let printed = printed.or_else(|| receive(&stdout, last));
        let complained = complained.or_else(|| receive(&stderr, last));
        let printed = printed.unwrap_or_default();
        if printed.len() as u64 == output_max {
            problems.push("prints without end".to_owned());
        }
        if let Some(text) = complained.filter(|text| !text.is_empty()) {
            problems.push(format!("standard error: {}", text.escape_ascii()));
        }
        Outcome {
            stdout: printed,
            problem: (!problems.is_empty()).then(|| problems.join("; ")),
        }
    }
}

/// More output than any right program has for this input.
fn output_limit(input: &[u8]) -> u64 {
    let lines = input.iter().filter(|&&byte| byte == b'\n').count() as u64 + 1;
    lines * 80 + 4096
}

/// Waits for the end of a child, and ends it at the deadline.
fn wait(child: &mut Child, deadline: Instant) -> io::Result<Option<std::process::ExitStatus>> {
    let mut pause = Duration::from_micros(50);
    loop {
        if let Some(status) = child.try_wait()? {
            return Ok(Some(status));
        }
        if Instant::now() >= deadline {
            child.kill()?;
            child.wait()?;
            return Ok(None);
        }
        thread::sleep(pause);
        pause = (pause * 2).min(Duration::from_millis(5));
    }
}

/// Reads a pipe to its end, or to a limit, in a thread.
fn collect(pipe: impl Read + Send + 'static, limit: u64) -> mpsc::Receiver<Vec<u8>> {
    let (sender, receiver) = mpsc::channel();
    thread::spawn(move || {
        let mut bytes = Vec::new();
        // What was read before an error is compared like any output.
        let _ = pipe.take(limit).read_to_end(&mut bytes);
        let _ = sender.send(bytes);
    });
    receiver
}

fn receive(receiver: &mpsc::Receiver<Vec<u8>>, deadline: Instant) -> Option<Vec<u8>> {
    receiver
        .recv_timeout(deadline.saturating_duration_since(Instant::now()))
        .ok()
}

/// The pause after the first piece, for the program to start and wait for more.
const FIRST_PAUSE: Duration = Duration::from_millis(5);
/// The pause after a later piece.
const PAUSE: Duration = Duration::from_micros(100);
/// Pieces followed by a pause; the rest of a long input comes without.
const PAUSES: usize = 200;

fn feed_all(pipe: &mut impl Write, input: &[u8], feed: Feed) -> io::Result<()> {
    let Feed::Pieces(seed) = feed else {
        return pipe.write_all(input);
    };
    let mut rng = Rng::new(seed);
    let mut rest = input;
    let mut pieces = 0;
    while !rest.is_empty() {
        let size = match rng.below(4) {
            0 => rng.between(1, 7),
            1 => rng.between(8, 100),
            2 => rng.between(101, 1500),
            _ => rng.between(4090, 4100),
        };
        let (piece, after) = rest.split_at(size.min(rest.len()));
        pipe.write_all(piece)?;
        pipe.flush()?;
        rest = after;
        pieces += 1;
        match pieces {
            1 => thread::sleep(FIRST_PAUSE),
            2..=PAUSES => thread::sleep(PAUSE),
            _ => {}
        }
    }
    Ok(())
}

#[cfg(test)]
mod tests {
    use super::*;

    /// Keeps the pieces it is given apart.
    #[derive(Default)]
    struct Pieces(Vec<Vec<u8>>);

    impl Write for Pieces {
        fn write(&mut self, bytes: &[u8]) -> io::Result<usize> {
            self.0.push(bytes.to_vec());
            Ok(bytes.len())
        }
        fn flush(&mut self) -> io::Result<()> {
            Ok(())
        }
    }

    #[test]
    fn pieces_make_up_the_whole() {
        let input: Vec<u8> = (0..50_000_u32).map(|i| (i * 7 / 3) as u8).collect();
        for seed in 0..3 {
            let mut pieces = Pieces::default();
            feed_all(&mut pieces, &input, Feed::Pieces(seed)).unwrap();
            assert!(pieces.0.len() > 10);
            assert_eq!(pieces.0.concat(), input);
        }
        let mut pieces = Pieces::default();
        feed_all(&mut pieces, &input, Feed::Whole).unwrap();
        assert_eq!(pieces.0, [input]);
    }

    #[test]
    fn a_program_that_cannot_be_started() {
        let mut program = Executable::new("/no/such/program", Duration::from_secs(1));
        let problem = program.run(b"", Feed::Whole).problem.unwrap();
        assert!(problem.starts_with("cannot be started"), "{problem}");
    }
}
