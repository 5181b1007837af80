//! The session program: its example, its grammar and its handling of input.

use std::io::{self, Read, Write};
use std::process::{Command as Process, Stdio};

use reference::session::{run, run_bytes, Command, HEADER};

/// The output lines of a session, without the header.
fn answers(input: &[u8]) -> Vec<String> {
    let output = String::from_utf8(run_bytes(input)).unwrap();
    let body = output.strip_prefix("answer,count,bytes\n").unwrap();
    assert!(body.is_empty() || body.ends_with('\n'));
    body.lines().map(str::to_owned).collect()
}

/// The answer to one line of a fresh session.
fn answer(line: &[u8]) -> String {
    let mut lines = answers(line);
    assert_eq!(lines.len(), 1, "{}", line.escape_ascii());
    lines.pop().unwrap()
}

const EXAMPLE_IN: &[u8] = b"M,0\nW,1,0,300,65\nR,1,254,4\nS,1,2\nM,1\nR,1,0,4\nT,8,0\n";
const EXAMPLE_OUT: &[u8] =
    b"answer,count,bytes\n0,0,\n0,300,\n0,4,41414141\n9,2,\n0,1,\n0,0,\n6,0,\n";

#[test]
fn example() {
    assert_eq!(run_bytes(EXAMPLE_IN), EXAMPLE_OUT);
    let without_last_lf = &EXAMPLE_IN[..EXAMPLE_IN.len() - 1];
    assert_eq!(run_bytes(without_last_lf), EXAMPLE_OUT);
}

#[test]
fn empty_input_and_empty_lines() {
    assert_eq!(run_bytes(b""), HEADER);
    assert_eq!(answers(b"\n"), ["1,0,"]);
    assert_eq!(answers(b"\n\n\n"), ["1,0,", "1,0,", "1,0,"]);
    assert_eq!(answers(b"M,0\n\nM,0"), ["0,0,", "1,0,", "0,0,"]);
    assert_eq!(answers(b"M,0\nM,0"), ["0,0,", "0,0,"]);
    assert_eq!(answers(b"M,0\nM,0\n"), ["0,0,", "0,0,"]);
    assert_eq!(answers(b"M,0\nM,0\n\n"), ["0,0,", "0,0,", "1,0,"]);
}

#[test]
fn starts_blank_and_down() {
    let down = answers(b"W,0,0,1,1\nT,0,0\nS,0,0\nR,0,0,1\nF,0\nR,0,0,1\nM,0\nR,0,0,1");
    assert_eq!(
        down,
        ["5,0,", "5,0,", "5,0,", "5,0,", "0,0,", "5,0,", "0,0,", "0,0,"]
    );
}

#[test]
fn each_answer_of_a_session() {
    let input = b"R,0,0,1\nM,0\nx\nR,8,0,1\nR,0,4097,1\nW,0,0,4096,1\nW,1,0,2048,2\nW,2,0,1,3\n\
        W,1,2000,100,4\nW,2,0,0,3\nS,0,16\nF,0\n";
    assert_eq!(
        answers(input),
        [
            "5,0,", "0,0,", "1,0,", "6,0,", "7,0,", "0,4096,", "0,2048,", "8,0,", "0,48,", "0,0,",
            "9,16,", "9,0,"
        ]
    );
}

#[test]
fn bytes_are_printed_in_lower_case_hex() {
    let input = b"M,0\nW,0,0,2,171\nW,0,2,1,0\nW,0,3,1,10\nR,0,0,32\nR,0,3,1\nR,0,4,1\nR,0,0,0";
    assert_eq!(
        answers(input)[4..],
        ["0,4,abab000a", "0,1,0a", "0,0,", "0,0,"]
    );
    let input = b"M,0\nT,7,4096\nR,7,4064,32\nR,7,4065,32\nR,7,4096,32";
    assert_eq!(
        answers(input)[2..],
        [
            format!("0,32,{}", "00".repeat(32)),
            format!("0,31,{}", "00".repeat(31)),
            "0,0,".to_owned()
        ]
    );
}

#[test]
fn lines_of_every_form() {
    let lines: [(&[u8], Command); 9] = [
        (b"F,0", Command::Format { budget: 0 }),
        (b"F,65535", Command::Format { budget: 65535 }),
        (b"M,00000", Command::Mount { budget: 0 }),
        (b"M,00012", Command::Mount { budget: 12 }),
        (
            b"W,65535,65535,4096,255",
            Command::Write {
                file: 65535,
                position: 65535,
                length: 4096,
                byte: 255,
            },
        ),
        (
            b"W,00001,00002,04096,00255",
            Command::Write {
                file: 1,
                position: 2,
                length: 4096,
                byte: 255,
            },
        ),
        (
            b"T,65535,65535",
            Command::Truncate {
                file: 65535,
                size: 65535,
            },
        ),
        (
            b"S,7,65535",
            Command::Sync {
                file: 7,
                budget: 65535,
            },
        ),
        (
            b"R,7,65535,00032",
            Command::Read {
                file: 7,
                position: 65535,
                length: 32,
            },
        ),
    ];
    for (line, command) in lines {
        assert_eq!(Command::parse(line), Some(command));
        assert_ne!(answer(line), "1,0,");
    }
}

#[test]
fn lines_of_no_form() {
    let long_valid_start = format!("M,0{}", " ".repeat(38));
    let lines: &[&[u8]] = &[
        // Digits and limits, just past.
        b"F,000000",
        b"M,000000",
        b"M,65536",
        b"M,99999",
        b"F,65536",
        b"M,100000",
        b"W,65536,0,1,1",
        b"W,0,65536,1,1",
        b"W,0,0,4097,1",
        b"W,0,0,1,256",
        b"W,0,0,1,000255",
        b"T,65536,0",
        b"T,0,65536",
        b"S,65536,0",
        b"S,0,65536",
        b"R,65536,0,1",
        b"R,0,65536,1",
        b"R,0,0,33",
        b"R,0,0,000032",
        // Fields missing, too many, or empty.
        b"F",
        b"M",
        b"W",
        b"F,",
        b"M,",
        b",",
        b",0",
        b"M,0,",
        b"M,,0",
        b"M,0,0",
        b"F,0,0",
        b"W,0,0,1",
        b"W,0,0,1,1,1",
        b"W,0,,1,1",
        b"W,,0,1,1",
        b"W,0,0,1,",
        b"W,0,0,1,1,",
        b"T,0",
        b"T,0,0,0",
        b"S,0",
        b"S,0,0,0",
        b"R,0,0",
        b"R,0,0,1,1",
        b"R,0,0,",
        // Letters.
        b"m,0",
        b"f,0",
        b"w,0,0,1,1",
        b"t,0,0",
        b"s,0,0",
        b"r,0,0,1",
        b"A,0",
        b"L,0,0",
        b"MM,0",
        b"M0",
        b"0,0",
        b"M;0",
        b"M.0",
        b"answer,count,bytes",
        // Spaces, signs, other bytes.
        b" M,0",
        b"M ,0",
        b"M, 0",
        b"M,0 ",
        b"M,0\t",
        b"M,0\r",
        b"\r",
        b"\0",
        b"M,0\0",
        b"\0M,0",
        b"M,+1",
        b"M,-1",
        b"M,-0",
        b"M,1_0",
        b"M,1.0",
        b"M,0x1",
        b"M,1e1",
        b"M,/",
        b"M,:",
        b"M,\xff",
        b"\xffM,0",
        b"M,\xd9\xa1",
        b"M,\xef\xbc\x91",
        b"\xef\xbb\xbfM,0",
        b"\"M\",\"0\"",
        b"M,0M,0",
        // Length.
        long_valid_start.as_bytes(),
    ];
    for line in lines {
        assert_eq!(Command::parse(line), None, "{}", line.escape_ascii());
        assert_eq!(answer(line), "1,0,", "{}", line.escape_ascii());
        // The session goes on as if the line had not been there.
        let session = [b"M,0\nW,0,0,2,7\n", *line, b"\nR,0,0,2\n"].concat();
        assert_eq!(answers(&session)[2..], ["1,0,", "0,2,0707"]);
    }
}

#[test]
fn lines_of_40_bytes_and_more() {
    for length in [
        39, 40, 41, 42, 4095, 4096, 4097, 65_535, 65_536, 65_537, 200_000,
    ] {
        for fill in [b'0', b' ', b',', b'x', 0, 255, b'\r'] {
            let mut line = b"M,0".to_vec();
            line.resize(length, fill);
            assert_eq!(answer(&line), "1,0,");
            let session = [&line, &b"\nM,0\n"[..], &line].concat();
            assert_eq!(answers(&session), ["1,0,", "0,0,", "1,0,"]);
        }
    }
}

#[test]
fn a_line_is_refused_before_anything_else() {
    // Each would be DOWN or NO FILE or RANGE if it had a form.
    assert_eq!(answers(b"W,8,5000,1,256"), ["1,0,"]);
    assert_eq!(
        answers(b"M,0\nR,8,5000,33\nW,0,4096,4097,1"),
        ["0,0,", "1,0,", "1,0,"]
    );
}

/// Gives a few bytes at a time, and an interrupted call before each.
struct Drip<'a> {
    bytes: &'a [u8],
    step: usize,
    interrupted: bool,
}

impl Read for Drip<'_> {
    fn read(&mut self, buffer: &mut [u8]) -> io::Result<usize> {
        self.interrupted = !self.interrupted;
        if self.interrupted {
            return Err(io::ErrorKind::Interrupted.into());
        }
        let count = self.step.min(self.bytes.len()).min(buffer.len());
        buffer[..count].copy_from_slice(&self.bytes[..count]);
        self.bytes = &self.bytes[count..];
        Ok(count)
    }
}

#[test]
fn input_in_pieces() {
    let mut long = EXAMPLE_IN.to_vec();
    long.extend(std::iter::repeat_n(b'x', 1000));
    long.extend_from_slice(b"\nR,0,0,1");
    for step in [1, 2, 3, 7, 41, 1000] {
        let mut output = Vec::new();
        let input = Drip {
            bytes: &long,
            step,
            interrupted: false,
        };
        run(input, &mut output).unwrap();
        assert_eq!(output, [EXAMPLE_OUT, b"1,0,\n0,0,\n"].concat());
    }
}

#[test]
fn lines_across_the_blocks_of_the_reader() {
    // Lines of 4 bytes after a first line of every length modulo 4.
    for shift in 0..4 {
        let mut input = vec![b'x'; shift];
        input.push(b'\n');
        let count = 100_000;
        for _ in 0..count {
            input.extend_from_slice(b"M,0\n");
        }
        let lines = answers(&input);
        assert_eq!(lines.len(), count + 1);
        assert!(lines[1..].iter().all(|line| line == "0,0,"));
    }
}

/// The most memory that a process has had, in kB. Known on Linux only.
fn peak_memory(process: u32) -> Option<usize> {
    let status = std::fs::read_to_string(format!("/proc/{process}/status")).ok()?;
    let line = status
        .lines()
        .find_map(|line| line.strip_prefix("VmHWM:"))?;
    line.trim().strip_suffix(" kB")?.parse().ok()
}

#[test]
fn a_line_of_256_megabytes_is_not_kept() {
    let mut child = Process::new(env!("CARGO_BIN_EXE_reference"))
        .stdin(Stdio::piped())
        .stdout(Stdio::piped())
        .spawn()
        .unwrap();
    let mut stdin = child.stdin.take().unwrap();
    let part = vec![b'0'; 1 << 20];
    for _ in 0..256 {
        stdin.write_all(&part).unwrap();
    }
    let peak = peak_memory(child.id());
    stdin.write_all(b"\nM,0").unwrap();
    drop(stdin);
    let output = child.wait_with_output().unwrap();
    assert_eq!(output.stdout, [HEADER, b"1,0,\n0,0,\n"].concat());
    if let Some(peak) = peak {
        assert!(peak < 32 << 10, "{peak} kB");
    }
}

#[test]
fn errors_are_passed_on() {
    struct Broken;
    impl Read for Broken {
        fn read(&mut self, _: &mut [u8]) -> io::Result<usize> {
            Err(io::ErrorKind::ConnectionReset.into())
        }
    }
    impl Write for Broken {
        fn write(&mut self, _: &[u8]) -> io::Result<usize> {
            Err(io::ErrorKind::BrokenPipe.into())
        }
        fn flush(&mut self) -> io::Result<()> {
            Ok(())
        }
    }
    let mut output = Vec::new();
    let error = run((&b"M,0\n"[..]).chain(Broken), &mut output).unwrap_err();
    assert_eq!(error.kind(), io::ErrorKind::ConnectionReset);
    assert_eq!(output, [HEADER, b"0,0,\n"].concat());
    let error = run(&b"M,0\n"[..], Broken).unwrap_err();
    assert_eq!(error.kind(), io::ErrorKind::BrokenPipe);
}

#[test]
fn the_binary_runs_the_example() {
    let mut child = Process::new(env!("CARGO_BIN_EXE_reference"))
        .stdin(Stdio::piped())
        .stdout(Stdio::piped())
        .stderr(Stdio::piped())
        .spawn()
        .unwrap();
    child.stdin.take().unwrap().write_all(EXAMPLE_IN).unwrap();
    let output = child.wait_with_output().unwrap();
    assert!(output.status.success());
    assert_eq!(output.stdout, EXAMPLE_OUT);
    assert!(output.stderr.is_empty());
}

#[test]
fn the_binary_reports_a_closed_pipe() {
    let mut child = Process::new(env!("CARGO_BIN_EXE_reference"))
        .stdin(Stdio::piped())
        .stdout(Stdio::piped())
        .stderr(Stdio::piped())
        .spawn()
        .unwrap();
    drop(child.stdout.take());
    let mut stdin = child.stdin.take().unwrap();
    // The child may end before it has read everything.
    let _ = stdin.write_all(&b"M,0\n".repeat(100_000));
    drop(stdin);
    let output = child.wait_with_output().unwrap();
    assert_eq!(output.status.code(), Some(1));
    let message = String::from_utf8(output.stderr).unwrap();
    assert!(message.starts_with("reference: "), "{message}");
    assert!(!message.contains("panicked"), "{message}");
}
