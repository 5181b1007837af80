//! The reference session program with a fault, chosen by the environment
//! variable `SESSION_FAULT`. Without it there is none.

use std::io::{self, Read, Write};
use std::time::Duration;

use reference::session::{run, run_bytes};

fn main() {
    let fault = std::env::var("SESSION_FAULT").unwrap_or_default();
    let mut input = Vec::new();
    let mut stdin = io::stdin().lock();
    let mut stdout = io::stdout().lock();
    match fault.as_str() {
        "" => run(stdin, stdout).unwrap(),
        // Answers rightly, and then crashes if file 3 was synced.
        "abort" => {
            stdin.read_to_end(&mut input).unwrap();
            stdout.write_all(&run_bytes(&input)).unwrap();
            stdout.flush().unwrap();
            if input.windows(4).any(|part| part == b"S,3,") {
                std::process::abort();
            }
        }
        "status" => {
            stdin.read_to_end(&mut input).unwrap();
            stdout.write_all(&run_bytes(&input)).unwrap();
            stdout.flush().unwrap();
            std::process::exit(3);
        }
        "stderr" => {
            run(stdin, stdout).unwrap();
            eprintln!("warning: \u{fc}");
        }
        "hang" => {
            stdin.read_to_end(&mut input).unwrap();
            stdout.write_all(&run_bytes(&input)).unwrap();
            stdout.flush().unwrap();
            std::thread::sleep(Duration::from_secs(3600));
        }
        // Never reads, so a long input does not fit into the pipe.
        "deaf" => std::thread::sleep(Duration::from_secs(3600)),
        "endless" => loop {
            if stdout.write_all(b"0,0,\n").is_err() {
                return;
            }
        },
        // Takes the end of each block it reads for the end of a line.
        "blocks" => {
            let mut block = [0; 1000];
            loop {
                let length = stdin.read(&mut block).unwrap();
                if length == 0 {
                    break;
                }
                input.extend_from_slice(&block[..length]);
                if !input.ends_with(b"\n") {
                    input.push(b'\n');
                }
            }
            stdout.write_all(&run_bytes(&input)).unwrap();
        }
        // Takes a read that does not fill its buffer for the last one.
        "short" => {
            let mut block = vec![0; 1 << 16];
            loop {
                let length = stdin.read(&mut block).unwrap();
                input.extend_from_slice(&block[..length]);
                if length < block.len() {
                    break;
                }
            }
            stdout.write_all(&run_bytes(&input)).unwrap();
        }
        other => panic!("unknown fault {other}"),
    }
}
