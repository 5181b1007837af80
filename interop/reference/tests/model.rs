//! The model files, and `explained` against a search through all choices.

mod common;

use std::collections::HashSet;
use std::time::Instant;

use common::{refused, runs, Rng};
use reference::model::{explained, put, Entry, ModelFile};
use reference::store::{Answer, Refusal};

/// Every file that `durable` can become by the log.
fn outcomes(durable: &[u8], log: &[Entry]) -> HashSet<Vec<u8>> {
    let mut files = HashSet::from([durable.to_vec()]);
    for entry in log {
        let mut next = files.clone();
        for file in &files {
            match entry {
                Entry::Write { position, bytes } => {
                    for count in 1..=bytes.len() {
                        let mut changed = file.clone();
                        put(&mut changed, *position, &bytes[..count]);
                        next.insert(changed);
                    }
                }
                Entry::Truncate { size } => {
                    let mut changed = file.clone();
                    changed.resize(*size, 0);
                    next.insert(changed);
                }
            }
        }
        files = next;
    }
    files
}

fn random_bytes(rng: &mut Rng, length: usize, values: usize) -> Vec<u8> {
    (0..length).map(|_| rng.below(values) as u8).collect()
}

fn random_log(rng: &mut Rng, length: usize, size: usize, values: usize) -> Vec<Entry> {
    (0..length)
        .map(|_| {
            if rng.one_in(3) {
                Entry::Truncate {
                    size: rng.below(size + 1),
                }
            } else {
                let position = rng.below(size);
                let count = 1 + rng.below(size - position);
                Entry::Write {
                    position,
                    bytes: random_bytes(rng, count, values),
                }
            }
        })
        .collect()
}

/// Every file of up to `size` bytes below `values`.
fn all_files(size: usize, values: u8) -> Vec<Vec<u8>> {
    let mut files = vec![vec![]];
    let mut longest = files.clone();
    for _ in 0..size {
        longest = longest
            .iter()
            .flat_map(|file| {
                (0..values).map(move |byte| {
                    let mut longer = file.clone();
                    longer.push(byte);
                    longer
                })
            })
            .collect();
        files.extend(longest.iter().cloned());
    }
    files
}

/// For small logs, the verdict on every file there is.
#[test]
fn explained_is_exact_on_all_small_files() {
    let mut rng = Rng(1);
    let (mut yes, mut no) = (0, 0);
    for (size, values, cases) in [(3, 3, 4000), (4, 2, 3000), (5, 2, 1500)] {
        let files = all_files(size, values);
        for _ in 0..cases {
            let durable = rng.below(files.len());
            let durable = &files[durable];
            let length = rng.below(10);
            let log = random_log(&mut rng, length, size, usize::from(values));
            let possible = outcomes(durable, &log);
            for found in &files {
                let expected = possible.contains(found);
                assert_eq!(
                    explained(durable, &log, found),
                    expected,
                    "{durable:?} {log:?} {found:?}"
                );
                if expected {
                    yes += 1;
                } else {
                    no += 1;
                }
            }
        }
    }
    assert!(yes > 50_000 && no > 50_000, "{yes} yes, {no} no");
}

/// For longer logs and files, files near the possible ones.
#[test]
fn explained_is_exact_near_the_possible_files() {
    let mut rng = Rng(2);
    let (mut yes, mut no) = (0, 0);
    for _ in 0..1500 {
        let size = 6 + rng.below(4);
        let length = rng.below(size + 1);
        let durable = random_bytes(&mut rng, length, 3);
        let length = 1 + rng.below(9);
        let log = random_log(&mut rng, length, size, 3);
        let possible = outcomes(&durable, &log);
        let mut picks: Vec<&Vec<u8>> = possible.iter().collect();
        picks.sort();
        for _ in 0..20 {
            let mut found = rng.pick(&picks).clone();
            match rng.below(4) {
                0 => {}
                1 => found.resize(rng.below(size + 1), 0),
                _ if found.is_empty() => found.push(1),
                _ => {
                    let index = rng.below(found.len());
                    found[index] = rng.below(3) as u8;
                }
            }
            let expected = possible.contains(&found);
            assert_eq!(
                explained(&durable, &log, &found),
                expected,
                "{durable:?} {log:?} {found:?}"
            );
            if expected {
                yes += 1;
            } else {
                no += 1;
            }
        }
    }
    assert!(yes > 5000 && no > 5000, "{yes} yes, {no} no");
}

#[test]
fn explained_knows_prefixes_gaps_and_left_out_truncates() {
    let write = |position, bytes: &[u8]| Entry::Write {
        position,
        bytes: bytes.to_vec(),
    };
    let truncate = |size| Entry::Truncate { size };
    assert!(explained(b"old", &[], b"old"));
    assert!(!explained(b"old", &[], b"ol"));
    assert!(!explained(b"", &[], b"\0"));
    let log = [write(0, b"NEW")];
    for found in [b"old", b"Nld", b"NEd", b"NEW"] {
        assert!(explained(b"old", &log, found));
    }
    for found in [b"oEW", b"NlW", b"olW"] {
        assert!(!explained(b"old", &log, found));
    }
    // A write behind the end brings its zeros with its first byte only.
    let log = [write(5, b"xy")];
    assert!(explained(b"old", &log, b"old\0\0x"));
    assert!(explained(b"old", &log, b"old\0\0xy"));
    assert!(!explained(b"old", &log, b"old\0\0"));
    assert!(!explained(b"old", &log, b"oldddx"));
    // A cut and an extension: old bytes do not come back unless both are out.
    let log = [truncate(1), truncate(3)];
    for found in [&b"old"[..], b"o", b"o\0\0"] {
        assert!(explained(b"old", &log, found));
    }
    assert!(!explained(b"old", &log, b"ol\0"));
    // The truncate cannot be left out if the tail is gone.
    assert!(!explained(b"oldest", &[write(0, b"NEW")], b"NEW"));
    assert!(explained(
        b"oldest",
        &[truncate(0), write(0, b"NEW")],
        b"NE"
    ));
    // Order counts.
    assert!(!explained(b"", &[write(0, b"ab"), truncate(1)], b"a\0"));
    assert!(explained(b"", &[truncate(2), write(0, b"a")], b"a\0"));
    // A truncate past all bytes.
    assert!(explained(b"", &[truncate(9)], &[0; 9]));
    assert!(explained(b"", &[truncate(9), truncate(0)], b""));
}

#[test]
fn explained_is_fast_on_long_logs() {
    let mut rng = Rng(3);
    let log = random_log(&mut rng, 20_000, 4096, 3);
    let mut file = ModelFile::default();
    for entry in &log {
        match entry {
            Entry::Write { position, bytes } => {
                file.write(*position, bytes, Answer::Done(bytes.len()));
            }
            Entry::Truncate { size } => file.truncate(*size, Answer::Done(0)),
        }
    }
    let start = Instant::now();
    assert!(file.explains(&file.current));
    assert!(file.explains(&[]));
    assert!(!file.explains(&[77; 4096]));
    assert!(start.elapsed().as_secs() < 20);
}

#[test]
fn model_file_follows_the_answers() {
    let mut file = ModelFile::default();
    file.mount(b"abc");
    assert_eq!(
        (&file.current[..], &file.durable[..]),
        (&b"abc"[..], &b"abc"[..])
    );
    file.write(5, b"xyz", Answer::Done(2));
    assert_eq!(file.current, b"abc\0\0xy");
    file.write(1, b"Q", Answer::Done(0));
    file.write(1, b"Q", refused(Refusal::NoRoom));
    file.truncate(0, refused(Refusal::Range));
    file.sync(refused(Refusal::Cut(1)));
    assert_eq!(file.current, b"abc\0\0xy");
    assert_eq!(file.durable, b"abc");
    assert_eq!(
        file.log,
        [Entry::Write {
            position: 5,
            bytes: b"xy".to_vec()
        }]
    );
    file.truncate(2, Answer::Done(0));
    file.truncate(4, Answer::Done(0));
    assert_eq!(file.current, b"ab\0\0");
    assert_eq!(file.log.len(), 3);
    assert!(file.explains(b"ab"));
    assert!(!file.explains(b"abc\0\0xyz"));
    file.sync(Answer::Done(4));
    assert_eq!(file.durable, b"ab\0\0");
    assert!(file.log.is_empty());
    file.write(0, b"c", Answer::Done(1));
    file.mount(&runs(&[(2, b'z')]));
    assert_eq!(
        (&file.current[..], &file.durable[..]),
        (&b"zz"[..], &b"zz"[..])
    );
    assert!(file.log.is_empty());
}
