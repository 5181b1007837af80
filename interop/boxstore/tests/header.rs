//! boxstore.h and this crate say the same.

use boxstore::Error;

const HEADER: &str = include_str!("../../boxstore.h");

/// What the header defines a name as.
fn defined(name: &str) -> &'static str {
    let mut found = HEADER
        .lines()
        .filter_map(|line| line.strip_prefix("#define BOXSTORE_")?.split_once(' '))
        .filter(|(defined, _)| *defined == name);
    let (_, value) = found.next().expect(name);
    assert_eq!(found.next(), None, "{name}");
    value
}

/// The texts that a function of the header has for the answers, by name of the
/// answer.
fn texts(function: &str) -> Vec<(&'static str, &'static str)> {
    let (_, body) = HEADER
        .split_once(&format!("*{function}(uint32_t answer)"))
        .expect(function);
    let (body, _) = body.split_once("default:").expect(function);
    body.lines()
        .filter_map(|line| line.trim().strip_prefix("case BOXSTORE_"))
        .map(|line| line.split_once(": return \"").expect(line))
        .map(|(answer, text)| (answer, text.strip_suffix("\";").expect(text)))
        .collect()
}

/// The numbers of the answers, by name.
fn numbers() -> Vec<(&'static str, u32)> {
    let (_, list) = HEADER.split_once("enum boxstore_answer_number {").unwrap();
    let (list, _) = list.split_once('}').unwrap();
    list.split(',')
        .map(|line| line.trim().split_once(" = ").expect(line))
        .map(|(name, number)| {
            let name = name.strip_prefix("BOXSTORE_").expect(name);
            (name, number.parse().expect(number))
        })
        .collect()
}

#[test]
fn the_version() {
    let version = defined("VERSION").trim_matches('"');
    assert_eq!(version, env!("CARGO_PKG_VERSION"));
}

#[test]
fn the_constants() {
    for (name, value) in [
        ("FILES", boxstore::FILES),
        ("PAGE_BYTES", boxstore::PAGE_BYTES),
        ("SLOTS", boxstore::SLOTS),
        ("FILE_BYTES", boxstore::FILE_BYTES),
        ("MEDIA_BYTES", boxstore::MEDIA_BYTES),
        ("FRAMES_BYTES", boxstore::FRAMES_BYTES),
        ("STATE_BYTES", boxstore::STATE_BYTES),
        ("LIST_BYTES", boxstore::LIST_BYTES),
        ("STATE_MOUNTED", boxstore::STATE_MOUNTED),
        ("STATE_SLOTS", boxstore::STATE_SLOTS),
        ("STATE_LOGICAL", boxstore::STATE_LOGICAL),
        ("STATE_FLOOR", boxstore::STATE_FLOOR),
        ("SYNC_WRITES", boxstore::SYNC_WRITES),
        ("MOUNT_WRITES", boxstore::MOUNT_WRITES),
    ] {
        assert_eq!(defined(name).parse(), Ok(value), "{name}");
    }
}

#[test]
fn the_answers() {
    let (numbers, names, meanings) = (numbers(), texts("boxstore_name"), texts("boxstore_meaning"));
    assert_eq!(numbers.len(), 13);
    assert_eq!((names.len(), meanings.len()), (13, 13));
    assert_eq!(numbers[0], ("DONE", 0));
    assert_eq!((names[0].0, meanings[0].0), ("DONE", "DONE"));
    for (i, &(answer, number)) in numbers.iter().enumerate().skip(1) {
        assert_eq!((names[i].0, meanings[i].0), (answer, answer));
        let error = Error::decode(65_536 * number).unwrap_err();
        let (head, meaning) = (format!("{} ({number}): ", names[i].1), meanings[i].1);
        let text = error.to_string();
        let rest = text.strip_prefix(&head).expect(&text);
        // the crate tells of a cut how many writes were done
        match error {
            Error::Cut { done: 0 } => assert!(rest.ends_with("; the device is down"), "{text}"),
            _ => assert_eq!(rest, meaning),
        }
    }
}
