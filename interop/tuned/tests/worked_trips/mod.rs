//! Trip lists, worked by hand, for the calls of whichever module includes this.

use std::collections::BTreeMap;

use layout::LIST_BYTES;
use random_sessions::rng::Rng;

use super::calls::{join_trips, next_trip, read_trip, write_trips};

const SHAPE: u32 = 2 << 16;
const RANGE: u32 = 7 << 16;
const TRIP_FORM: u32 = 10 << 16;
const TRIP_ORDER: u32 = 11 << 16;
const TRIP_CONFLICT: u32 = 17 << 16;
const TRIPS_TOO_LONG: u32 = 18 << 16;

/// What a call leaves where it puts nothing down.
const KEPT: [u32; 4] = [9; 4];

fn read(list: &[u8], place: usize) -> (u32, [u32; 4]) {
    let mut trip = KEPT;
    (read_trip(list, place, &mut trip), trip)
}

fn next(list: &[u8], at: usize, least: usize) -> (u32, [u32; 4]) {
    let mut trip = KEPT;
    (next_trip(list, at, least, &mut trip), trip)
}

/// The answer of a call that writes, and what it puts into the front of the
/// buffer. The rest keeps its bytes.
fn put(call: impl FnOnce(&mut [u8]) -> u32) -> (u32, Vec<u8>) {
    let mut buffer = [b'.'; LIST_BYTES];
    let answer = call(&mut buffer);
    let count = (answer & 65_535) as usize;
    assert_eq!(buffer[count..], vec![b'.'; LIST_BYTES - count]);
    (answer, buffer[..count].to_vec())
}

fn written(list: &[u8]) -> (u32, Vec<u8>) {
    put(|buffer| write_trips(list, buffer))
}

fn joined(first: &[u8], second: &[u8]) -> (u32, Vec<u8>) {
    put(|buffer| join_trips(first, second, buffer))
}

/// The lists have this join, whichever comes first.
fn join_to(first: &str, second: &str, join: &str) {
    let (first, second) = (first.as_bytes(), second.as_bytes());
    let join = (join.len() as u32, join.as_bytes().to_vec());
    assert_eq!(joined(first, second), join);
    assert_eq!(joined(second, first), join);
}

/// The join is refused so.
fn is_not_joined(first: impl AsRef<[u8]>, second: impl AsRef<[u8]>, answer: u32) {
    let (first, second) = (first.as_ref(), second.as_ref());
    let texts = [first, second].map(String::from_utf8_lossy);
    assert_eq!(joined(first, second), (answer, Vec::new()), "{texts:?}");
}

/// The list has these trips, at every place and by the cursor, and this spelling.
fn means(list: &str, trips: &[[u32; 4]], spelling: &str) {
    let list = list.as_bytes();
    let count = trips.len() as u32;
    let (mut at, mut least) = (0, 0);
    for (place, &trip) in trips.iter().enumerate() {
        assert_eq!(read(list, place), (count, trip));
        let (end, next) = next(list, at, least);
        assert_eq!(next, trip);
        assert_eq!(end, trip[2] + trip[3] + 1);
        (at, least) = (end as usize, trip[0] as usize + 1);
    }
    assert_eq!(at, list.len());
    assert_eq!(next(list, at, least), (0, KEPT));
    for place in [trips.len(), usize::MAX] {
        assert_eq!(read(list, place), (count, KEPT));
    }
    let spelled = (spelling.len() as u32, spelling.as_bytes().to_vec());
    assert_eq!(written(list), spelled);
    // with no other, with itself, and with its spelling
    for other in [b"", list, spelling.as_bytes()] {
        assert_eq!(joined(list, other), spelled);
        assert_eq!(joined(other, list), spelled);
    }
}

/// Reader, writer and join refuse the list so, whatever the place.
fn is_refused(list: impl AsRef<[u8]>, answer: u32) {
    let list = list.as_ref();
    let text = String::from_utf8_lossy(list);
    for place in [0, 1, usize::MAX] {
        assert_eq!(read(list, place), (answer, KEPT), "{text:?}");
    }
    assert_eq!(written(list), (answer, Vec::new()), "{text:?}");
    // the other list has no say, but where it is the first
    for other in [
        "",
        "0,9,Q\n",
        "5,1,A\n",
        "5,1,A\n6,1,A\n",
        "4294967295,9,Q\n",
    ] {
        is_not_joined(list, other, answer);
        is_not_joined(other, list, answer);
    }
    for other in ["x", "5,1,A\n5,1,A\n"] {
        is_not_joined(list, other, answer);
    }
    is_not_joined(list, [b'x'; LIST_BYTES + 1], answer);
    is_not_joined([b'x'; LIST_BYTES + 1], list, RANGE);
    is_not_joined("x", list, TRIP_FORM);
    is_not_joined("5,1,A\n5,1,A\n", list, TRIP_ORDER);
}

#[test]
fn lists_and_their_spelling() {
    means("", &[], "");
    let list = "5,1200,ANNA\n17,0,B7\n29001234,99999,A1B2C3D4E5F6G7H8\n";
    let trips = [
        [5, 1200, 7, 4],
        [17, 0, 17, 2],
        [29_001_234, 99_999, 35, 16],
    ];
    means(list, &trips, list);
    means(
        "0000000000,000,0\n1,01,00A\n00000002,0000000010,AZ09\n0000000013,00000014,Z\n",
        &[
            [0, 0, 15, 1],
            [1, 1, 22, 3],
            [2, 10, 46, 4],
            [13, 14, 71, 1],
        ],
        "0,0,0\n1,1,00A\n2,10,AZ09\n13,14,Z\n",
    );
    let list = "4294967294,4294967295,A\n4294967295,0,B\n";
    let trips = [[u32::MAX - 1, u32::MAX, 22, 1], [u32::MAX, 0, 37, 1]];
    means(list, &trips, list);
}

/// Numbers and drivers of all lengths, at all distances from the end of the list.
#[test]
fn fields_of_every_length() {
    for digits in 1..=11 {
        for letters in 0..=17 {
            let number = "0".repeat(digits - 1) + "7";
            let driver = "Z".repeat(letters);
            for list in [
                format!("{number},8,{driver}\n"),
                format!("7,{number},{driver}\n"),
            ] {
                is_refused(list.trim_end(), TRIP_FORM);
                if digits == 11 || letters == 0 || letters == 17 {
                    assert_eq!(next(list.as_bytes(), 0, 0), (TRIP_FORM, KEPT));
                    is_refused(list, TRIP_FORM);
                    continue;
                }
                let [_, metres, _, count] = read(list.as_bytes(), 0).1;
                assert_eq!(count, letters as u32);
                let spelling = format!("7,{metres},{driver}\n");
                assert_eq!(written(list.as_bytes()).1, spelling.as_bytes());
                assert_eq!(read(list.as_bytes(), 0).0, 1);
            }
        }
    }
}

#[test]
fn lines_that_lack_the_form() {
    for number in ["", "+1", " 1", "1 ", "1.0", "A", "4294967296", "9999999999"] {
        is_refused(format!("{number},1,A\n"), TRIP_FORM);
        is_refused(format!("1,{number},A\n"), TRIP_FORM);
    }
    // the neighbours of 0, 9, A and Z, and bytes from 128 on
    for byte in *b"/:@[az_\x00\x80\xb0\xc1\xff" {
        for list in [
            "?,1,A\n",
            "1?2345678,1,A\n",
            "1,12345678?,A\n",
            "1,1,ABCDEFGHI?\n",
        ] {
            let list = list.bytes().map(|b| if b == b'?' { byte } else { b });
            is_refused(list.collect::<Vec<u8>>(), TRIP_FORM);
        }
    }
    for line in [
        "\n",
        ",\n",
        ",,\n",
        "1\n",
        "1,1\n",
        "1,1,A,B\n",
        ",1,1,A\n",
        "1,1,A\r\n",
        "1,1,A",
        "1,1,",
        "1,",
        "1",
    ] {
        is_refused(line, TRIP_FORM);
        is_refused(format!("0,0,A\n{line}"), TRIP_FORM);
    }
}

#[test]
fn the_first_bad_line_decides() {
    is_refused("5,1,A\n5,2,B\n", TRIP_ORDER);
    is_refused("5,1,A\n005,1,A\n", TRIP_ORDER);
    is_refused("4294967295,1,A\n0,1,A\n", TRIP_ORDER);
    is_refused("5,1,A\n4,1,A\nx\n", TRIP_ORDER);
    is_refused("5,1,A\nx\n4,1,A\n", TRIP_FORM);
    is_refused("5,1,A\n4,1,a\n", TRIP_FORM);
}

#[test]
fn lengths() {
    let mut list: String = (100..611).map(|minute| format!("{minute},1,A\n")).collect();
    list += "900,01,B\n";
    assert_eq!(list.len(), LIST_BYTES + 1);
    is_refused(&list, RANGE);
    assert_eq!(next(list.as_bytes(), 5_000, 0), (RANGE, KEPT));
    let list = list.replace("900,01", "900,1");
    assert_eq!(list.len(), LIST_BYTES);
    assert_eq!(read(list.as_bytes(), 511), (512, [900, 1, 4_094, 1]));
    assert_eq!(written(list.as_bytes()), (4_096, list.clone().into_bytes()));
    // SHAPE comes first
    let list = &[b'x'; LIST_BYTES + 1];
    for length in [0, 3, 5] {
        assert_eq!(read_trip(list, 0, &mut vec![9; length]), SHAPE);
        assert_eq!(next_trip(list, 0, 0, &mut vec![9; length]), SHAPE);
    }
    for length in [0, LIST_BYTES - 1, LIST_BYTES + 1] {
        let mut buffer = vec![b'.'; length];
        assert_eq!(write_trips(list, &mut buffer), SHAPE);
        for other in [&list[..], b""] {
            assert_eq!(join_trips(list, other, &mut buffer), SHAPE);
            assert_eq!(join_trips(other, list, &mut buffer), SHAPE);
        }
        assert_eq!(buffer, vec![b'.'; length]);
    }
}

#[test]
fn the_cursor_anywhere() {
    let list = b"5,1200,ANNA\n17,0,B7\nx\n3,1,C";
    assert_eq!(next(list, 0, 5), (12, [5, 1200, 7, 4]));
    for least in [6, 1 << 32, usize::MAX] {
        assert_eq!(next(list, 0, least), (TRIP_ORDER, KEPT));
    }
    // amid a line
    assert_eq!(next(list, 13, 0), (20, [7, 0, 17, 2]));
    assert_eq!(next(list, 2, 0), (TRIP_FORM, KEPT));
    // no line, and one without LF
    assert_eq!(next(list, 20, usize::MAX), (TRIP_FORM, KEPT));
    assert_eq!(next(list, 22, 0), (TRIP_FORM, KEPT));
    for at in [27, 28, usize::MAX] {
        assert_eq!(next(list, at, 0), (0, KEPT));
    }
}

#[test]
fn joins() {
    join_to("", "", "");
    // one after the other, by turns, one within a gap of the other
    join_to("1,2,A\n3,4,B\n", "5,6,C\n", "1,2,A\n3,4,B\n5,6,C\n");
    join_to(
        "01,2,A\n5,06,C\n9,10,E\n",
        "3,4,B\n07,08,D\n",
        "1,2,A\n3,4,B\n5,6,C\n7,8,D\n9,10,E\n",
    );
    join_to(
        "0,0,0\n4294967295,4294967295,ZZZZZZZZZZZZZZZZ\n",
        "0000000001,1,A\n4294967294,1,A\n",
        "0,0,0\n1,1,A\n4294967294,1,A\n4294967295,4294967295,ZZZZZZZZZZZZZZZZ\n",
    );
    // trips of both, also as the last of one of them
    join_to(
        "5,1200,ANNA\n17,0,B7\n",
        "005,0001200,ANNA\n0000000017,00,B7\n",
        "5,1200,ANNA\n17,0,B7\n",
    );
    join_to("1,1,A\n2,2,B\n", "2,02,B\n3,3,C\n", "1,1,A\n2,2,B\n3,3,C\n");
    join_to("2,2,B\n", "1,1,A\n002,2,B\n", "1,1,A\n2,2,B\n");
    join_to("2,2,B\n", "02,2,B\n3,3,C\n", "2,2,B\n3,3,C\n");
}

/// Trips that differ in one place, of every length of driver, at the end of a
/// list and far from it.
#[test]
fn conflicts() {
    let rests = ["", "4000000000,1,A\n4000000001,1,A\n"];
    let with_rests = |one: &str, two: &str, answer: Result<(), u32>| {
        for (first, second) in [(one, two), (two, one)] {
            for (rest, second_rest) in [(0, 0), (0, 1), (1, 0), (1, 1)] {
                let first = format!("1,1,A\n{first}{}", rests[rest]);
                let second = format!("{second}{}", rests[second_rest]);
                match answer {
                    Ok(()) => assert!(joined(first.as_bytes(), second.as_bytes()).0 < 65_536),
                    Err(answer) => is_not_joined(first, second, answer),
                }
            }
        }
    };
    for letters in 1..=16 {
        let driver = "D".repeat(letters);
        let line = format!("7,8,{driver}\n");
        with_rests(&line, &line, Ok(()));
        for metres in ["9", "80", "0", "4294967295"] {
            let other = format!("7,{metres},{driver}\n");
            with_rests(&line, &other, Err(TRIP_CONFLICT));
        }
        for letter in 0..letters {
            let mut other = line.clone();
            other.replace_range(4 + letter..5 + letter, "E");
            with_rests(&line, &other, Err(TRIP_CONFLICT));
        }
        if letters < 16 {
            with_rests(&line, &format!("7,8,{driver}D\n"), Err(TRIP_CONFLICT));
        }
    }
}

/// The first list, the second, conflicts, the length: whatever the walk meets
/// first.
#[test]
fn the_order_of_refusals() {
    let conflict = ["5,1,A\n", "5,2,A\n"];
    is_not_joined(conflict[0], conflict[1], TRIP_CONFLICT);
    for (bad, answer) in [("9,1,a\n", TRIP_FORM), ("5,1,A\n", TRIP_ORDER)] {
        let [one, two] = conflict.map(|line| format!("{line}{bad}"));
        // after the conflict, in either list
        is_not_joined(&one, conflict[1], answer);
        is_not_joined(conflict[0], &two, answer);
        // in both lists: the first decides, however late its bad line
        let late = format!("1,1,A\n2,1,A\n3,1,A\n4,1,A\n{one}");
        for early in ["x\n", "1,1,A\n1,1,A\n", "1,1,A\nx"] {
            is_not_joined(&late, early, answer);
        }
        is_not_joined(&late, [b'x'; LIST_BYTES + 1], answer);
    }
    // of one list the first bad line, also where the walk is at the other list
    is_not_joined("7,1,A\n6,1,A\nx", "8,1,A\n", TRIP_ORDER);
    is_not_joined("8,1,A\n", "7,1,A\nx\n6,1,A\n", TRIP_FORM);
}

/// Lines of nine bytes with these minutes, of three digits.
fn nines(minutes: impl Iterator<Item = usize>) -> String {
    minutes.map(|minute| format!("{minute},10,A\n")).collect()
}

#[test]
fn joins_of_the_greatest_length() {
    // 455 lines and one byte more
    let evens = nines((100..1_000).step_by(2));
    let odds = |count| nines((101..).step_by(2).take(count));
    let most = |last: &str| format!("{}{last}", odds(4));
    for (second, length) in [(most("995,1,AB\n"), 4_095), (most("995,10,AB\n"), 4_096)] {
        let (answer, join) = joined(evens.as_bytes(), second.as_bytes());
        assert_eq!(answer, length);
        let minutes: Vec<usize> = String::from_utf8(join)
            .unwrap()
            .lines()
            .map(|line| line[..3].parse().unwrap())
            .collect();
        assert_eq!(minutes.len(), 455);
        assert!(minutes.is_sorted());
    }
    let second = most("995,10,ABC\n");
    is_not_joined(&evens, &second, TRIPS_TOO_LONG);
    is_not_joined(&second, &evens, TRIPS_TOO_LONG);
    // zeros do not count, nor do trips of both
    let zeros = most("0995,0010,AB\n").replace(",10,", ",010,");
    assert_eq!(joined(evens.as_bytes(), zeros.as_bytes()).0, 4_096);
    assert_eq!(joined(evens.as_bytes(), evens.as_bytes()).0, 4_050);

    // by far too long
    let one = format!("{evens}999,1,A\n");
    let two = format!("{}999,1,A\n", odds(449));
    is_not_joined(&one, &two, TRIPS_TOO_LONG);
    is_not_joined(&two, &one, TRIPS_TOO_LONG);
    // a conflict and bad lines come before, however late
    let two = two.replace("999,1,A", "999,2,A");
    is_not_joined(&one, &two, TRIP_CONFLICT);
    is_not_joined(&one, format!("{two}x"), TRIP_FORM);
    is_not_joined(format!("{one}x"), &two, TRIP_FORM);
    is_not_joined(format!("{one}5,1,A\n"), format!("{two}x"), TRIP_ORDER);
}

/// Metres and drivers by their minutes.
type Trips = BTreeMap<u32, (u32, String)>;

fn trip(line: &[u8]) -> Option<(u32, (u32, String))> {
    let line = std::str::from_utf8(line).ok()?.strip_suffix('\n')?;
    let fields: Vec<&str> = line.split(',').collect();
    let [minute, metres, driver] = fields[..] else {
        return None;
    };
    let number = |field: &str| {
        let form = field.len() <= 10 && field.bytes().all(|byte| byte.is_ascii_digit());
        form.then(|| field.parse().ok()).flatten()
    };
    let in_driver = |byte: u8| byte.is_ascii_digit() || byte.is_ascii_uppercase();
    let form = (1..=16).contains(&driver.len()) && driver.bytes().all(in_driver);
    form.then_some((number(minute)?, (number(metres)?, driver.to_owned())))
}

fn trips(list: &[u8]) -> Result<Trips, u32> {
    if list.len() > LIST_BYTES {
        return Err(RANGE);
    }
    let mut trips = Trips::new();
    for line in list.split_inclusive(|&byte| byte == b'\n') {
        let (minute, rest) = trip(line).ok_or(TRIP_FORM)?;
        if trips
            .last_key_value()
            .is_some_and(|(&last, _)| last >= minute)
        {
            return Err(TRIP_ORDER);
        }
        trips.insert(minute, rest);
    }
    Ok(trips)
}

/// The join, by maps.
fn join_of_maps(first: &[u8], second: &[u8]) -> Result<Vec<u8>, u32> {
    let (mut join, second) = (trips(first)?, trips(second)?);
    for (minute, rest) in second {
        if *join.entry(minute).or_insert_with(|| rest.clone()) != rest {
            return Err(TRIP_CONFLICT);
        }
    }
    let line = |(minute, (metres, driver))| format!("{minute},{metres},{driver}\n");
    let join: String = join.into_iter().map(line).collect();
    if join.len() > LIST_BYTES {
        return Err(TRIPS_TOO_LONG);
    }
    Ok(join.into_bytes())
}

/// Two lists of trips, some of them in both, now and then with a conflict, a bad
/// byte or too many trips.
fn random_pair(rng: &mut Rng) -> [Vec<u8>; 2] {
    let mut lists = [Vec::new(), Vec::new()];
    let bytes = rng.pick(&[0, 20, 100, 2_000, 3_500, 4_200]);
    // of a hundred trips
    let in_both = rng.pick(&[0, 5, 50, 100]);
    let in_second = rng.pick(&[0, 10, 50]);
    let with_zeros = rng.pick(&[0, 30]);
    let mut minute = rng.pick(&[0, 9_990, 99_999_900, u32::MAX as usize - 100_000]);
    while lists.iter().all(|list| list.len() < bytes) {
        minute += rng.between(1, 99);
        let metres = rng.pick(&[10, 1_000, 100_000_000, 1 << 32]);
        let metres = rng.below(metres);
        let driver: String = (0..rng.between(1, 16))
            .map(|_| char::from(rng.pick(b"AZ09")))
            .collect();
        let mut spell = |number: usize| {
            let zeros = if rng.chance(with_zeros) { 10 } else { 0 };
            format!("{number:0zeros$}")
        };
        let [one, two] =
            [(); 2].map(|()| format!("{},{},{driver}\n", spell(minute), spell(metres)));
        if rng.chance(in_both) {
            lists[0].extend(one.bytes());
            lists[1].extend(two.bytes());
        } else {
            lists[usize::from(rng.chance(in_second))].extend(one.bytes());
        }
    }
    for list in &mut lists {
        if !list.is_empty() && rng.chance(10) {
            let at = rng.below(list.len());
            list[at] = rng.pick(b"019AZ,\nx\x80");
        }
    }
    lists
}

#[test]
fn joins_are_those_of_maps() {
    let mut rng = Rng::new(12);
    let mut answers = BTreeMap::new();
    for _ in 0..20_000 {
        let [first, second] = random_pair(&mut rng);
        let join = match join_of_maps(&first, &second) {
            Ok(join) => (join.len() as u32, join),
            Err(answer) => (answer, Vec::new()),
        };
        assert_eq!(joined(&first, &second), join);
        *answers.entry(join.0 >> 16).or_insert(0) += 1;
    }
    assert_eq!(
        answers.keys().copied().collect::<Vec<u32>>(),
        [0, 7, 10, 11, 17, 18]
    );
    assert!(answers.values().all(|&count| count >= 100), "{answers:?}");
}
