//! Trip lists as Rust values. `raw` has the lists that are worked by hand.

use std::iter::FusedIterator;

use boxstore::{
    join_trips, read_trip, trips, write_trips, Device, Error, Trip, LIST_BYTES, MOUNT_WRITES,
    SYNC_WRITES,
};

const LIST: &[u8] = b"5,1200,ANNA\n017,00,B7\n4294967295,4294967295,00A\n";
const TRIPS: [Trip<'static>; 3] = [
    trip(5, 1_200, "ANNA"),
    trip(17, 0, "B7"),
    trip(u32::MAX, u32::MAX, "00A"),
];

const fn trip(minute: u32, metres: u32, driver: &str) -> Trip<'_> {
    Trip {
        minute,
        metres,
        driver,
    }
}

#[test]
fn places() {
    for (place, &trip) in TRIPS.iter().enumerate() {
        assert_eq!(read_trip(LIST, place), Ok((Some(trip), 3)));
    }
    for place in [3, 65_536, usize::MAX] {
        assert_eq!(read_trip(LIST, place), Ok((None, 3)));
    }
    assert_eq!(read_trip(b"", 0), Ok((None, 0)));
}

#[test]
fn an_iterator_over_the_trips() {
    fn fused(trips: &impl FusedIterator) -> usize {
        trips.size_hint().0
    }
    let mut left = trips(LIST).unwrap();
    for (place, &trip) in TRIPS.iter().enumerate() {
        assert_eq!((left.len(), fused(&left)), (3 - place, 3 - place));
        assert!(left.clone().eq(TRIPS[place..].iter().copied()));
        assert_eq!(left.next(), Some(trip));
    }
    assert_eq!(left.len(), 0);
    assert_eq!((left.next(), left.next()), (None, None));

    assert_eq!(trips(LIST).unwrap().nth(2), Some(TRIPS[2]));
    assert_eq!(trips(b"").unwrap().next(), None);
    assert_eq!(
        format!("{:?}", trips(b"5,1200,ANNA\n").unwrap()),
        r#"[Trip { minute: 5, metres: 1200, driver: "ANNA" }]"#
    );
}

/// A driver is the list's own text, and outlives the iterator.
#[test]
fn drivers_are_borrowed_from_the_list() {
    let list = LIST.to_vec();
    let driver = trips(&list).unwrap().next().unwrap().driver;
    assert_eq!(driver.as_bytes().as_ptr(), list[7..].as_ptr());
}

#[test]
fn refusals() {
    let long = [b'x'; LIST_BYTES + 1];
    let cases: [(&[u8], Error); 4] = [
        (&long, Error::Range),
        (b"5,1,ANNA", Error::TripForm),
        // the last line, after two that are sound
        (b"5,1,A\n6,1,A\n7,1,a\n", Error::TripForm),
        (b"5,1,A\n6,1,A\n6,1,A\n", Error::TripOrder),
    ];
    for (list, error) in cases {
        assert_eq!(read_trip(list, 0), Err(error));
        assert_eq!(trips(list).err(), Some(error));
        let mut buffer = [b'.'; LIST_BYTES];
        assert_eq!(write_trips(list, &mut buffer), Err(error));
        assert_eq!(join_trips(list, LIST, &mut buffer), Err(error));
        assert_eq!(join_trips(LIST, list, &mut buffer), Err(error));
        assert_eq!(buffer, [b'.'; LIST_BYTES]);
    }
}

#[test]
fn one_spelling() {
    let mut buffer = [b'.'; LIST_BYTES];
    let spelling = b"5,1200,ANNA\n17,0,B7\n4294967295,4294967295,00A\n";
    assert_eq!(write_trips(LIST, &mut buffer), Ok(&spelling[..]));
    assert!(buffer[spelling.len()..].iter().all(|&byte| byte == b'.'));
    assert!(trips(spelling).unwrap().eq(trips(LIST).unwrap()));
    assert_eq!(write_trips(spelling, &mut buffer), Ok(&spelling[..]));
    assert_eq!(write_trips(b"", &mut buffer), Ok(&b""[..]));
}

#[test]
fn two_lists_become_one() {
    let mut buffer = [b'.'; LIST_BYTES];
    let other = b"05,1200,ANNA\n6,1,C\n";
    let joined = b"5,1200,ANNA\n6,1,C\n17,0,B7\n4294967295,4294967295,00A\n";
    assert_eq!(join_trips(LIST, other, &mut buffer), Ok(&joined[..]));
    assert!(buffer[joined.len()..].iter().all(|&byte| byte == b'.'));
    assert_eq!(join_trips(other, LIST, &mut buffer), Ok(&joined[..]));
    assert_eq!(join_trips(joined, joined, &mut buffer), Ok(&joined[..]));
    assert_eq!(join_trips(b"", joined, &mut buffer), Ok(&joined[..]));
    assert_eq!(join_trips(b"", b"", &mut buffer), Ok(&b""[..]));
}

/// Lines of 8 bytes: as many as there are minutes.
fn lines(minutes: std::ops::Range<usize>) -> Vec<u8> {
    let line = |minute| format!("{minute},0,A\n").into_bytes();
    minutes.flat_map(line).collect()
}

#[test]
fn joins_that_are_refused() {
    let mut buffer = [b'.'; LIST_BYTES];
    let (one, two, more) = (lines(100..356), lines(356..612), lines(356..613));
    for (second, error) in [
        (&more[..], Error::TripsTooLong),
        // a conflict comes first, and a bad line before it
        (&[b"100,0,B\n", &*more].concat(), Error::TripConflict),
        (&[b"100,1,A\n", &*more].concat(), Error::TripConflict),
        (
            &[b"100,1,A\n", &*more, b"1,1,A\n"].concat(),
            Error::TripOrder,
        ),
        (&[b"100,1,A\n", &*more, b"x"].concat(), Error::TripForm),
    ] {
        assert_eq!(join_trips(&one, second, &mut buffer), Err(error));
        assert_eq!(join_trips(second, &one, &mut buffer), Err(error));
        assert_eq!(buffer, [b'.'; LIST_BYTES]);
    }
    let full = [one.clone(), two.clone()].concat();
    assert_eq!(full.len(), LIST_BYTES);
    assert_eq!(join_trips(&two, &one, &mut buffer), Ok(&full[..]));
    // the first list is checked before the second
    let long = [b'x'; LIST_BYTES + 1];
    assert_eq!(join_trips(b"x", &long, &mut buffer), Err(Error::TripForm));
    assert_eq!(join_trips(&long, b"x", &mut buffer), Err(Error::Range));
}

/// From a file of the store and back.
#[test]
fn a_list_in_a_file() -> Result<(), Error> {
    let mut device = Device::new();
    device.mount(MOUNT_WRITES)?;
    device.write(2, 0, LIST)?;
    let list = device.read_all(2)?;
    let mut buffer = [0; LIST_BYTES];
    let spelling = write_trips(&list, &mut buffer)?;
    device.write(2, 0, spelling)?;
    device.truncate(2, spelling.len())?;
    device.sync(2, SYNC_WRITES)?;
    device.cut_power();
    device.mount(MOUNT_WRITES)?;
    assert_eq!(device.read_all(2)?, spelling);
    assert!(trips(spelling)?.eq(TRIPS));
    Ok(())
}
