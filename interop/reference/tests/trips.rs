//! Trip lists, worked by hand.

use reference::store::Answer::{self, Done, Refused};
use reference::store::Refusal::{
    self, Range, Shape, TripConflict, TripForm, TripOrder, TripsTooLong,
};
use reference::trips::{join_trips, next_trip, read_trip, spelling, trips, write_trips, Trip};

fn trip(minute: u32, metres: u32, driver: &str) -> Trip<'_> {
    Trip {
        minute,
        metres,
        driver: driver.as_bytes(),
    }
}

/// What a call writes. The rest of its buffer keeps its bytes, and all of it
/// where the call is refused.
fn filled(call: impl Fn(&mut [u8]) -> Answer) -> Result<Vec<u8>, Refusal> {
    let mut buffer = [0xaa; 4096];
    match call(&mut buffer) {
        Done(count) => {
            assert!(buffer[count..].iter().all(|&byte| byte == 0xaa));
            Ok(buffer[..count].to_vec())
        }
        Refused(refusal) => {
            assert_eq!(buffer, [0xaa; 4096]);
            Err(refusal)
        }
    }
}

/// What the writer makes of a list.
fn written(list: &[u8]) -> Result<Vec<u8>, Refusal> {
    filled(|buffer| write_trips(list, buffer))
}

/// What the join makes of two lists.
fn joined(first: impl AsRef<[u8]>, second: impl AsRef<[u8]>) -> Result<Vec<u8>, Refusal> {
    filled(|buffer| join_trips(first.as_ref(), second.as_ref(), buffer))
}

/// The two lists are joined so, whichever comes first.
fn join_to(one: impl AsRef<[u8]>, two: impl AsRef<[u8]>, expected: Result<&str, Refusal>) {
    let expected = expected.map(|text| text.as_bytes().to_vec());
    assert_eq!(joined(&one, &two), expected);
    assert_eq!(joined(&two, &one), expected);
}

/// The list has these trips, and the writer spells it so.
fn means(list: &str, expected: &[Trip<'_>], spelled: &str) {
    let list = list.as_bytes();
    assert_eq!(trips(list).as_deref(), Ok(expected));
    for (place, &trip) in expected.iter().enumerate() {
        assert_eq!(read_trip(list, place), Ok((Some(trip), expected.len())));
    }
    for past in [expected.len(), expected.len() + 1, usize::MAX] {
        assert_eq!(read_trip(list, past), Ok((None, expected.len())));
    }
    assert_eq!(written(list), Ok(spelled.as_bytes().to_vec()));
}

/// Reader and writer refuse the list so, whatever the place.
fn is_refused(list: impl AsRef<[u8]>, refusal: Refusal) {
    let list = list.as_ref();
    let text = String::from_utf8_lossy(list);
    for place in [0, 1, usize::MAX] {
        assert_eq!(read_trip(list, place), Err(refusal), "{text:?}");
    }
    assert_eq!(written(list), Err(refusal), "{text:?}");
}

#[test]
fn the_numbers_of_the_refusals() {
    let refusals = [
        (TripForm, 10),
        (TripOrder, 11),
        (TripConflict, 17),
        (TripsTooLong, 18),
    ];
    for (refusal, number) in refusals {
        assert_eq!(refusal.number(), number);
        assert_eq!(Refused(refusal).count(), 0);
    }
}

#[test]
fn places_and_count() {
    let list = "5,1200,ANNA\n17,0,B7\n30,88,ANNA\n";
    let expected = [
        trip(5, 1200, "ANNA"),
        trip(17, 0, "B7"),
        trip(30, 88, "ANNA"),
    ];
    means(list, &expected, list);
}

#[test]
fn the_empty_list_has_no_trips() {
    means("", &[], "");
}

#[test]
fn leading_zeros() {
    means(
        "0000000000,0000000000,0\n1,01,00A\n02,10,AZ09\n",
        &[trip(0, 0, "0"), trip(1, 1, "00A"), trip(2, 10, "AZ09")],
        "0,0,0\n1,1,00A\n2,10,AZ09\n",
    );
    // the drivers differ, so the trips do
    assert_ne!(written(b"1,1,A\n"), written(b"1,1,0A\n"));
    assert_eq!(written(b"1,1,A\n"), written(b"001,0000000001,A\n"));
    assert_eq!(spelling(&[]), b"");
}

#[test]
fn the_largest_number() {
    means(
        "4294967294,4294967295,A\n4294967295,0,B\n",
        &[trip(u32::MAX - 1, u32::MAX, "A"), trip(u32::MAX, 0, "B")],
        "4294967294,4294967295,A\n4294967295,0,B\n",
    );
    for above in ["4294967296", "4294967300", "9999999999"] {
        is_refused(format!("{above},1,A\n"), TripForm);
        is_refused(format!("1,{above},A\n"), TripForm);
    }
    // 11 digits, whatever the value
    for long in ["00000000001", "00000000000", "10000000000", "42949672950"] {
        is_refused(format!("{long},1,A\n"), TripForm);
        is_refused(format!("1,{long},A\n"), TripForm);
    }
}

#[test]
fn drivers_of_1_to_16() {
    let list = "1,1,Z\n2,2,ABCDEFGHIJKLMNOP\n";
    let expected = [trip(1, 1, "Z"), trip(2, 2, "ABCDEFGHIJKLMNOP")];
    means(list, &expected, list);
    is_refused("1,1,\n", TripForm);
    is_refused("1,1,ABCDEFGHIJKLMNOPQ\n", TripForm);
    // the neighbours of A, Z, 0 and 9, and others
    for byte in *b"@[/:az _-\x00\x80\xc3" {
        is_refused([b"1,1,A", &[byte][..], b"\n"].concat(), TripForm);
    }
}

#[test]
fn numbers_are_digits_alone() {
    for wrong in ["", "+1", "-1", " 1", "1 ", "1.0", "0x1", "A", "/", ":"] {
        is_refused(format!("{wrong},1,A\n"), TripForm);
        is_refused(format!("1,{wrong},A\n"), TripForm);
    }
}

#[test]
fn each_line_has_three_fields_and_lf() {
    for wrong in [
        "\n",
        ",\n",
        ",,\n",
        "1\n",
        "1,1\n",
        "1,A\n",
        "1,1,A,\n",
        "1,1,A,B\n",
        ",1,1,A\n",
        "1,,1,A\n",
        "1,1,A\r\n",
        "\r\n",
        "1,1,A\r",
        "1,1,A",
        "1",
        "A",
        ",",
    ] {
        is_refused(wrong, TripForm);
        is_refused(format!("0,0,A\n{wrong}"), TripForm);
    }
    is_refused("1,1,A\n\n", TripForm);
    is_refused("1,1,A\n\n2,2,B\n", TripForm);
    is_refused("1,1,A\n2,2,B", TripForm);
    is_refused("1,1,A2,2,B\n", TripForm);
}

#[test]
fn minutes_rise() {
    is_refused("5,1,A\n5,2,B\n", TripOrder);
    is_refused("5,1,A\n005,1,A\n", TripOrder);
    is_refused("5,1,A\n4,1,A\n", TripOrder);
    is_refused("4294967295,1,A\n0,1,A\n", TripOrder);
    is_refused("1,1,A\n3,1,A\n2,1,A\n4,1,A\n", TripOrder);
    // by value, not as text
    means(
        "9,1,A\n010,1,A\n",
        &[trip(9, 1, "A"), trip(10, 1, "A")],
        "9,1,A\n10,1,A\n",
    );
}

#[test]
fn the_first_wrong_line_decides() {
    is_refused("5,1,a\n4,1,A\n3,1,A\n", TripForm);
    is_refused("5,1,A\nx\n4,1,A\n", TripForm);
    is_refused("5,1,A\n4,1,A\nx\n", TripOrder);
    is_refused("5,1,A\n4,1,A\n6,1,A", TripOrder);
    // both in one line
    is_refused("5,1,A\n4,1,a\n", TripForm);
    is_refused("5,1,A\n4,1,A", TripForm);
    // also behind the place that is asked for
    let list = b"1,1,A\n2,2,B\n2,3,C\n";
    assert_eq!(read_trip(list, 0), Err(TripOrder));
}

/// A list of this length: lines of 8 bytes, and one with a longer driver.
fn list_of(length: usize) -> Vec<u8> {
    let mut list: Vec<u8> = (100..100 + (length - 8) / 8)
        .flat_map(|minute| format!("{minute},0,A\n").into_bytes())
        .collect();
    list.extend(format!("999,0,{}\n", "A".repeat(length - list.len() - 7)).bytes());
    assert_eq!(list.len(), length);
    list
}

#[test]
fn lists_of_4096_bytes_and_more() {
    for length in [4095, 4096] {
        let list = list_of(length);
        assert_eq!(trips(&list).map(|trips| trips.len()), Ok(length / 8));
        assert_eq!(written(&list), Ok(list));
    }
    is_refused(list_of(4097), Range);
    // RANGE comes first
    is_refused([b'x'; 4097], Range);
    is_refused([b"1,1,A\n1,1,A\n", &[0; 4096][..]].concat(), Range);
    is_refused([b'x'; 4096], TripForm);
    assert_eq!(next_trip(&list_of(4097), 0, 0), Err(Range));
    assert_eq!(next_trip(&[b'x'; 4097], 9_999, 0), Err(Range));
}

#[test]
fn a_buffer_of_another_length() {
    // SHAPE comes before all else
    for list in [&b"1,1,A\n"[..], b"", b"x", &[b'x'; 5000]] {
        for length in [0, 1, 6, 4095, 4097] {
            let mut buffer = vec![7; length];
            assert_eq!(write_trips(list, &mut buffer), Refused(Shape));
            for other in [&b"1,2,A\n"[..], b"", list] {
                assert_eq!(join_trips(list, other, &mut buffer), Refused(Shape));
                assert_eq!(join_trips(other, list, &mut buffer), Refused(Shape));
            }
            assert_eq!(buffer, vec![7; length]);
        }
    }
}

#[test]
fn a_walk_with_the_cursor() {
    let list = b"5,1200,ANNA\n017,0,B7\n4294967295,88,ANNA\n";
    assert_eq!(next_trip(list, 0, 0), Ok(Some((trip(5, 1200, "ANNA"), 12))));
    assert_eq!(next_trip(list, 12, 6), Ok(Some((trip(17, 0, "B7"), 21))));
    let last = Ok(Some((trip(u32::MAX, 88, "ANNA"), 40)));
    assert_eq!(next_trip(list, 21, 18), last);
    for at in [40, 41, usize::MAX] {
        assert_eq!(next_trip(list, at, 1 << 32), Ok(None));
    }
    assert_eq!(next_trip(b"", 0, 0), Ok(None));
}

#[test]
fn the_cursor_anywhere() {
    let list = b"5,1200,ANNA\n17,0,B7\nx\n3,1,C";
    // the least minute is allowed, and one more is not
    assert!(next_trip(list, 0, 5).is_ok());
    assert_eq!(next_trip(list, 0, 6), Err(TripOrder));
    assert_eq!(next_trip(list, 0, usize::MAX), Err(TripOrder));
    // amid a line
    assert_eq!(next_trip(list, 13, 0), Ok(Some((trip(7, 0, "B7"), 20))));
    assert_eq!(next_trip(list, 13, 8), Err(TripOrder));
    for at in [1, 2, 6, 11, 14, 19] {
        assert_eq!(next_trip(list, at, 0), Err(TripForm), "{at}");
    }
    // a line that lacks the form, TRIP FORM before TRIP ORDER, no LF
    assert_eq!(next_trip(list, 20, 0), Err(TripForm));
    assert_eq!(next_trip(list, 20, usize::MAX), Err(TripForm));
    assert_eq!(next_trip(list, 22, 0), Err(TripForm));
    assert_eq!(next_trip(list, 26, 0), Err(TripForm));
    assert_eq!(next_trip(list, 27, 0), Ok(None));
}

#[test]
fn two_lists_in_minute_order() {
    // one after the other
    join_to(
        "5,1200,ANNA\n17,0,B7\n",
        "30,88,ANNA\n",
        Ok("5,1200,ANNA\n17,0,B7\n30,88,ANNA\n"),
    );
    // by turns
    join_to(
        "1,1,A\n3,3,C\n5,5,E\n",
        "2,2,B\n4,4,D\n6,6,F\n",
        Ok("1,1,A\n2,2,B\n3,3,C\n4,4,D\n5,5,E\n6,6,F\n"),
    );
    // one amid the other; by value, not as text
    join_to(
        "9,1,A\n010,1,A\n",
        "2,1,A\n100,1,A\n",
        Ok("2,1,A\n9,1,A\n10,1,A\n100,1,A\n"),
    );
    join_to(
        "0,0,0\n4294967295,0,0\n",
        "4294967294,4294967295,A\n",
        Ok("0,0,0\n4294967294,4294967295,A\n4294967295,0,0\n"),
    );
}

#[test]
fn a_join_has_one_spelling() {
    join_to(
        "0000000005,01200,0ANNA\n",
        "06,000,B7\n",
        Ok("5,1200,0ANNA\n6,0,B7\n"),
    );
}

#[test]
fn a_trip_of_both_lists_is_there_once() {
    let list = "5,1200,ANNA\n17,0,B7\n30,88,ANNA\n";
    join_to(list, list, Ok(list));
    // however its numbers are spelled
    join_to(
        "005,1200,ANNA\n17,0,B7\n",
        "5,0000001200,ANNA\n0017,00,B7\n",
        Ok("5,1200,ANNA\n17,0,B7\n"),
    );
    // some of both, at the start, amid and at the end
    join_to(
        "1,1,A\n2,2,B\n",
        "1,1,A\n3,3,C\n",
        Ok("1,1,A\n2,2,B\n3,3,C\n"),
    );
    join_to(
        "1,1,A\n2,2,B\n4,4,D\n",
        "02,2,B\n",
        Ok("1,1,A\n2,2,B\n4,4,D\n"),
    );
    join_to(
        "1,1,A\n9,9,Z\n",
        "2,2,B\n9,9,Z\n",
        Ok("1,1,A\n2,2,B\n9,9,Z\n"),
    );
}

#[test]
fn joins_with_the_empty_list() {
    join_to("", "", Ok(""));
    join_to("05,1,ANNA\n", "", Ok("5,1,ANNA\n"));
    for length in [4095, 4096] {
        let list = list_of(length);
        assert_eq!(joined(&list, ""), Ok(list.clone()));
        assert_eq!(joined("", &list), Ok(list));
    }
}

#[test]
fn trips_of_one_minute_that_differ() {
    for (one, two) in [
        ("5,1,A\n", "5,2,A\n"),
        ("5,1,A\n", "5,1,B\n"),
        ("5,1,A\n", "5,2,B\n"),
        // a digit more, and characters that are no leading zeros
        ("5,1,A\n", "5,10,A\n"),
        ("5,1,A\n", "5,1,AA\n"),
        ("5,1,A\n", "005,01,0A\n"),
        ("5,1,0\n", "5,1,00\n"),
        ("5,0,A\n", "5,4294967295,A\n"),
        // the first, a middle and the last trip of both
        ("1,1,A\n2,2,B\n3,3,C\n", "1,1,B\n2,2,B\n3,3,C\n"),
        ("1,1,A\n2,2,B\n3,3,C\n", "1,1,A\n2,3,B\n3,3,C\n"),
        ("1,1,A\n2,2,B\n3,3,C\n", "1,1,A\n2,2,B\n3,3,D\n"),
        // not side by side
        ("1,1,A\n2,2,B\n9,3,C\n", "7,1,A\n8,2,B\n9,3,D\n"),
        ("9,3,C\n10,1,A\n", "7,1,A\n8,2,B\n9,3,D\n"),
    ] {
        join_to(one, two, Err(TripConflict));
    }
    // swapped fields of neighbouring minutes do not meet
    join_to("5,1,A\n", "6,2,A\n", Ok("5,1,A\n6,2,A\n"));
}

/// Lists of this length each, joined of twice that: lines of 8 bytes, of other
/// minutes.
fn two_lists_of(length: usize) -> [Vec<u8>; 2] {
    let list = |start: usize| -> Vec<u8> {
        (start..start + length / 8)
            .flat_map(|minute| format!("{minute},0,A\n").into_bytes())
            .collect()
    };
    let lists = [list(100), list(550)];
    assert_eq!(lists.each_ref().map(Vec::len), [length; 2]);
    lists
}

#[test]
fn joins_of_4096_bytes_and_more() {
    let [one, two] = two_lists_of(2_048);
    for lists in [[&one, &two], [&two, &one]] {
        assert_eq!(joined(lists[0], lists[1]), Ok([&*one, &*two].concat()));
    }
    // a byte more, at the end of either
    let longer = |list: &[u8]| [&list[..list.len() - 1], b"A\n"].concat();
    join_to(longer(&one), &two, Err(TripsTooLong));
    join_to(&one, longer(&two), Err(TripsTooLong));
    // a list that has no room for one trip more, or for one digit more
    let full = list_of(4_096);
    join_to(&full, "0,0,0\n", Err(TripsTooLong));
    assert_eq!(joined(&full, "0100,00,A\n"), Ok(full));
    // far more
    let [one, two] = two_lists_of(3_200);
    join_to(&one, &two, Err(TripsTooLong));
}

/// It is the joined list whose length counts, in its one spelling.
#[test]
fn long_lists_may_join() {
    // all but one trip in both
    let list = list_of(4_080);
    let other = [b"1,1,A\n", &list[8..]].concat();
    let expected = [b"1,1,A\n", &*list].concat();
    join_to(&list, &other, Ok(std::str::from_utf8(&expected).unwrap()));
    // more bytes than 4,096 by their zeros
    let zeros = |start: usize| -> String {
        (start..start + 150)
            .map(|minute| format!("{minute:010},{:010},A\n", 0))
            .collect()
    };
    let short = |start: usize| -> String {
        (start..start + 150)
            .map(|minute| format!("{minute},0,A\n"))
            .collect()
    };
    assert_eq!(zeros(100).len(), 3_600);
    join_to(zeros(100), zeros(300), Ok(&(short(100) + &short(300))));
}

#[test]
fn the_order_of_the_refusals_of_a_join() {
    let long = [b'x'; 4_097];
    let (form, order) = ("5,1,a\n", "5,1,A\n5,1,A\n");
    let refused = |first: &[u8], second: &[u8], refusal| {
        assert_eq!(joined(first, second), Err(refusal));
    };
    // the first list before the second
    for (first, second, refusal) in [
        (form.as_bytes(), order.as_bytes(), TripForm),
        (order.as_bytes(), form.as_bytes(), TripOrder),
        (form.as_bytes(), &long, TripForm),
        (order.as_bytes(), &long, TripOrder),
        (&long, form.as_bytes(), Range),
        (&long, order.as_bytes(), Range),
        (&long, &long, Range),
    ] {
        refused(first, second, refusal);
    }
    // a line late in the first list, before the length of the second
    let late = [&list_of(4_000), form.as_bytes()].concat();
    refused(&late, &long, TripForm);
    let late = [&list_of(4_000), &b"999,1,A\n"[..]].concat();
    refused(&late, &long, TripOrder);

    // a list that is refused, before a conflict with what is sound of it
    for (bad, refusal) in [
        ("1,1,A\n2,2,B\n3,3,c\n", TripForm),
        ("1,1,A\n2,2,B\n2,2,B\n", TripOrder),
        ("1,1,A\n2,2,B", TripForm),
    ] {
        join_to("1,9,A\n2,2,B\n", bad, Err(refusal));
        join_to("1,1,A\n2,9,B\n7,7,G\n", bad, Err(refusal));
    }
    join_to(
        "1,9,A\n",
        [b"1,1,A\n", &[b'x'; 4_091][..]].concat(),
        Err(Range),
    );

    // a list that is refused, before a join that is too long
    let [one, two] = two_lists_of(3_200);
    for (tail, refusal) in [("999,0,a\n", TripForm), ("99,0,A\n", TripOrder)] {
        join_to(&one, [&*two, tail.as_bytes()].concat(), Err(refusal));
        join_to([&*one, tail.as_bytes()].concat(), &two, Err(refusal));
    }

    // a conflict before a join that is too long, wherever it is
    for minute in [100, 300, 499] {
        let other = format!("{minute},1,A\n").into_bytes();
        join_to(&one, [&*other, &*two].concat(), Err(TripConflict));
    }
    let last = |metres| format!("999,{metres},A\n").into_bytes();
    join_to(
        [&*one, &*last(0)].concat(),
        [&*two, &*last(1)].concat(),
        Err(TripConflict),
    );
}
