//! The five "Traps in this trade". Each test shows what the store does and
//! what the trap would have given, which is something else.

mod common;

use common::{contents, cut, mounted, on_media, runs, synced};
use reference::model::{explained, Entry};
use reference::store::{self, Answer::Done, PAGE};

#[test]
fn pages_are_stored_in_page_order_not_slot_order() {
    let durable = [b'A'; 768];
    let mut device = synced(&durable);
    assert_eq!(device.write(0, 600, b"X"), Done(1));
    assert_eq!(device.write(0, 0, &[b'B'; 768]), Done(768));
    // Page 2 was cached first, so it stands in a slot before those of 0 and 1.
    let slots = [0, 1, 2].map(|page| device.state.slot_of(0, page).unwrap());
    assert!(slots[2] < slots[0] && slots[0] < slots[1]);
    let mut trapped = device.clone();

    assert_eq!(device.sync(0, 2), cut(2));
    assert_eq!(device.mount(0), Done(0));
    let found = contents(&device, 0);
    assert_eq!(found, runs(&[(512, b'B'), (256, b'A')]));

    for page in [2, 0] {
        let slot = slots[page];
        let frame = trapped.frames[slot * PAGE..][..PAGE].to_vec();
        store::store_page(&mut trapped.media[page * PAGE..][..PAGE], &frame).unwrap();
    }
    assert_eq!(trapped.mount(0), Done(0));
    let lost_middle = contents(&trapped, 0);
    assert_eq!(lost_middle, runs(&[(256, b'B'), (256, b'A'), (256, b'B')]));

    let log = [
        Entry::Write {
            position: 600,
            bytes: vec![b'X'],
        },
        Entry::Write {
            position: 0,
            bytes: vec![b'B'; 768],
        },
    ];
    assert!(explained(&durable, &log, &found));
    assert!(!explained(&durable, &log, &lost_middle));
}

#[test]
fn size_is_stored_after_the_pages() {
    let mut device = mounted();
    assert_eq!(device.write(0, 0, &[b'A'; 300]), Done(300));
    let log = [Entry::Write {
        position: 0,
        bytes: vec![b'A'; 300],
    }];
    for budget in 0..3 {
        let mut cut_short = device.clone();
        assert_eq!(cut_short.sync(0, budget), cut(budget));
        assert_eq!(cut_short.sizes[0], 0);
        assert!(cut_short.mount(1).done().is_some());
        assert!(contents(&cut_short, 0).is_empty());
        assert!(explained(&[], &log, &[]));
    }
    let mut trapped = device.clone();
    store::store_size(&mut trapped.sizes, 0, 300).unwrap();
    assert_eq!(trapped.mount(0), Done(0));
    assert_eq!(contents(&trapped, 0), [0; 300]);
    assert!(!explained(&[], &log, &[0; 300]));
}

#[test]
fn smallest_truncate_counts_not_the_latest() {
    let mut device = synced(&[b'A'; 400]);
    assert_eq!(device.truncate(0, 100), Done(0));
    assert_eq!(device.truncate(0, 300), Done(0));
    let mut trapped = device.clone();
    let expected = runs(&[(100, b'A'), (200, 0)]);
    assert_eq!(contents(&device, 0), expected);
    assert_eq!(device.sync(0, 2), Done(2));
    assert_eq!(on_media(&device, 0), expected);

    store::trim(&mut trapped.media, &mut trapped.sizes, 0, 300).unwrap();
    assert_ne!(on_media(&trapped, 0), expected);
    assert_eq!(on_media(&trapped, 0), [b'A'; 300]);
}

#[test]
fn trim_is_made_even_if_the_size_ends_where_it_began() {
    let mut device = synced(&[b'A'; 300]);
    assert_eq!(device.truncate(0, 100), Done(0));
    assert_eq!(device.truncate(0, 300), Done(0));
    assert_eq!(device.state.logical[0], device.sizes[0] as usize);
    let expected = runs(&[(100, b'A'), (200, 0)]);
    let skipped = device.clone();
    assert_eq!(device.sync(0, 2), Done(2));
    assert_eq!(on_media(&device, 0), expected);
    assert_eq!(device.mount(0), Done(0));
    assert_eq!(contents(&device, 0), expected);
    assert_eq!(on_media(&skipped, 0), [b'A'; 300]);
}

#[test]
fn mount_clears_bytes_past_the_stored_size() {
    let mut device = mounted();
    assert_eq!(device.write(0, 0, &[b'A'; 300]), Done(300));
    assert_eq!(device.sync(0, 2), cut(2));
    let mut trapped = device.clone();

    assert_eq!(device.clone().mount(0), cut(0));
    assert_eq!(device.mount(1), Done(1));
    assert_eq!(device.truncate(0, 300), Done(0));
    assert_eq!(device.sync(0, 1), Done(1));
    assert_eq!(contents(&device, 0), [0; 300]);
    assert_eq!(on_media(&device, 0), [0; 300]);

    trapped.state.mounted = 1;
    assert_eq!(trapped.truncate(0, 300), Done(0));
    assert_eq!(trapped.sync(0, 1), Done(1));
    assert_eq!(on_media(&trapped, 0), [b'A'; 300]);
}
