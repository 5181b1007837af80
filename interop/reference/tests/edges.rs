//! The cases of "Edges, from a formatted and mounted box".

mod common;

use common::{contents, cut, mounted, on_media, refused, runs, synced};
use reference::device::Device;
use reference::store::Answer::Done;
use reference::store::Refusal::{NoRoom, Range};

#[test]
fn one_byte_at_4095() {
    let mut device = mounted();
    assert_eq!(device.write(3, 4095, &[1]), Done(1));
    assert_eq!(device.state.logical[3], 4096);
    assert_eq!(contents(&device, 3), runs(&[(4095, 0), (1, 1)]));
}

#[test]
fn two_bytes_at_4095() {
    let mut device = mounted();
    let before = device.clone();
    assert_eq!(device.write(3, 4095, &[1, 1]), refused(Range));
    assert_eq!(device, before);
}

#[test]
fn no_bytes_at_4096() {
    let mut device = mounted();
    let before = device.clone();
    assert_eq!(device.write(3, 4096, &[]), Done(0));
    assert_eq!(device.state.logical[3], 0);
    assert_eq!(device, before);
}

#[test]
fn no_bytes_at_4097() {
    assert_eq!(mounted().write(3, 4097, &[]), refused(Range));
}

#[test]
fn truncate_to_4096() {
    let mut device = mounted();
    assert_eq!(device.truncate(3, 4096), Done(0));
    let mut buffer = [9; 3];
    assert_eq!(device.read(3, 0, &mut buffer), Done(3));
    assert_eq!(buffer, [0; 3]);
}

#[test]
fn truncate_to_4097() {
    let mut device = mounted();
    let before = device.clone();
    assert_eq!(device.truncate(3, 4097), refused(Range));
    assert_eq!(device, before);
}

#[test]
fn sync_of_300_bytes_needs_3_media_writes() {
    let mut written = mounted();
    assert_eq!(written.write(3, 0, &[7; 300]), Done(300));
    for budget in 0..3 {
        assert_eq!(written.clone().sync(3, budget), cut(budget));
    }
    for budget in 3..6 {
        assert_eq!(written.clone().sync(3, budget), Done(3));
    }
    assert_eq!(written.sync(3, usize::MAX), Done(3));
    assert_eq!(on_media(&written, 3), [7; 300]);
}

#[test]
fn second_sync_needs_nothing() {
    let mut device = mounted();
    assert_eq!(device.write(3, 0, &[7; 300]), Done(300));
    assert_eq!(device.sync(3, 3), Done(3));
    let before = device.clone();
    assert_eq!(device.sync(3, 0), Done(0));
    assert_eq!(device, before);
}

#[test]
fn truncates_to_100_and_200() {
    let mut device = synced(&[7; 300]);
    assert_eq!(device.truncate(0, 100), Done(0));
    assert_eq!(device.truncate(0, 200), Done(0));
    assert_eq!(device.clone().sync(0, 1), cut(1));
    assert_eq!(device.sync(0, 2), Done(2));
    let expected = runs(&[(100, 7), (100, 0)]);
    assert_eq!(contents(&device, 0), expected);
    assert_eq!(on_media(&device, 0), expected);
}

#[test]
fn overwrite_cut_after_1() {
    let mut device = synced(&[b'A'; 300]);
    assert_eq!(device.write(0, 0, &[b'B'; 300]), Done(300));
    assert_eq!(device.sync(0, 1), cut(1));
    assert_eq!(device.mount(0), Done(0));
    assert_eq!(contents(&device, 0), runs(&[(256, b'B'), (44, b'A')]));
}

/// 600 bytes A synced, 20 B written at 500, then 10 C at 0.
fn two_writes() -> Device {
    let mut device = synced(&[b'A'; 600]);
    assert_eq!(device.write(0, 500, &[b'B'; 20]), Done(20));
    assert_eq!(device.write(0, 0, &[b'C'; 10]), Done(10));
    device
}

#[test]
fn two_writes_cut_after_1() {
    let mut device = two_writes();
    assert_eq!(device.sync(0, 1), cut(1));
    assert_eq!(device.mount(0), Done(0));
    assert_eq!(contents(&device, 0), runs(&[(10, b'C'), (590, b'A')]));
}

#[test]
fn two_writes_cut_after_2() {
    let mut device = two_writes();
    assert_eq!(device.sync(0, 2), cut(2));
    assert_eq!(device.mount(0), Done(0));
    assert_eq!(
        contents(&device, 0),
        runs(&[(10, b'C'), (490, b'A'), (12, b'B'), (88, b'A')])
    );
}

#[test]
fn full_cache() {
    let mut device = mounted();
    assert_eq!(device.write(0, 0, &[1; 4096]), Done(4096));
    assert_eq!(device.write(1, 0, &[2; 2048]), Done(2048));
    assert!(device.state.slots.iter().all(|slot| slot.used));
    let before = device.clone();
    assert_eq!(device.write(2, 0, &[3]), refused(NoRoom));
    assert_eq!(device, before);
    assert_eq!(device.write(2, 0, &[]), Done(0));
    assert_eq!(device.write(1, 2048, &[]), Done(0));
    assert_eq!(device, before);
    assert_eq!(device.write(1, 2000, &[4; 100]), Done(48));
    assert_eq!(contents(&device, 1), runs(&[(2000, 2), (48, 4)]));
}
