//! Every method of a device, and every refusal that one can give.

use boxstore::{
    Device, Error, FILES, FILE_BYTES, MEDIA_BYTES, MOUNT_WRITES, PAGE_BYTES, SLOTS, STATE_MOUNTED,
    STATE_SLOTS, SYNC_WRITES,
};

fn mounted() -> Device {
    let mut device = Device::new();
    assert_eq!(device.format(MOUNT_WRITES), Ok(0));
    assert_eq!(device.mount(MOUNT_WRITES), Ok(0));
    device
}

/// A device that has each file's pages cached, as many as are told.
fn cached(pages: &[usize]) -> Device {
    let mut device = mounted();
    for (file, &count) in pages.iter().enumerate() {
        let bytes = vec![file as u8 + 1; count * PAGE_BYTES];
        assert_eq!(device.write(file, 0, &bytes), Ok(bytes.len()));
    }
    device
}

#[test]
fn a_new_device_is_down_and_empty() {
    let device = Device::new();
    assert!(!device.is_mounted());
    assert_eq!(device.cached_pages(), 0);
    assert_eq!(device.media(), &[0; MEDIA_BYTES]);
    assert_eq!(device.sizes(), &[0; FILES]);
    assert_eq!(
        Device::default().into_media(),
        ([0; MEDIA_BYTES], [0; FILES])
    );
}

#[test]
fn a_synced_file_survives() {
    let mut device = mounted();
    assert_eq!(device.write(0, 0, b"SN-000042-A7"), Ok(12));
    assert_eq!(device.sizes()[0], 0);
    assert_eq!(device.sync(0, SYNC_WRITES), Ok(2));
    assert_eq!(device.sizes()[0], 12);
    assert_eq!(&device.media()[..12], b"SN-000042-A7");
    device.cut_power();
    assert!(!device.is_mounted());
    assert_eq!(device.mount(0), Ok(0));
    assert!(device.is_mounted());
    assert_eq!(device.read_all(0).unwrap(), b"SN-000042-A7");
}

#[test]
fn what_was_not_synced_is_gone() {
    let mut device = mounted();
    device.write(2, 0, &[1; 100]).unwrap();
    device.sync(2, SYNC_WRITES).unwrap();
    device.write(2, 50, &[2; 100]).unwrap();
    device.cut_power();
    device.mount(MOUNT_WRITES).unwrap();
    assert_eq!(device.read_all(2).unwrap(), [1; 100]);

    device.write(2, 50, &[2; 100]).unwrap();
    assert_eq!(device.mount(MOUNT_WRITES), Ok(0));
    assert_eq!(device.read_all(2).unwrap(), [1; 100]);
}

#[test]
fn media_go_from_device_to_device() {
    let mut device = mounted();
    device.write(7, 4_000, &[9; 96]).unwrap();
    device.sync(7, SYNC_WRITES).unwrap();
    device.write(6, 0, &[8; 10]).unwrap();
    let (media, sizes) = device.into_media();
    assert_eq!(media.len(), MEDIA_BYTES);
    assert_eq!(sizes, [0, 0, 0, 0, 0, 0, 0, 4_096]);
    assert_eq!(media[MEDIA_BYTES - 96..], [9; 96]);

    let mut found = Device::from_media(&media, sizes).unwrap();
    assert!(!found.is_mounted());
    assert_eq!(found.mount(0), Ok(0));
    assert_eq!(found.len(7), Ok(4_096));
    assert_eq!(found.len(6), Ok(0));
}

#[test]
fn media_are_filled_in_place() {
    let mut device = cached(&[1]);
    let (media, sizes) = device.media_mut();
    media[FILE_BYTES..FILE_BYTES + 12].copy_from_slice(b"SN-000042-A7");
    sizes[1] = 9;
    assert!(!device.is_mounted());
    assert_eq!(device.cached_pages(), 0);
    assert_eq!(device.mount(MOUNT_WRITES), Ok(1));
    assert_eq!(device.len(0), Ok(0));
    assert_eq!(device.read_all(1).unwrap(), b"SN-000042");
}

#[test]
fn a_device_has_its_memory_inline() {
    static DEVICE: Device = Device::new();
    assert_eq!(size_of::<Device>(), 39_084);
    assert_eq!(DEVICE.media(), &[0; MEDIA_BYTES]);
}

#[test]
fn media_of_another_length_are_refused() {
    for length in [0, MEDIA_BYTES - 1, MEDIA_BYTES + 1] {
        let refused = Device::from_media(&vec![0; length], [0; FILES]);
        assert_eq!(refused.map(drop), Err(Error::Shape));
    }
}

#[test]
fn a_stored_size_that_no_file_has_is_refused() {
    let mut sizes = [0; FILES];
    sizes[5] = 4_097;
    let mut device = Device::from_media(&[3; MEDIA_BYTES], sizes).unwrap();
    assert_eq!(device.mount(MOUNT_WRITES), Err(Error::Media));
    // before DOWN and NO FILE
    for file in [0, 5, 8] {
        assert_eq!(device.read(file, 0, &mut [0]), Err(Error::Media));
        assert_eq!(device.read_all(file), Err(Error::Media));
        assert_eq!(device.len(file), Err(Error::Media));
    }
    assert_eq!(device.media(), &[3; MEDIA_BYTES]);
    assert_eq!(device.sizes(), &sizes);
    assert_eq!(device.format(MOUNT_WRITES), Ok(8));
    assert_eq!(device.mount(0), Ok(0));
    assert_eq!(device.sizes(), &[0; FILES]);
}

#[test]
fn format_empties_all_files() {
    let mut device = cached(&[1, 2, 0, 3]);
    for file in 0..4 {
        device.sync(file, SYNC_WRITES).unwrap();
    }
    assert_eq!(device.clone().format(2), Err(Error::Cut { done: 2 }));
    assert_eq!(device.format(3), Ok(3));
    assert!(!device.is_mounted());
    assert_eq!(device.media(), &[0; MEDIA_BYTES]);
    assert_eq!(device.sizes(), &[0; FILES]);
}

#[test]
fn a_format_that_is_cut_empties_the_first_files() {
    let mut device = cached(&[1, 1]);
    device.sync(0, SYNC_WRITES).unwrap();
    device.sync(1, SYNC_WRITES).unwrap();
    assert_eq!(device.format(1), Err(Error::Cut { done: 1 }));
    assert!(!device.is_mounted());
    device.mount(MOUNT_WRITES).unwrap();
    assert_eq!(device.len(0), Ok(0));
    assert_eq!(device.read_all(1).unwrap(), [2; PAGE_BYTES]);
}

#[test]
fn a_mount_trims_what_a_cut_sync_left() {
    let mut device = mounted();
    device.write(1, 0, &[65; 300]).unwrap();
    assert_eq!(device.sync(1, 2), Err(Error::Cut { done: 2 }));
    assert!(!device.is_mounted());
    assert_eq!(device.media()[4_096..4_396], [65; 300]);
    assert_eq!(device.mount(0), Err(Error::Cut { done: 0 }));
    assert!(!device.is_mounted());
    assert_eq!(device.mount(1), Ok(1));
    assert_eq!(device.media(), &[0; MEDIA_BYTES]);
    assert_eq!(device.len(1), Ok(0));
}

#[test]
fn a_sync_that_is_cut_leaves_old_or_new_bytes() {
    let mut device = mounted();
    device.write(1, 0, &[b'A'; 300]).unwrap();
    device.sync(1, SYNC_WRITES).unwrap();
    device.write(1, 0, &[b'B'; 300]).unwrap();
    assert_eq!(device.sync(1, 1), Err(Error::Cut { done: 1 }));
    device.cut_power();
    device.mount(MOUNT_WRITES).unwrap();
    let found = device.read_all(1).unwrap();
    assert_eq!(found[..256], [b'B'; 256]);
    assert_eq!(found[256..], [b'A'; 44]);
}

#[test]
fn a_sync_with_nothing_to_store_needs_no_budget() {
    let mut device = cached(&[1]);
    assert_eq!(device.sync(0, SYNC_WRITES), Ok(2));
    assert_eq!(device.sync(0, 0), Ok(0));
}

#[test]
fn the_greatest_sync_fits_its_budget() {
    let mut device = mounted();
    device.write(4, 0, &[1; FILE_BYTES]).unwrap();
    device.sync(4, SYNC_WRITES).unwrap();
    device.truncate(4, 0).unwrap();
    device.write(4, 0, &[2; FILE_BYTES]).unwrap();
    let mut once_more = device.clone();
    assert_eq!(
        once_more.sync(4, SYNC_WRITES - 1),
        Err(Error::Cut { done: 17 })
    );
    assert_eq!(device.sync(4, SYNC_WRITES), Ok(SYNC_WRITES));
}

#[test]
fn a_read_stops_at_the_logical_size() {
    let mut device = mounted();
    device.write(3, 0, b"hello").unwrap();
    let mut buffer = [b'.'; 8];
    assert_eq!(device.read(3, 1, &mut buffer), Ok(4));
    assert_eq!(&buffer, b"ello....");
    for position in [5, 6, 4_096] {
        assert_eq!(device.read(3, position, &mut buffer), Ok(0));
    }
    assert_eq!(device.read(3, 0, &mut []), Ok(0));
    assert_eq!(&buffer, b"ello....");
}

#[test]
fn a_gap_before_a_write_is_zeros() {
    let mut device = mounted();
    device.write(3, 600, b"end").unwrap();
    assert_eq!(device.len(3), Ok(603));
    let bytes = device.read_all(3).unwrap();
    assert_eq!(bytes[..600], [0; 600]);
    assert_eq!(&bytes[600..], b"end");
}

#[test]
fn truncate_cuts_and_fills() {
    let mut device = mounted();
    device.write(3, 0, &[7; 300]).unwrap();
    device.sync(3, SYNC_WRITES).unwrap();
    assert_eq!(device.truncate(3, 100), Ok(()));
    assert_eq!(device.len(3), Ok(100));
    assert_eq!(device.truncate(3, 200), Ok(()));
    let bytes = device.read_all(3).unwrap();
    assert_eq!(bytes[..100], [7; 100]);
    assert_eq!(bytes[100..], [0; 100]);
    assert_eq!(device.sync(3, SYNC_WRITES), Ok(2));
    assert_eq!(device.sizes()[3], 200);
}

#[test]
fn a_look_is_no_copy() {
    let mut device = mounted();
    device.write(2, 0, &[5; 300]).unwrap();
    // cached: the part is not in the media
    let cached = device.look(2, 10).unwrap();
    assert_eq!(cached, [5; 246]);
    assert!(!device.media().as_ptr_range().contains(&cached.as_ptr()));
    assert_eq!(device.look(2, 256).unwrap(), [5; 44]);

    device.sync(2, SYNC_WRITES).unwrap();
    let stored = device.look(2, 10).unwrap();
    assert_eq!(stored, [5; 246]);
    assert!(std::ptr::eq(
        stored.as_ptr(),
        &device.media()[2 * 4_096 + 10]
    ));
    assert_eq!(device.look_count(2, 10), Ok(246));
}

#[test]
fn what_a_look_leaves_out_is_zeros() {
    let mut device = mounted();
    device.write(2, 0, &[5; 100]).unwrap();
    device.sync(2, SYNC_WRITES).unwrap();
    device.truncate(2, 700).unwrap();
    assert_eq!(device.look(2, 40).unwrap(), [5; 60]);
    assert_eq!(device.look_count(2, 40), Ok(216));
    assert_eq!(device.look(2, 512).unwrap(), []);
    assert_eq!(device.look_count(2, 512), Ok(188));
    let mut rest = [9; 156];
    assert_eq!(device.read(2, 100, &mut rest), Ok(156));
    assert_eq!(rest, [0; 156]);

    assert_eq!(device.look(2, 700).unwrap(), []);
    assert_eq!(device.look_count(2, 700), Ok(0));
    assert_eq!(device.look(7, FILE_BYTES).unwrap(), []);
    assert_eq!(device.look_count(7, FILE_BYTES), Ok(0));
}

#[test]
fn a_full_cache_cuts_writes_short() {
    let mut device = cached(&[16, 8]);
    assert_eq!(device.cached_pages(), SLOTS);
    assert_eq!(device.write(2, 0, &[1]), Err(Error::NoRoom));
    assert_eq!(device.write(1, 2_000, &[1; 100]), Ok(48));
    assert_eq!(device.write(2, 0, &[]), Ok(0));
    assert_eq!(device.len(2), Ok(0));
    device.sync(1, SYNC_WRITES).unwrap();
    assert_eq!(device.cached_pages(), 16);
    assert_eq!(device.write(2, 0, &[1]), Ok(1));
}

#[test]
fn a_device_that_is_down_refuses_all_but_mount_and_format() {
    let mut device = mounted();
    device.write(0, 0, &[1; 10]).unwrap();
    device.cut_power();
    let mut buffer = [3; 4];
    assert_eq!(device.read(0, 0, &mut buffer), Err(Error::Down));
    assert_eq!(buffer, [3; 4]);
    assert_eq!(device.read_all(0), Err(Error::Down));
    assert_eq!(device.write(0, 0, &[1]), Err(Error::Down));
    assert_eq!(device.truncate(0, 0), Err(Error::Down));
    assert_eq!(device.sync(0, SYNC_WRITES), Err(Error::Down));
    assert_eq!(device.look(0, 0), Err(Error::Down));
    assert_eq!(device.look_count(0, 0), Err(Error::Down));
    assert_eq!(device.len(0), Err(Error::Down));
    // the first refusal that applies
    assert_eq!(device.len(8), Err(Error::Down));
    assert_eq!(device.write(8, 5_000, &[1]), Err(Error::Down));
    assert_eq!(device.mount(MOUNT_WRITES), Ok(0));
}

#[test]
fn there_is_no_file_8() {
    let mut device = mounted();
    for file in [8, 1 << 32, usize::MAX] {
        assert_eq!(device.read(file, 5_000, &mut [0]), Err(Error::NoFile));
        assert_eq!(device.read_all(file), Err(Error::NoFile));
        assert_eq!(device.write(file, 5_000, &[1]), Err(Error::NoFile));
        assert_eq!(device.truncate(file, 5_000), Err(Error::NoFile));
        assert_eq!(device.sync(file, 0), Err(Error::NoFile));
        assert_eq!(device.look(file, 5_000), Err(Error::NoFile));
        assert_eq!(device.look_count(file, 5_000), Err(Error::NoFile));
        assert_eq!(device.len(file), Err(Error::NoFile));
    }
}

#[test]
fn nothing_is_past_4096() {
    let mut device = mounted();
    assert_eq!(device.write(0, 4_095, &[1]), Ok(1));
    assert_eq!(device.write(0, 4_095, &[1, 2]), Err(Error::Range));
    assert_eq!(device.write(0, 4_096, &[]), Ok(0));
    for beyond in [4_097, 1 << 32, usize::MAX] {
        assert_eq!(device.write(0, beyond, &[1]), Err(Error::Range));
        assert_eq!(device.write(0, beyond, &[]), Err(Error::Range));
        assert_eq!(device.truncate(0, beyond), Err(Error::Range));
        assert_eq!(device.read(0, beyond, &mut [0]), Err(Error::Range));
        assert_eq!(device.look(0, beyond), Err(Error::Range));
        assert_eq!(device.look_count(0, beyond), Err(Error::Range));
    }
    assert_eq!(device.len(0), Ok(4_096));
}

#[test]
fn debug_is_short() {
    let device = cached(&[1, 2]);
    assert_eq!(
        format!("{device:?}"),
        "Device { mounted: true, logical: [256, 512, 0, 0, 0, 0, 0, 0], \
         stored: [0, 0, 0, 0, 0, 0, 0, 0], cached_pages: 3, .. }"
    );
    assert_eq!(
        format!("{:?}", Device::new()),
        "Device { mounted: false, logical: [], stored: [0, 0, 0, 0, 0, 0, 0, 0], cached_pages: 0, .. }"
    );
}

#[test]
fn len_and_read_all_are_refused_as_a_read_is() {
    let mut sizes = [0; FILES];
    sizes[7] = 4097;
    let mut device = Device::from_media(&[0; MEDIA_BYTES], sizes).unwrap();
    assert_eq!(device.read(0, 0, &mut []), Err(Error::Media));
    assert_eq!(device.len(0), Err(Error::Media));
    assert_eq!(device.read_all(0), Err(Error::Media));
    device = Device::new();
    assert_eq!(device.len(8), Err(Error::Down));
    device.mount(MOUNT_WRITES).unwrap();
    assert_eq!(device.len(8), Err(Error::NoFile));
    assert_eq!(device.read_all(8), Err(Error::NoFile));
}

#[test]
fn state_and_frames_show_what_a_driver_stores() {
    let mut device = mounted();
    device.write(3, 300, b"driver").unwrap();
    // slot 0 is used, by page 1 of file 3
    assert_eq!(device.state()[STATE_MOUNTED], 1);
    assert_eq!(device.state()[STATE_SLOTS..STATE_SLOTS + 3], [1, 3, 1]);
    assert_eq!(&device.frames()[300 - 256..306 - 256], b"driver");
    assert_eq!(device.frames()[..300 - 256], [0; 44]);
}
