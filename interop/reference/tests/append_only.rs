//! The append-only part, sentence by sentence, on records made by hand.

mod common;

use common::{cut, refused, runs};
use reference::part::{Damage, Geometry, Part, Record, Step, Write, BLOCK, RECORD};
use reference::part_device::PartDevice;
use reference::part_store::PART_LEN;
use reference::store::Refusal::{
    Books, Damaged, Down, Exhausted, Media, NoFile, NoRoom, Range, Shape,
};
use reference::store::{Answer, CacheState, FRAMES_LEN, MEDIA_LEN};

const SHORT: Geometry = Geometry::SHORT;
const ALL: usize = usize::MAX;

fn page(page: usize, byte: u8) -> Write {
    Write::Page {
        page,
        bytes: Box::new([byte; 256]),
    }
}

fn size(size: usize) -> Write {
    Write::Size { size }
}

fn trim(size: usize) -> Write {
    Write::Trim { size }
}

fn record(number: u32, file: usize, write: Write) -> Record {
    Record {
        number,
        file,
        write,
    }
}

fn put(part: &mut [u8], block: usize, place: usize, record: Record) {
    Step::Program {
        block,
        place,
        record,
    }
    .apply(part);
}

/// A part with these records, from the first place of a block on.
fn part(blocks: &[(usize, Vec<Record>)]) -> Vec<u8> {
    let mut part = vec![255; PART_LEN];
    for (block, records) in blocks {
        for (place, record) in records.iter().enumerate() {
            put(&mut part, *block, place, record.clone());
        }
    }
    part
}

/// 64 records that leave nothing valid: file 7 is trimmed to 0 again and again.
fn idle(first: u32) -> Vec<Record> {
    (first..first + 64)
        .map(|number| record(number, 7, trim(0)))
        .collect()
}

fn damage(part: &[u8]) -> Option<Damage> {
    Part::decode(SHORT, part).err()
}

fn intact(part: &[u8]) -> Part {
    Part::decode(SHORT, part).unwrap()
}

/// A box with this part, before a mount.
fn device(part: Vec<u8>) -> PartDevice {
    PartDevice {
        part,
        ..PartDevice::new()
    }
}

/// A box with this part, mounted with no step.
fn mounted(part: Vec<u8>) -> PartDevice {
    let mut device = device(part);
    assert_eq!(device.mount(0), Answer::Done(0));
    device
}

fn record_at(device: &PartDevice, block: usize, place: usize) -> Option<Record> {
    let at = block * BLOCK + place * RECORD;
    Record::decode(SHORT, &device.part[at..at + RECORD]).unwrap()
}

#[test]
fn lengths() {
    assert_eq!(RECORD, 264);
    assert_eq!(PART_LEN, 101_376);
    assert_eq!(Geometry::LONG.media_len(), 131_072);
    assert_eq!(Geometry::LONG.part_len(), 18 * 64 * 264);
}

#[test]
fn the_bytes_of_a_record() {
    let mut bytes = record(0x0102_0304, 5, size(0x0f0e)).encode();
    assert_eq!(bytes[..8], [4, 3, 2, 1, 2, 5, 0x0e, 0x0f]);
    assert!(bytes[8..].iter().all(|&byte| byte == 0));
    bytes = record(1, 7, page(15, 9)).encode();
    assert_eq!(bytes[..8], [1, 0, 0, 0, 1, 7, 15, 0]);
    assert!(bytes[8..].iter().all(|&byte| byte == 9));
    bytes = record(u32::MAX, 0, trim(4096)).encode();
    assert_eq!(bytes[..8], [255, 255, 255, 255, 3, 0, 0, 16]);
    for written in [
        record(0x0102_0304, 5, size(0x0f0e)),
        record(1, 7, page(15, 9)),
        record(u32::MAX, 0, trim(4096)),
    ] {
        assert_eq!(Record::decode(SHORT, &written.encode()), Ok(Some(written)));
    }
}

#[test]
fn blank_is_all_255() {
    let mut bytes = [255; 264];
    assert_eq!(Record::decode(SHORT, &bytes), Ok(None));
    for at in [0, 5, 6, 8, 263] {
        bytes[at] = 254;
        assert_eq!(Record::decode(SHORT, &bytes), Err(Damage::Kind));
        bytes[at] = 255;
    }
}

#[test]
fn a_record_beyond_a_limit() {
    let wrong = |at: usize, byte: u8, of: Record| {
        let mut bytes = of.encode();
        bytes[at] = byte;
        Record::decode(SHORT, &bytes)
    };
    let any = || record(1, 1, page(1, 1));
    assert_eq!(wrong(0, 0, any()), Err(Damage::Number));
    for kind in [0, 4, 128, 255] {
        assert_eq!(wrong(4, kind, any()), Err(Damage::Kind));
    }
    assert_eq!(wrong(5, 8, any()), Err(Damage::File));
    assert_eq!(wrong(5, 255, any()), Err(Damage::File));
    assert_eq!(wrong(6, 16, any()), Err(Damage::Page));
    // both bytes of the field count
    assert_eq!(wrong(7, 1, any()), Err(Damage::Page));
    for write in [size(4096), trim(4096)] {
        assert!(wrong(0, 1, record(1, 1, write.clone())).is_ok());
        assert_eq!(wrong(6, 1, record(1, 1, write)), Err(Damage::Size));
    }
    // a payload beside a size means nothing
    for write in [size(5), trim(5)] {
        let plain = record(1, 1, write);
        assert_eq!(wrong(100, 7, plain.clone()), Ok(Some(plain)));
    }
}

#[test]
fn numbers_in_a_block() {
    let of = |numbers: &[u32]| {
        let records = numbers.iter().map(|&number| record(number, 0, size(1)));
        damage(&part(&[(3, records.collect())]))
    };
    assert_eq!(of(&[1, 2, 3]), None);
    assert_eq!(of(&[1, 3, u32::MAX]), None);
    assert_eq!(of(&[1, 2, 2]), Some(Damage::Order));
    assert_eq!(of(&[1, 3, 2]), Some(Damage::Order));
    assert_eq!(of(&[0, 1]), Some(Damage::Number));
}

#[test]
fn a_blank_before_a_programmed_record() {
    let mut bytes = part(&[]);
    put(&mut bytes, 2, 1, record(1, 0, size(1)));
    assert_eq!(damage(&bytes), Some(Damage::Gap));
    put(&mut bytes, 2, 0, record(1, 0, size(1)));
    assert_eq!(damage(&bytes), Some(Damage::Order));
    put(&mut bytes, 2, 1, record(2, 0, size(1)));
    assert_eq!(damage(&bytes), None);
}

#[test]
fn two_blocks_overlap() {
    // from the first to the last number, even where none is there twice
    let mut odd: Vec<Record> = (0..64).map(|i| record(2 * i + 1, 7, trim(0))).collect();
    let even: Vec<Record> = (0..64).map(|i| record(2 * i + 2, 7, trim(0))).collect();
    assert_eq!(
        damage(&part(&[(0, odd.clone()), (1, even.clone())])),
        Some(Damage::Overlap)
    );
    assert_eq!(
        damage(&part(&[
            (0, odd.clone()),
            (1, vec![record(128, 0, size(1))])
        ])),
        None
    );
    assert_eq!(
        damage(&part(&[
            (0, odd.clone()),
            (1, vec![record(127, 0, size(1))])
        ])),
        Some(Damage::Overlap)
    );
    odd[63].number = u32::MAX;
    assert_eq!(
        damage(&part(&[(0, odd), (1, vec![record(128, 0, size(1))])])),
        Some(Damage::Overlap)
    );
}

#[test]
fn a_partly_blank_block() {
    let short = |first| idle(first)[..63].to_vec();
    assert_eq!(damage(&part(&[(0, short(1))])), None);
    assert_eq!(
        damage(&part(&[(0, short(1)), (1, idle(100))])),
        Some(Damage::PartlyBlank)
    );
    assert_eq!(damage(&part(&[(0, short(100)), (1, idle(1))])), None);
    // blank blocks between them are no damage
    assert_eq!(damage(&part(&[(4, idle(1)), (2, short(100))])), None);
}

/// The oldest block is block 5 with `valid` pages of files 0 to 3; the newest,
/// block 0, is blank from place `used` on.
fn nearly_full(valid: usize, used: usize) -> Vec<u8> {
    let mut oldest = idle(1);
    for (index, record) in oldest.iter_mut().take(valid).enumerate() {
        record.file = index / 16;
        record.write = page(index % 16, 1 + index as u8);
    }
    part(&[
        (5, oldest),
        (4, idle(101)),
        (3, idle(201)),
        (2, idle(301)),
        (1, idle(401)),
        (0, idle(501)[..used].to_vec()),
    ])
}

#[test]
fn fewer_blank_than_the_oldest_block_has_valid() {
    assert_eq!(damage(&nearly_full(10, 54)), None);
    assert_eq!(damage(&nearly_full(10, 55)), Some(Damage::Spare));
    assert_eq!(damage(&nearly_full(0, 64)), None);
    assert_eq!(damage(&nearly_full(1, 64)), Some(Damage::Spare));
    // a page that a later PAGE replaces is not the oldest block's
    let mut bytes = nearly_full(10, 55);
    put(&mut bytes, 4, 0, record(101, 0, page(0, 7)));
    assert_eq!(damage(&bytes), None);
    // a page that a later TRIM cuts still is, where a byte is left
    put(&mut bytes, 4, 0, record(101, 0, trim(9 * 256 + 1)));
    assert_eq!(damage(&bytes), Some(Damage::Spare));
    put(&mut bytes, 4, 0, record(101, 0, trim(9 * 256)));
    assert_eq!(damage(&bytes), None);
}

#[test]
fn mount_replays_by_number() {
    // the blocks stand in another order than their numbers
    let first = idle(1);
    let mut second = idle(65);
    second[0].file = 2;
    second[0].write = page(1, 5);
    second[1].file = 2;
    second[1].write = size(300);
    let third = vec![record(200, 2, trim(290)), record(300, 1, trim(4096))];
    let device = mounted(part(&[(0, third), (4, first), (2, second)]));
    let mut media = vec![0; MEDIA_LEN];
    media[2 * 4096 + 256..2 * 4096 + 290].fill(5);
    assert!(device.media == media);
    // a TRIM sets the size even if it grows
    assert_eq!(device.sizes, [0, 4096, 290, 0, 0, 0, 0, 0]);
    assert_eq!(device.state.logical, [0, 4096, 290, 0, 0, 0, 0, 0]);
}

#[test]
fn what_is_valid() {
    let mut old = idle(1);
    old[0] = record(1, 0, page(0, 1));
    old[1] = record(2, 0, page(1, 2));
    old[2] = record(3, 3, page(2, 3));
    old[3] = record(4, 0, size(300));
    old[4] = record(5, 3, size(768));
    old[5] = record(6, 1, page(0, 0));
    let new = vec![
        record(100, 0, trim(257)),
        record(101, 3, page(2, 0)),
        record(102, 4, size(0)),
        record(103, 5, trim(9)),
    ];
    let part = intact(&part(&[(1, old), (0, new)]));
    let mut cut = Box::new([0; 256]);
    cut[0] = 2;
    let cut = Write::Page {
        page: 1,
        bytes: cut,
    };
    assert_eq!(part.valid(1), [(0, page(0, 1)), (0, cut), (3, size(768))]);
    assert_eq!(part.valid(0), [(0, size(257)), (5, size(9))]);
    assert_eq!(part.valid(2), []);
    assert_eq!(part.valid_count(), 5);
}

#[test]
fn a_page_past_the_stored_size_is_valid() {
    let part = intact(&part(&[(0, vec![record(1, 0, page(15, 1))])]));
    assert_eq!(part.valid(0), [(0, page(15, 1))]);
}

#[test]
fn the_first_record_of_a_blank_part() {
    let mut device = mounted(part(&[]));
    assert_eq!(device.write(3, 0, &[7; 256]), Answer::Done(256));
    assert_eq!(device.sync(3, 2), Answer::Done(2));
    assert_eq!(record_at(&device, 0, 0), Some(record(1, 3, page(0, 7))));
    assert_eq!(record_at(&device, 0, 1), Some(record(2, 3, size(256))));
    assert_eq!(record_at(&device, 0, 2), None);
    assert_eq!(device.sizes[3], 256);
    assert_eq!(device.state.floor[3], 256);
    // nothing is left to be stored
    let before = device.clone();
    assert_eq!(device.sync(3, 0), Answer::Done(0));
    assert_eq!(device, before);
    assert_eq!(device.truncate(3, 100), Answer::Done(0));
    assert_eq!(device.sync(3, 1), Answer::Done(1));
    assert_eq!(record_at(&device, 0, 2), Some(record(3, 3, trim(100))));
}

#[test]
fn records_go_to_the_newest_block_then_to_the_lowest_blank_one() {
    let mut device = mounted(part(&[(2, idle(1)), (3, idle(65)[..63].to_vec())]));
    assert_eq!(device.write(0, 0, &[1; 300]), Answer::Done(300));
    assert_eq!(device.sync(0, ALL), Answer::Done(3));
    let second = runs(&[(44, 1), (212, 0)]).try_into().unwrap();
    let second = Write::Page {
        page: 1,
        bytes: second,
    };
    assert_eq!(record_at(&device, 3, 63), Some(record(128, 0, page(0, 1))));
    assert_eq!(record_at(&device, 0, 0), Some(record(129, 0, second)));
    assert_eq!(record_at(&device, 0, 1), Some(record(130, 0, size(300))));
    assert_eq!(intact(&device.part).newest(), Some(0));
}

#[test]
fn the_next_number_is_the_highest_plus_1() {
    let mut device = mounted(part(&[(
        0,
        vec![record(7, 0, size(1)), record(900, 0, size(2))],
    )]));
    assert_eq!(device.truncate(0, 1), Answer::Done(0));
    assert_eq!(device.sync(0, ALL), Answer::Done(1));
    assert_eq!(record_at(&device, 0, 2), Some(record(901, 0, trim(1))));
}

/// The steps of one media write on a part.
fn steps(bytes: &[u8]) -> Vec<Step> {
    intact(bytes).steps(&[(6, size(6))]).unwrap()
}

fn program(block: usize, place: usize, record: Record) -> Step {
    Step::Program {
        block,
        place,
        record,
    }
}

#[test]
fn collection_begins_below_65_blank() {
    // 65 blank: one in block 0, and block 5
    let mut bytes = nearly_full(0, 63);
    bytes[5 * BLOCK..].fill(255);
    assert_eq!(steps(&bytes), [program(0, 63, record(564, 6, size(6)))]);
    // 64 blank: the oldest block, 4, is erased and then the lowest blank one
    put(&mut bytes, 0, 63, record(564, 7, trim(0)));
    assert_eq!(
        steps(&bytes),
        [
            Step::Erase { block: 4 },
            program(4, 0, record(565, 6, size(6)))
        ]
    );
}

#[test]
fn copies_go_by_file_and_page_then_sizes() {
    let mut oldest = idle(1);
    oldest[10] = record(11, 1, size(700));
    oldest[11] = record(12, 0, trim(9));
    oldest[12] = record(13, 1, page(3, 5));
    oldest[13] = record(14, 1, page(2, 4));
    oldest[14] = record(15, 0, page(15, 3));
    let mut bytes = nearly_full(0, 60);
    for (place, record) in oldest.into_iter().enumerate() {
        put(&mut bytes, 5, place, record);
    }
    // 4 blank, 5 valid
    assert_eq!(damage(&bytes), Some(Damage::Spare));
    put(&mut bytes, 4, 0, record(101, 1, page(3, 6)));
    assert_eq!(
        steps(&bytes),
        [
            program(0, 60, record(561, 0, page(15, 3))),
            program(0, 61, record(562, 1, page(2, 4))),
            program(0, 62, record(563, 0, size(9))),
            program(0, 63, record(564, 1, size(700))),
            Step::Erase { block: 5 },
            // 64 blank: block 4 is the oldest now, with a page that is valid
            program(5, 0, record(565, 1, page(3, 6))),
            Step::Erase { block: 4 },
            program(5, 1, record(566, 6, size(6))),
        ]
    );
}

#[test]
fn a_copy_of_a_trimmed_page_has_its_present_content() {
    let mut bytes = nearly_full(1, 40);
    put(&mut bytes, 4, 0, record(101, 0, trim(3)));
    let copied = runs(&[(3, 1), (253, 0)]).try_into().unwrap();
    let copied = Write::Page {
        page: 0,
        bytes: copied,
    };
    assert_eq!(steps(&bytes)[0], program(0, 40, record(541, 0, copied)));
}

#[test]
fn each_media_write_collects_for_itself() {
    // 65 blank; the second media write finds 64, the third 127
    let mut bytes = nearly_full(0, 63);
    bytes[5 * BLOCK..].fill(255);
    let mut device = mounted(bytes);
    assert_eq!(device.write(0, 0, &[1; 512]), Answer::Done(512));
    assert_eq!(device.sync(0, ALL), Answer::Done(4));
    assert_eq!(record_at(&device, 0, 63), Some(record(564, 0, page(0, 1))));
    assert_eq!(record_at(&device, 4, 0), Some(record(565, 0, page(1, 1))));
    assert_eq!(record_at(&device, 4, 1), Some(record(566, 0, size(512))));
    assert_eq!(intact(&device.part).oldest(), Some(3));
}

#[test]
fn no_media_write_no_collection() {
    let mut device = mounted(nearly_full(0, 64));
    let before = device.clone();
    for file in 0..8 {
        assert_eq!(device.sync(file, 0), Answer::Done(0));
    }
    assert_eq!(device.mount(0), Answer::Done(0));
    assert_eq!(device, before);
    assert_eq!(device.format(0), Answer::Done(0));
    assert_eq!(device.part, before.part);
}

/// Cuts a sync after each step; the files stay as they were up to the media
/// write, and what is valid too.
#[test]
fn a_cut_amid_copies_or_at_the_erase() {
    let mut bytes = nearly_full(10, 54);
    put(&mut bytes, 4, 0, record(101, 0, size(2560)));
    let mut device = mounted(bytes);
    let before = intact(&device.part);
    assert_eq!((before.blank(), before.valid_count()), (10, 11));
    assert_eq!(device.write(0, 0, &[9]), Answer::Done(1));
    for budget in 0..12 {
        let mut cut_device = device.clone();
        assert_eq!(cut_device.sync(0, budget), cut(budget));
        assert_eq!(cut_device.state, CacheState::DOWN);
        let part = intact(&cut_device.part);
        let blank = if budget <= 10 { 10 - budget } else { 64 };
        assert_eq!(part.blank(), blank);
        assert_eq!(part.replay(), before.replay());
        assert_eq!(part.valid_count(), 11);
        assert!(cut_device.media == before.replay().media);
        assert_eq!(cut_device.sizes, before.replay().sizes);
        assert_eq!(cut_device.mount(0), Answer::Done(0));
        assert_eq!(cut_device.write(0, 0, &[9]), Answer::Done(1));
        // what is copied is not copied again, and block 4 has a size to copy
        let rest = if budget < 11 { 14 - budget } else { 3 };
        assert_eq!(cut_device.sync(0, ALL), Answer::Done(rest));
    }
}

#[test]
fn a_cut_mount() {
    let mut bytes = part(&[(
        0,
        vec![
            record(1, 2, page(1, 1)),
            record(2, 5, page(0, 2)),
            record(3, 5, size(10)),
        ],
    )]);
    let mut device = device(bytes.clone());
    assert_eq!(device.mount(1), cut(1));
    put(&mut bytes, 0, 3, record(4, 2, trim(0)));
    assert!(device.part == bytes);
    let image = intact(&bytes).replay();
    assert!(device.media == image.media);
    assert_eq!(device.sizes, image.sizes);
    assert_eq!(device.state, CacheState::DOWN);
    assert_eq!(device.mount(1), Answer::Done(1));
    assert_eq!(record_at(&device, 0, 4), Some(record(5, 5, trim(10))));
    assert_eq!(device.state.logical, [0, 0, 0, 0, 0, 10, 0, 0]);
}

#[test]
fn format_trims_what_the_part_holds() {
    // the lent image says nothing
    let bytes = part(&[(0, vec![record(1, 2, page(1, 1)), record(2, 5, trim(10))])]);
    let mut device = device(bytes);
    device.media.fill(9);
    device.sizes.fill(u32::MAX);
    assert_eq!(device.format(ALL), Answer::Done(2));
    assert_eq!(record_at(&device, 0, 2), Some(record(3, 2, trim(0))));
    assert_eq!(record_at(&device, 0, 3), Some(record(4, 5, trim(0))));
    assert!(device.media.iter().all(|&byte| byte == 0));
    assert_eq!(device.sizes, [0; 8]);
    assert_eq!(device.state, CacheState::DOWN);
}

#[test]
fn lost_power_leaves_the_part() {
    let mut device = mounted(part(&[]));
    assert_eq!(device.write(0, 0, b"kept"), Answer::Done(4));
    assert_eq!(device.sync(0, 2), Answer::Done(2));
    let after = device.clone();
    device.lose_power(&[0xa5; MEDIA_LEN], &[u32::MAX; 8], &[0x5a; FRAMES_LEN]);
    assert_eq!(device.state, CacheState::DOWN);
    assert_eq!(device.mount(0), Answer::Done(0));
    device.frames.clone_from(&after.frames);
    assert_eq!(device, after);
}

/// What each call but mount and format answers.
fn answers(device: &PartDevice) -> [Answer; 5] {
    let mut device = device.clone();
    let before = device.clone();
    let mut buffer = [7; 4];
    let read = device.read(0, 0, &mut buffer);
    assert!(read.done().is_some() || buffer == [7; 4]);
    let look = device.look_count(0, 0);
    assert!(look.done().is_some() || device.look(0, 0).is_empty());
    let all = [
        read,
        look,
        device.write(0, 0, b"a"),
        device.truncate(0, 1),
        device.sync(0, ALL),
    ];
    if all.iter().all(|answer| answer.done().is_none()) {
        assert_eq!(device, before);
    }
    all
}

#[test]
fn an_image_that_differs_is_damage() {
    let first = vec![record(1, 0, page(0, 1)), record(2, 0, size(256))];
    let right = mounted(part(&[(0, first)]));
    assert!(answers(&right).iter().all(|answer| answer.number() == 0));
    for change in [0, 255, 256, MEDIA_LEN - 1] {
        let mut device = right.clone();
        device.media[change] ^= 1;
        assert_eq!(answers(&device), [refused(Damaged); 5]);
        assert_eq!(device.mount(0), Answer::Done(0));
        assert_eq!(device, right);
    }
    for (file, wrong) in [(0, 255), (7, 1), (7, 4096)] {
        let mut device = right.clone();
        device.sizes[file] = wrong;
        assert_eq!(answers(&device), [refused(Damaged); 5]);
        assert_eq!(device.mount(0), Answer::Done(0));
        assert_eq!(device, right);
    }
}

/// A box in which every refusal up to NO FILE applies; what follows takes one
/// away after the other.
#[test]
fn the_order_of_refusals() {
    let right = mounted(part(&[(0, vec![record(1, 0, size(256))])]));
    let mut device = right.clone();
    device.part = vec![0; PART_LEN + 1];
    device.sizes[0] = 4097;
    device.state.mounted = 2;
    assert_eq!(answers(&device), [refused(Shape); 5]);
    for (part, media, sizes, frames) in [
        (PART_LEN - 1, MEDIA_LEN, 8, FRAMES_LEN),
        (0, MEDIA_LEN, 8, FRAMES_LEN),
        (PART_LEN, MEDIA_LEN + 1, 8, FRAMES_LEN),
        (PART_LEN, MEDIA_LEN, 7, FRAMES_LEN),
        (PART_LEN, MEDIA_LEN, 8, FRAMES_LEN + 1),
    ] {
        device.part.resize(part, 0);
        device.media.resize(media, 0);
        device.sizes.resize(sizes, 0);
        device.frames.resize(frames, 0);
        assert_eq!(answers(&device), [refused(Shape); 5]);
        let before = device.clone();
        let expected = if frames == FRAMES_LEN { Shape } else { Damaged };
        assert_eq!(device.mount(ALL), refused(expected));
        assert_eq!(device.format(ALL), refused(expected));
        assert_eq!(device, before);
    }
    device.frames.resize(FRAMES_LEN, 0);
    assert_eq!(answers(&device), [refused(Media); 5]);
    let before = device.clone();
    assert_eq!(device.mount(ALL), refused(Damaged));
    assert_eq!(device.format(ALL), refused(Damaged));
    assert_eq!(device, before);
    device.sizes[0] = 256;
    assert_eq!(answers(&device), [refused(Damaged); 5]);
    device.part.clone_from(&right.part);
    assert_eq!(answers(&device), [refused(Books); 5]);
    device.state = CacheState::DOWN;
    assert_eq!(answers(&device), [refused(Down); 5]);
}

#[test]
fn the_refusals_that_follow_damage() {
    let first = vec![record(u32::MAX, 0, size(256))];
    let mut device = mounted(part(&[(0, first)]));
    assert_eq!(device.read(8, 4097, &mut []), refused(NoFile));
    assert_eq!(device.read(7, 4097, &mut []), refused(Range));
    assert_eq!(device.sync(8, 0), refused(NoFile));
    assert_eq!(device.write(0, 0, &[1; 4096]), Answer::Done(4096));
    assert_eq!(device.write(1, 0, &[1; 2048]), Answer::Done(2048));
    assert_eq!(device.write(2, 0, &[1]), refused(NoRoom));
    assert_eq!(device.sync(0, 0), refused(Exhausted));
    device.part[4] = 4;
    assert_eq!(device.sync(8, 0), refused(Damaged));
    assert_eq!(device.read(8, 4097, &mut []), refused(Damaged));
}

#[test]
fn numbers_run_out() {
    for (last, needed) in [(u32::MAX - 2, 2), (u32::MAX - 1, 2), (u32::MAX, 2)] {
        let mut device = mounted(part(&[(0, vec![record(last, 1, size(256))])]));
        assert_eq!(device.write(0, 0, &[1]), Answer::Done(1));
        let before = device.clone();
        if last == u32::MAX - 2 {
            assert_eq!(device.sync(0, 1), cut(1));
            device = before;
            assert_eq!(device.sync(0, 2), Answer::Done(needed));
            assert_eq!(record_at(&device, 0, 2), Some(record(u32::MAX, 0, size(1))));
            continue;
        }
        // whatever the budget, and nothing changes
        for budget in [0, 1, 2, ALL] {
            assert_eq!(device.sync(0, budget), refused(Exhausted));
            assert_eq!(device, before);
        }
        // nothing to store needs no number
        assert_eq!(device.sync(1, 0), Answer::Done(0));
        assert_eq!(device.mount(0), Answer::Done(0));
    }
}

#[test]
fn numbers_run_out_at_mount_and_format() {
    let last = vec![
        record(u32::MAX - 1, 1, page(0, 1)),
        record(u32::MAX, 2, page(0, 1)),
    ];
    let mut device = device(part(&[(0, last)]));
    device.media.fill(7);
    device.sizes.fill(5000);
    device.state.mounted = 9;
    let before = device.clone();
    for budget in [0, 1, 2, ALL] {
        assert_eq!(device.mount(budget), refused(Exhausted));
        assert_eq!(device.format(budget), refused(Exhausted));
        assert_eq!(device, before);
    }
}

#[test]
fn copies_need_numbers_too() {
    let mut bytes = nearly_full(2, 62);
    // 564 follows 563 with a gap: two copies, an erase and a media write
    put(&mut bytes, 0, 61, record(u32::MAX - 3, 7, trim(0)));
    let numbers = |bytes: &[u8]| {
        intact(bytes)
            .steps(&[(6, size(6))])
            .map(|steps| steps.len())
    };
    assert_eq!(numbers(&bytes), Ok(5));
    put(&mut bytes, 0, 61, record(u32::MAX - 2, 7, trim(0)));
    assert_eq!(numbers(&bytes), Err(Exhausted));
}

/// As many valid pages and sizes as there can be, and each file rewritten again
/// and again: room never runs out. For files of 16 pages and of 64.
#[test]
fn room_never_runs_out() {
    for (geometry, most) in [(Geometry::SHORT, 136), (Geometry::LONG, 520)] {
        let mut bytes = vec![255; geometry.part_len()];
        let append = |file: usize, write: Write, bytes: &mut Vec<u8>| {
            let part = Part::decode(geometry, bytes).unwrap();
            let steps = part.clone().steps(&[(file, write)]).unwrap();
            let (last, copies) = steps.split_last().unwrap();
            for step in copies {
                step.apply(bytes);
                let amid = Part::decode(geometry, bytes).unwrap();
                assert!(amid.replay() == part.replay());
                assert_eq!(amid.valid_count(), part.valid_count());
            }
            last.apply(bytes);
            let after = Part::decode(geometry, bytes).unwrap();
            assert!(after.valid_count() <= most && after.blank() >= 64);
            steps.len()
        };
        for file in 0..8 {
            for number in 0..geometry.pages {
                append(file, page(number, 1), &mut bytes);
            }
            append(file, size(geometry.file_max()), &mut bytes);
        }
        let full = Part::decode(geometry, &bytes).unwrap();
        assert_eq!(full.valid_count(), most);
        // one page again and again, then any
        let mut rng = common::Rng(5);
        let mut longest = 0;
        for round in 0..1_000 {
            let (file, number) = match round {
                0..700 => (7, geometry.pages - 1),
                _ => (rng.below(8), rng.below(geometry.pages)),
            };
            longest = longest.max(append(file, page(number, 2), &mut bytes));
        }
        assert!(longest > 64, "{longest}");
    }
}
