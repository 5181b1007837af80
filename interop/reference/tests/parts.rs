//! The direct media writes, the lent size record, look, and the calls against
//! the byte-wise definitions on any sound state.

mod common;

use common::{contents, mounted, refused, Rng};
use reference::device::Device;
use reference::store::Refusal::{Books, NoFile, Range, Shape};
use reference::store::{
    store_page, store_size, trim, truncate_sizes, Answer, CacheState, FileSizes, Slot, MEDIA_LEN,
};

#[test]
fn page_store() {
    let bytes = [7; 256];
    let mut page = [1; 256];
    for length in [0, 255, 257] {
        let mut wrong = vec![1; length];
        assert_eq!(store_page(&mut wrong, &bytes), Err(Shape));
        assert_eq!(wrong, vec![1; length]);
        assert_eq!(store_page(&mut page, &vec![7; length]), Err(Shape));
        assert_eq!(page, [1; 256]);
    }
    assert_eq!(store_page(&mut page, &bytes), Ok(()));
    assert_eq!(page, bytes);
}

#[test]
fn size_store() {
    let before = [1, 2, 3, 4, 5, 6, 7, 8];
    let mut sizes = before;
    assert_eq!(store_size(&mut sizes[..7], 8, 4097), Err(Shape));
    assert_eq!(store_size(&mut [0; 9], 0, 0), Err(Shape));
    assert_eq!(store_size(&mut sizes, 8, 4097), Err(NoFile));
    assert_eq!(store_size(&mut sizes, usize::MAX, 0), Err(NoFile));
    for size in [4097, 1 << 32, usize::MAX] {
        assert_eq!(store_size(&mut sizes, 7, size), Err(Range));
    }
    assert_eq!(sizes, before);
    assert_eq!(store_size(&mut sizes, 7, 4096), Ok(()));
    assert_eq!(store_size(&mut sizes, 0, 0), Ok(()));
    assert_eq!(sizes, [0, 2, 3, 4, 5, 6, 7, 4096]);
}

#[test]
fn trim_store() {
    let media = vec![9; MEDIA_LEN];
    let sizes = [0, 100, 4096, 5000, u32::MAX, 1, 2, 4095];
    let run = |media_len, sizes_len, file, size| {
        let mut lent = (media.clone(), sizes.to_vec());
        lent.0.resize(media_len, 9);
        lent.1.resize(sizes_len, 0);
        let before = lent.clone();
        let result = trim(&mut lent.0, &mut lent.1, file, size);
        if result.is_err() {
            assert!(lent == before);
        } else {
            let mut expected = before;
            expected.0[file * 4096 + size..(file + 1) * 4096].fill(0);
            expected.1[file] = size as u32;
            assert!(lent == expected);
        }
        result
    };
    assert_eq!(run(MEDIA_LEN - 1, 8, 8, 9999), Err(Shape));
    assert_eq!(run(MEDIA_LEN + 1, 8, 0, 0), Err(Shape));
    assert_eq!(run(MEDIA_LEN, 7, 0, 0), Err(Shape));
    assert_eq!(run(MEDIA_LEN, 9, 0, 0), Err(Shape));
    assert_eq!(run(MEDIA_LEN, 8, 8, 9999), Err(NoFile));
    assert_eq!(run(MEDIA_LEN, 8, usize::MAX, 0), Err(NoFile));
    assert_eq!(run(MEDIA_LEN, 8, 0, 1), Err(Range));
    assert_eq!(run(MEDIA_LEN, 8, 1, 101), Err(Range));
    assert_eq!(run(MEDIA_LEN, 8, 2, 4097), Err(Range));
    assert_eq!(run(MEDIA_LEN, 8, 3, 4097), Err(Range));
    assert_eq!(run(MEDIA_LEN, 8, 4, usize::MAX), Err(Range));
    assert_eq!(run(MEDIA_LEN, 8, 7, 4096), Err(Range));
    for (file, size) in [
        (0, 0),
        (1, 100),
        (1, 99),
        (2, 4096),
        (3, 4096),
        (4, 0),
        (7, 4095),
    ] {
        assert_eq!(run(MEDIA_LEN, 8, file, size), Ok(()));
    }
}

#[test]
fn truncate_rule_on_a_size_record() {
    let run = |logical, floor, stored, size, max| {
        let mut record = FileSizes {
            logical,
            floor,
            stored,
        };
        let before = record;
        let answer = truncate_sizes(&mut record, size, max);
        if answer.done().is_none() {
            assert_eq!(record, before);
        }
        assert_eq!(record.stored, stored);
        (answer, record.logical, record.floor)
    };
    let done = Answer::Done(0);
    assert_eq!(run(300, 200, 250, 100, 4096), (done, 100, 100));
    assert_eq!(run(300, 200, 250, 200, 4096), (done, 200, 200));
    assert_eq!(run(300, 200, 250, 4096, 4096), (done, 4096, 200));
    assert_eq!(run(300, 200, 250, 0, 4096), (done, 0, 0));
    // The stored size may be above the greatest size; the live size may not.
    assert_eq!(run(5, 5, usize::MAX, 3, 5), (done, 3, 3));
    assert_eq!(run(0, 0, 0, 0, 0), (done, 0, 0));
    let max = usize::MAX;
    assert_eq!(run(max, max, max, max, max), (done, max, max));
    assert_eq!(run(300, 200, 250, 4097, 4096).0, refused(Range));
    assert_eq!(run(300, 200, 250, usize::MAX, 4096).0, refused(Range));
    assert_eq!(run(0, 0, 0, 1, 0).0, refused(Range));
    assert_eq!(run(199, 200, 250, 100, 4096).0, refused(Books));
    assert_eq!(run(300, 251, 250, 100, 4096).0, refused(Books));
    assert_eq!(run(4097, 200, 250, 100, 4096).0, refused(Books));
    assert_eq!(run(6, 5, 5, 3, 5).0, refused(Books));
    // BOOKS before RANGE.
    assert_eq!(run(199, 200, 250, 4097, 4096).0, refused(Books));
}

#[test]
fn look_hands_out_parts() {
    let mut device = mounted();
    device.write(1, 0, &[1; 700]);
    device.sync(1, 20);
    device.truncate(1, 600);
    device.truncate(1, 1500);
    device.write(1, 300, &[2; 10]);
    // Page 0: media. Page 1: frame 0. Page 2: media to 600, then zeros that no
    // buffer has, as in pages 3 to 5.
    let look = |position| {
        let part = device.look(1, position);
        (part, device.look_count(1, position))
    };
    let at = |slice: &[u8], part: &[u8]| part.as_ptr() as usize - slice.as_ptr() as usize;

    let (part, count) = look(0);
    assert_eq!((at(&device.media, part), part.len()), (4096, 256));
    assert_eq!(count, Answer::Done(256));
    let (part, count) = look(255);
    assert_eq!((at(&device.media, part), part.len()), (4096 + 255, 1));
    assert_eq!(count, Answer::Done(1));
    let (part, count) = look(300);
    assert_eq!((at(&device.frames, part), part.len()), (44, 212));
    assert_eq!(count, Answer::Done(212));
    let (part, count) = look(512);
    assert_eq!((at(&device.media, part), part.len()), (4096 + 512, 88));
    assert_eq!(count, Answer::Done(256));
    for (position, count) in [(600, 168), (768, 256), (1499, 1), (1500, 0), (4096, 0)] {
        assert_eq!(look(position), (&[][..], Answer::Done(count)));
    }
    assert_eq!(look(4097), (&[][..], refused(Range)));
    assert_eq!(device.look(8, 0), &[]);
    // A cached page is shown to the logical size.
    device.truncate(1, 310);
    assert_eq!(device.look(1, 300).len(), 10);
    assert_eq!(device.look_count(1, 300), Answer::Done(10));
}

/// A sound, mounted state with any bytes in all buffers.
fn any_box(rng: &mut Rng) -> Device {
    let mut device = Device::new();
    rng.fill(&mut device.media);
    rng.fill(&mut device.frames);
    let size = |rng: &mut Rng, max: usize| {
        let near = rng.pick(&[0, 1, 255, 256, 257, 511, 512, 700, 4095, 4096]);
        if rng.one_in(2) {
            near.min(max)
        } else {
            rng.below(max + 1)
        }
    };
    device.state.mounted = 1;
    for file in 0..8 {
        let stored = size(rng, 4096);
        let logical = size(rng, 4096);
        device.sizes[file] = stored as u32;
        device.state.logical[file] = logical;
        device.state.floor[file] = size(rng, stored.min(logical));
    }
    let wanted = rng.pick(&[0, 5, 20, 23, 24]);
    let mut used = 0;
    while used < wanted {
        let pages = rng.pick(&[4, 16]);
        let files = rng.pick(&[2, 8]);
        let (file, page) = (rng.below(files), rng.below(pages));
        let slot = rng.below(24);
        if device.state.slot_of(file, page).is_none() && !device.state.slots[slot].used {
            device.state.slots[slot] = Slot {
                used: true,
                file,
                page,
            };
            used += 1;
        }
    }
    assert!(device.state.is_sound(&device.sizes));
    device
}

/// The live byte by its definition.
fn live(device: &Device, file: usize, i: usize) -> u8 {
    if let Some(slot) = device.state.slot_of(file, i / 256) {
        device.frames[256 * slot + i % 256]
    } else if i < device.state.floor[file] {
        device.media[4096 * file + i]
    } else {
        0
    }
}

fn live_all(device: &Device) -> Vec<Vec<u8>> {
    (0..8)
        .map(|file| (0..4096).map(|i| live(device, file, i)).collect())
        .collect()
}

fn held(state: &CacheState) -> Vec<(usize, usize)> {
    let mut pages: Vec<_> = state
        .slots
        .iter()
        .filter(|slot| slot.used)
        .map(|slot| (slot.file, slot.page))
        .collect();
    pages.sort_unstable();
    pages
}

#[test]
fn calls_on_any_sound_state() {
    let mut rng = Rng(11);
    let mut short = 0;
    let mut full = 0;
    for _ in 0..400 {
        let device = any_box(&mut rng);
        let bytes = live_all(&device);
        let file = rng.below(4);
        let position = match rng.below(3) {
            0 => rng.below(4097),
            1 => rng.below(300),
            _ => {
                let near = 256 * rng.below(17) + rng.pick(&[0, 0, 1, 2]);
                near.saturating_sub(1).min(4096)
            }
        };

        // Read and look give live bytes and touch nothing else.
        let before = device.clone();
        let size = device.state.logical[file];
        let length = rng.pick(&[0, 1, 32, 600, 5000]);
        let mut buffer = vec![0xcc; length];
        let count = size.saturating_sub(position).min(length);
        assert_eq!(
            device.read(file, position, &mut buffer),
            Answer::Done(count)
        );
        assert_eq!(buffer[..count], bytes[file][position..position + count]);
        assert!(buffer[count..].iter().all(|&byte| byte == 0xcc));
        let part = device.look(file, position).to_vec();
        let Answer::Done(whole) = device.look_count(file, position) else {
            panic!();
        };
        assert_eq!(part, bytes[file][position..position + part.len()]);
        assert!(part.len() <= whole);
        assert!(bytes[file][position + part.len()..position + whole]
            .iter()
            .all(|&byte| byte == 0));
        assert!(device == before);

        // Write changes the bytes it counts and the set of cached pages.
        let mut written = device.clone();
        let length = rng.pick(&[0, 1, 256, 257, 4096]).min(4096 - position);
        let mut data = vec![0; length];
        rng.fill(&mut data);
        let mut pages = held(&device.state);
        let mut expected = bytes.clone();
        let mut count = 0;
        for (index, &byte) in data.iter().enumerate() {
            let page = (file, (position + index) / 256);
            if !pages.contains(&page) {
                if pages.len() == 24 {
                    break;
                }
                pages.push(page);
            }
            expected[file][position + index] = byte;
            count += 1;
        }
        pages.sort_unstable();
        let answer = written.write(file, position, &data);
        if count == 0 && length > 0 {
            full += 1;
            assert_eq!(answer.number(), 8);
            assert!(written == device);
        } else {
            short += usize::from(count < length);
            assert_eq!(answer, Answer::Done(count));
            assert_eq!(held(&written.state), pages);
            assert!(live_all(&written) == expected);
            let mut logical = device.state.logical;
            if count > 0 {
                logical[file] = logical[file].max(position + count);
            }
            assert_eq!(written.state.logical, logical);
            assert_eq!(written.state.floor, device.state.floor);
            assert!(written.media == device.media && written.sizes == device.sizes);
        }

        // Truncate keeps the live bytes below its size and clears the others.
        let mut truncated = device.clone();
        assert_eq!(truncated.truncate(file, position), Answer::Done(0));
        let mut expected = bytes.clone();
        expected[file][position..].fill(0);
        assert!(live_all(&truncated) == expected);
        let mut pages = held(&device.state);
        pages.retain(|&(f, page)| f != file || page * 256 < position);
        assert_eq!(held(&truncated.state), pages);
        assert_eq!(truncated.state.logical[file], position);
        assert_eq!(
            truncated.state.floor[file],
            device.state.floor[file].min(position)
        );
        assert!(truncated.state.is_sound(&truncated.sizes));
        assert!(truncated.media == device.media && truncated.sizes == device.sizes);

        // Sync stores the cached pages as they are and the live size.
        let mut synced = device.clone();
        let floor = device.state.floor[file];
        let pages = held(&device.state);
        let own = pages.iter().filter(|(f, _)| *f == file).count();
        let trims = floor < device.sizes[file] as usize;
        let stores = own + usize::from(trims) + usize::from(size != floor);
        assert_eq!(synced.sync(file, 18), Answer::Done(stores));
        assert_eq!(synced.sizes[file] as usize, size);
        for (i, &stored) in synced.media[4096 * file..][..4096].iter().enumerate() {
            let byte = if let Some(slot) = device.state.slot_of(file, i / 256) {
                device.frames[256 * slot + i % 256]
            } else if !trims && i >= floor {
                device.media[4096 * file + i]
            } else {
                bytes[file][i]
            };
            assert_eq!(stored, byte);
        }
        assert!(synced.frames == device.frames);
        assert_eq!(synced.state.floor[file], size);
        assert!(synced.state.slots.iter().all(|s| !s.used || s.file != file));
        assert_eq!(held(&synced.state).len(), pages.len() - own);
        for other in (0..8).filter(|&other| other != file) {
            let range = 4096 * other..4096 * (other + 1);
            assert!(synced.media[range.clone()] == device.media[range]);
            assert_eq!(synced.sizes[other], device.sizes[other]);
            assert_eq!(synced.state.floor[other], device.state.floor[other]);
        }
    }
    assert!(short > 5 && full > 5, "{short} short, {full} full");
}

#[test]
fn a_write_caches_its_page_even_if_it_repeats_the_bytes() {
    let mut device = common::synced(&[7; 10]);
    assert_eq!(device.write(0, 0, &[7; 10]), Answer::Done(10));
    assert_eq!(device.sync(0, 1), Answer::Done(1));
}

#[test]
fn a_write_of_nothing_changes_nothing() {
    let mut device = common::synced(&[7; 300]);
    let before = device.clone();
    for position in [0, 100, 255, 256, 299, 300, 301, 1000, 4095, 4096] {
        assert_eq!(device.write(0, position, &[]), Answer::Done(0));
        assert!(device == before, "position {position}");
    }
}

#[test]
fn a_truncate_frees_the_pages_from_its_size_on() {
    for (size, pages) in [
        (0, 0),
        (1, 1),
        (255, 1),
        (256, 1),
        (257, 2),
        (512, 2),
        (600, 3),
    ] {
        let mut device = mounted();
        assert_eq!(device.write(0, 0, &[7; 700]), Answer::Done(700));
        assert_eq!(device.write(1, 0, &[8; 700]), Answer::Done(700));
        assert_eq!(device.truncate(0, size), Answer::Done(0));
        assert_eq!(held(&device.state).len(), 3 + pages, "size {size}");
        assert_eq!(contents(&device, 0), vec![7; size]);
        assert_eq!(contents(&device, 1), [8; 700]);
        // Extended again, the file has zeros where it was cut.
        assert_eq!(device.truncate(0, 1000), Answer::Done(0));
        assert_eq!(
            contents(&device, 0),
            common::runs(&[(size, 7), (1000 - size, 0)])
        );
        assert_eq!(device.sync(0, 18), Answer::Done(pages + 1));
    }
}

#[test]
fn a_gap_before_a_write_is_zeros() {
    let mut device = common::synced(&[7; 100]);
    assert_eq!(device.truncate(0, 50), Answer::Done(0));
    assert_eq!(device.write(0, 600, &[8]), Answer::Done(1));
    let expected = common::runs(&[(50, 7), (550, 0), (1, 8)]);
    assert_eq!(contents(&device, 0), expected);
    // TRIM, page 2, SIZE.
    assert_eq!(device.sync(0, 3), Answer::Done(3));
    assert_eq!(common::on_media(&device, 0), expected);
}

#[test]
fn mount_when_up_drops_what_was_not_synced() {
    let mut device = common::synced(&[7; 100]);
    device.write(0, 50, &[8; 100]);
    device.write(1, 0, &[9; 10]);
    assert_eq!(device.mount(0), Answer::Done(0));
    assert_eq!(contents(&device, 0), [7; 100]);
    assert!(contents(&device, 1).is_empty());
    assert_eq!(held(&device.state), []);
}

#[test]
fn format_leaves_the_store_down_and_blank() {
    let mut device = common::synced(&[7; 100]);
    assert_eq!(device.format(1), Answer::Done(1));
    assert_eq!(device.state, CacheState::DOWN);
    assert!(device.media.iter().all(|&byte| byte == 0));
    assert_eq!(device.sizes, [0; 8]);
    assert_eq!(device.format(0), Answer::Done(0));
    assert_eq!(device.read(0, 0, &mut []).number(), 5);
}
