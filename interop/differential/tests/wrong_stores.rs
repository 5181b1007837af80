//! Histories find stores with a fault.

use differential::{check, Archive};
use layout::{slot_at, FILE_BYTES, PAGE_BYTES, STATE_LOGICAL, STATE_SLOTS, SYNC_WRITES};
use random_calls::{compare, decode, encode, MemoryMut, MemoryRef, MemoryVec, Reference, Store};
use reference::store::{self, CacheState, Slot};

/// Pages stored from high to low.
const DESCENDING: usize = 1;
/// Pages stored in the order of their slots.
const SLOT_ORDER: usize = 2;
/// The size stored before the pages.
const SIZE_FIRST: usize = 3;
/// The latest truncate kept, not the smallest.
const LATEST_TRUNCATE: usize = 4;
/// The trim skipped where the size ended where it began.
const NO_TRIM: usize = 5;
/// Bytes past the stored size left by a mount.
const STALE_BYTES: usize = 6;
/// Pages stored only by the first sync of a file.
const FIRST_SYNC: usize = 7;
/// A frame taken for a cached page after a mount.
const OLD_FRAME: usize = 8;
/// Cached pages kept by a mount that comes while the box is up.
const KEPT_CACHE: usize = 9;
/// A page that becomes cached not filled with its live bytes.
const UNFILLED_PAGE: usize = 10;
/// Each page of a write given the first of the caller's bytes.
const FIRST_PIECE: usize = 11;
/// A truncate that leaves the bytes behind it in a cached page.
const TAIL_KEPT: usize = 12;
/// A write that raises the size by what was asked, not by what was put down.
const SIZE_AS_ASKED: usize = 13;
/// A sync that counts one media write more.
const COUNT: usize = 14;
/// A sync that is cut at once, unless it is given the most.
const TIMID: usize = 15;
/// A sync that does one media write more than its budget.
const ONE_TOO_MANY: usize = 16;

/// The reference, with one fault.
struct Wrong<const FAULT: usize>;

/// One media write of a sync.
enum MediaWrite {
    Trim,
    Page { page: usize, slot: usize },
    Size,
}

impl<const FAULT: usize> Wrong<FAULT> {
    /// A sync over the media writes of the reference.
    fn faulty_sync(m: MemoryMut<'_>, file: usize, budget: usize) -> u32 {
        let mut cache = decode(m.state).unwrap();
        let (logical, floor, stored) = (
            cache.logical[file],
            cache.floor[file],
            m.sizes[file] as usize,
        );
        let mut pages: Vec<(usize, usize)> = (0..cache.slots.len())
            .filter(|&slot| cache.slots[slot].used && cache.slots[slot].file == file)
            .map(|slot| (cache.slots[slot].page, slot))
            .collect();
        match FAULT {
            DESCENDING => pages.sort_by(|one, two| two.cmp(one)),
            SLOT_ORDER => pages.sort_by_key(|&(_, slot)| slot),
            _ => pages.sort(),
        }
        let mut plan = Vec::new();
        if floor < stored {
            plan.push(MediaWrite::Trim);
        }
        if FAULT == SIZE_FIRST && logical != floor {
            plan.push(MediaWrite::Size);
        }
        for (page, slot) in pages {
            plan.push(MediaWrite::Page { page, slot });
        }
        if FAULT != SIZE_FIRST && logical != floor {
            plan.push(MediaWrite::Size);
        }

        let paid = match FAULT {
            ONE_TOO_MANY => budget.saturating_add(1),
            TIMID if budget < SYNC_WRITES => 0,
            _ => budget,
        };
        for write in plan.iter().take(paid) {
            let result = match *write {
                MediaWrite::Trim if FAULT == NO_TRIM && logical == stored => Ok(()),
                MediaWrite::Trim => store::trim(m.media, m.sizes, file, floor),
                MediaWrite::Page { .. } if FAULT == FIRST_SYNC && stored != 0 => Ok(()),
                MediaWrite::Page { page, slot } => {
                    let start = file * FILE_BYTES + page * PAGE_BYTES;
                    let frame = &m.frames[slot * PAGE_BYTES..(slot + 1) * PAGE_BYTES];
                    store::store_page(&mut m.media[start..start + PAGE_BYTES], frame)
                }
                MediaWrite::Size => store::store_size(m.sizes, file, logical),
            };
            assert_eq!(result, Ok(()));
        }
        if budget < plan.len() || (paid == 0 && FAULT == TIMID) {
            encode(&CacheState::DOWN, m.state);
            return 9 << 16 | budget as u32;
        }
        for slot in &mut cache.slots {
            if slot.used && slot.file == file {
                *slot = Slot::FREE;
            }
        }
        cache.floor[file] = logical;
        encode(&cache, m.state);
        plan.len() as u32 + u32::from(FAULT == COUNT)
    }
}

impl<const FAULT: usize> Store for Wrong<FAULT> {
    fn down(state: &mut [u8]) -> u32 {
        Reference::down(state)
    }

    fn format(m: MemoryMut<'_>, budget: usize) -> u32 {
        Reference::format(m, budget)
    }

    fn mount(mut m: MemoryMut<'_>, budget: usize) -> u32 {
        let (bytes, before) = (m.media.to_vec(), m.state.to_vec());
        let answer = Reference::mount(m.lend_mut(), budget);
        if answer >> 16 == 0 {
            match FAULT {
                STALE_BYTES => m.media.copy_from_slice(&bytes),
                OLD_FRAME if m.sizes[0] > 0 => {
                    m.state[slot_at(0)..slot_at(1)].copy_from_slice(&[1, 0, 0]);
                }
                KEPT_CACHE if decode(&before).is_some_and(|cache| cache.is_sound(m.sizes)) => {
                    let slots = STATE_SLOTS..STATE_LOGICAL;
                    m.state[slots.clone()].copy_from_slice(&before[slots]);
                }
                _ => {}
            }
        }
        answer
    }

    fn read(m: MemoryRef<'_>, file: usize, position: usize, buffer: &mut [u8]) -> u32 {
        Reference::read(m, file, position, buffer)
    }

    fn write(mut m: MemoryMut<'_>, file: usize, position: usize, bytes: &[u8]) -> u32 {
        let (old_frames, old_state) = (m.frames.to_vec(), m.state.to_vec());
        let answer = Reference::write(m.lend_mut(), file, position, bytes);
        if answer >> 16 != 0 || answer == 0 {
            return answer;
        }
        let end = position + answer as usize;
        for page in position / PAGE_BYTES..=(end - 1) / PAGE_BYTES {
            let cache = decode(m.state).unwrap();
            let slot = cache.slot_of(file, page).unwrap();
            let frame = slot * PAGE_BYTES..(slot + 1) * PAGE_BYTES;
            let first = position.max(page * PAGE_BYTES);
            let last = end.min((page + 1) * PAGE_BYTES);
            let start = frame.start + first % PAGE_BYTES;
            let within = start..start + last - first;
            if FAULT == UNFILLED_PAGE && old_state[slot_at(slot)] == 0 {
                let written = m.frames[within.clone()].to_vec();
                m.frames[frame.clone()].copy_from_slice(&old_frames[frame]);
                m.frames[within.clone()].copy_from_slice(&written);
            }
            if FAULT == FIRST_PIECE {
                m.frames[within].copy_from_slice(&bytes[..last - first]);
            }
        }
        if FAULT == SIZE_AS_ASKED {
            let mut cache = decode(m.state).unwrap();
            cache.logical[file] = cache.logical[file].max(position + bytes.len());
            encode(&cache, m.state);
        }
        answer
    }

    fn truncate(mut m: MemoryMut<'_>, file: usize, n: usize) -> u32 {
        let old_frames = m.frames.to_vec();
        let answer = Reference::truncate(m.lend_mut(), file, n);
        if answer == 0 && FAULT == TAIL_KEPT {
            m.frames.copy_from_slice(&old_frames);
        }
        if answer == 0 && FAULT == LATEST_TRUNCATE {
            let mut cache = decode(m.state).unwrap();
            cache.floor[file] = n.min(m.sizes[file] as usize);
            encode(&cache, m.state);
        }
        answer
    }

    fn sync(m: MemoryMut<'_>, file: usize, budget: usize) -> u32 {
        // the refusals, on a copy
        let answer = Reference::sync(MemoryVec::from(m.lend()).lend_mut(), file, budget);
        if (2..=8).contains(&(answer >> 16)) {
            return answer;
        }
        Self::faulty_sync(m, file, budget)
    }

    fn look_count(m: MemoryRef<'_>, file: usize, position: usize) -> u32 {
        Reference::look_count(m, file, position)
    }

    fn look(m: MemoryRef<'_>, file: usize, position: usize) -> u64 {
        Reference::look(m, file, position)
    }

    fn truncate_sizes(sizes: &mut [u32], n: usize, greatest: u32) -> u32 {
        Reference::truncate_sizes(sizes, n, greatest)
    }

    fn write_page(page: &mut [u8], bytes: &[u8]) -> u32 {
        Reference::write_page(page, bytes)
    }

    fn write_size(m: MemoryMut<'_>, file: usize, n: usize) -> u32 {
        Reference::write_size(m, file, n)
    }

    fn trim(m: MemoryMut<'_>, file: usize, n: usize) -> u32 {
        Reference::trim(m, file, n)
    }
}

const CALLS: usize = 30_000;
const HISTORIES: usize = 400;

/// Whether single calls find the fault, and histories: beside the reference,
/// and beside the wrong store itself, where only the model files can.
fn found<const FAULT: usize>() -> [bool; 3] {
    let beside_reference = check::<Reference, Wrong<FAULT>>(1, HISTORIES);
    let beside_itself = check::<Wrong<FAULT>, Wrong<FAULT>>(1, HISTORIES);
    for failure in [&beside_reference, &beside_itself] {
        if let Err(failure) = failure {
            assert!(failure.history.steps.len() <= 8, "{failure}");
        }
    }
    [
        compare::<Reference, Wrong<FAULT>>(1, CALLS).is_err(),
        beside_reference.is_err(),
        beside_itself.is_err(),
    ]
}

#[test]
fn the_traps_are_found() {
    assert_eq!(found::<DESCENDING>(), [true; 3]);
    assert_eq!(found::<SLOT_ORDER>(), [true; 3]);
    assert_eq!(found::<SIZE_FIRST>(), [true; 3]);
    assert_eq!(found::<LATEST_TRUNCATE>(), [true; 3]);
    assert_eq!(found::<NO_TRIM>(), [true; 3]);
    assert_eq!(found::<STALE_BYTES>(), [true; 3]);
}

#[test]
fn idle_and_mixed_up_stores_are_found() {
    assert_eq!(found::<FIRST_SYNC>(), [true; 3]);
    assert_eq!(found::<COUNT>(), [true; 3]);
    assert_eq!(found::<TIMID>(), [true; 3]);
    assert_eq!(found::<FIRST_PIECE>(), [true; 3]);
    assert_eq!(found::<TAIL_KEPT>(), [true; 3]);
    assert_eq!(found::<SIZE_AS_ASKED>(), [true; 3]);
}

#[test]
fn what_outlives_a_loss_of_power_is_found() {
    assert_eq!(found::<OLD_FRAME>(), [true; 3]);
    assert_eq!(found::<KEPT_CACHE>(), [true; 3]);
    assert_eq!(found::<UNFILLED_PAGE>(), [true; 3]);
}

/// A cut after one media write more leaves a part of the changes, too.
#[test]
fn a_cut_that_comes_late_is_found_beside_the_reference() {
    assert_eq!(found::<ONE_TOO_MANY>(), [true, true, false]);
}

#[test]
fn a_failure_is_told_in_its_simplest_form() {
    let failure = check::<Wrong<SIZE_FIRST>, Wrong<SIZE_FIRST>>(1, HISTORIES).unwrap_err();
    let text = failure.to_string();
    let (first, rest) = text.split_once('\n').unwrap();
    assert!(
        first.ends_with(
            "after a cut, sync file 0, budget 1: nothing explains what the mount found of file 0"
        ),
        "{text}"
    );
    assert_eq!(
        rest,
        "  a formatted box, mounted\n  0: write file 0, position 0, length 1: 01\n  1: sync file 0, budget 0"
    );
}

#[test]
fn right_stores_have_no_fault() {
    let tally = check::<Reference, Wrong<0>>(1, HISTORIES).unwrap();
    assert_eq!(tally.histories, HISTORIES);
    assert_eq!(tally.missing(), [""; 0]);
    let archive = check::<Reference, Archive>(1, HISTORIES).unwrap();
    assert_eq!(archive, tally);
    assert_ne!(check::<Reference, Archive>(2, HISTORIES).unwrap(), tally);
}
