//! The comparison finds a store with a fault.

use layout::{
    FILES, FILE_BYTES, FRAMES_BYTES, MEDIA_BYTES, PAGE_BYTES, STATE_BYTES, STATE_LOGICAL,
    STATE_MOUNTED,
};
use random_calls::{
    compare, faults_found, Call, GuardedMemory, MemoryMut, MemoryRef, Reference, Store,
};

/// The reference, with one fault.
struct Faulty<const FAULT: usize>;

const FAULTS: usize = 27;

impl<const FAULT: usize> Store for Faulty<FAULT> {
    fn down(state: &mut [u8]) -> u32 {
        let answer = Reference::down(state);
        if FAULT == 1 && answer == 0 {
            state[STATE_BYTES - 1] = 1;
        }
        answer
    }

    fn format(m: MemoryMut<'_>, budget: usize) -> u32 {
        let answer = Reference::format(m, budget);
        if FAULT == 2 && answer >> 16 == 9 {
            return 9 << 16;
        }
        answer
    }

    fn mount(mut m: MemoryMut<'_>, budget: usize) -> u32 {
        let last = m.media.get(MEDIA_BYTES - 1).copied();
        let answer = Reference::mount(m.lend_mut(), budget);
        if let (3, Some(last)) = (FAULT, last) {
            m.media[MEDIA_BYTES - 1] = last;
        }
        // what a mount may not write
        if FAULT == 22 && answer == 0 && !m.frames.is_empty() {
            m.frames[0] ^= 1;
        }
        answer
    }

    fn read(m: MemoryRef<'_>, file: usize, position: usize, buffer: &mut [u8]) -> u32 {
        // MEDIA before SHAPE
        if FAULT == 13 && m.sizes.iter().any(|&size| size as usize > FILE_BYTES) {
            return 3 << 16;
        }
        let position = if FAULT == 14 {
            position as u32 as usize
        } else {
            position
        };
        let answer = Reference::read(m, file, position, buffer);
        if FAULT == 15 && answer >> 16 == 7 {
            buffer.fill(0);
        }
        if FAULT == 4 && answer >> 16 == 0 && (answer as usize) < buffer.len() {
            buffer[answer as usize] = 0;
        }
        answer
    }

    fn write(mut m: MemoryMut<'_>, file: usize, position: usize, bytes: &[u8]) -> u32 {
        let before = m.state.to_vec();
        let answer = Reference::write(m.lend_mut(), file, position, bytes);
        if FAULT == 5 && answer >> 16 == 0 {
            m.state[STATE_LOGICAL..].copy_from_slice(&before[STATE_LOGICAL..]);
        }
        if FAULT == 6 && answer >> 16 == 8 {
            m.frames[0] ^= 1;
        }
        // what a write may not write
        if FAULT == 23 && answer >> 16 == 0 {
            m.media[MEDIA_BYTES - 1] ^= 1;
        }
        answer
    }

    fn truncate(mut m: MemoryMut<'_>, file: usize, n: usize) -> u32 {
        let before = m.frames.to_vec();
        let sizes = m.sizes.to_vec();
        // BOOKS before MEDIA
        if FAULT == 16
            && sizes.len() == FILES
            && m.frames.len() == FRAMES_BYTES
            && m.state.get(STATE_MOUNTED) == Some(&2)
        {
            m.sizes.fill(0);
            let answer = Reference::truncate(m.lend_mut(), file, n);
            m.sizes.copy_from_slice(&sizes);
            return answer;
        }
        let answer = Reference::truncate(m.lend_mut(), file, n);
        if FAULT == 7 {
            m.frames.copy_from_slice(&before);
        }
        // what a truncate may not write
        if FAULT == 24 && answer == 0 {
            m.sizes[file] = FILE_BYTES as u32;
        }
        answer
    }

    fn sync(mut m: MemoryMut<'_>, file: usize, budget: usize) -> u32 {
        let before = m.sizes.to_vec();
        let answer = Reference::sync(m.lend_mut(), file, budget);
        if FAULT == 8 {
            m.sizes.copy_from_slice(&before);
        }
        // what a sync may not write
        if FAULT == 25 && answer >> 16 == 0 {
            m.frames[FRAMES_BYTES - 1] ^= 1;
        }
        answer
    }

    fn look_count(m: MemoryRef<'_>, file: usize, position: usize) -> u32 {
        let answer = Reference::look_count(m, file, position);
        // to the end of the page, past the logical size
        if FAULT == 19 && (1..PAGE_BYTES as u32).contains(&answer) {
            return (PAGE_BYTES - position % PAGE_BYTES) as u32;
        }
        answer
    }

    fn look(m: MemoryRef<'_>, file: usize, position: usize) -> u64 {
        let look = Reference::look(m, file, position);
        let look_is_done = Self::look_count(m, file, position) >> 16 == 0;
        match FAULT {
            // a place that the media has not
            17 if look & 65_535 == 0 && look_is_done => (MEDIA_BYTES as u64 + 1) << 32,
            18 if look_is_done => look | 2 << 16,
            9 if look != 0 => look ^ 1 << 16,
            10 if !look_is_done => 1 << 32,
            _ => look,
        }
    }

    fn truncate_sizes(sizes: &mut [u32], n: usize, greatest: u32) -> u32 {
        if FAULT == 11 {
            return Reference::truncate_sizes(sizes, n as u32 as usize, greatest);
        }
        Reference::truncate_sizes(sizes, n, greatest)
    }

    fn write_page(page: &mut [u8], bytes: &[u8]) -> u32 {
        if FAULT == 12 {
            page.fill(0);
        }
        Reference::write_page(page, bytes)
    }

    fn write_size(mut m: MemoryMut<'_>, file: usize, n: usize) -> u32 {
        let n = if FAULT == 20 { n as u32 as usize } else { n };
        let answer = Reference::write_size(m.lend_mut(), file, n);
        // what a media write of a size may not write
        if FAULT == 26 && answer == 0 {
            m.media[0] ^= 1;
        }
        answer
    }

    fn trim(mut m: MemoryMut<'_>, file: usize, n: usize) -> u32 {
        let before = m.media.to_vec();
        let answer = Reference::trim(m.lend_mut(), file, n);
        // the last byte stays
        if FAULT == 21 && answer == 0 && n < FILE_BYTES {
            let last = FILE_BYTES * (file + 1) - 1;
            m.media[last] = before[last];
        }
        // what a trim may not write
        if FAULT == 27 && answer == 0 && !m.state.is_empty() {
            m.state[0] ^= 1;
        }
        answer
    }
}

#[test]
fn a_store_equals_itself_and_gives_every_answer() {
    let tally = compare::<Reference, Faulty<0>>(1, 30_000).unwrap();
    assert!(tally.calls() >= 30_000);
    let kinds = [tally.sound, tally.unsound, tally.wrong_lengths];
    assert_eq!(kinds.iter().sum::<usize>(), tally.calls());
    assert!(kinds.iter().all(|&kind| kind > 2_000), "{kinds:?}");
    assert_eq!(tally.missing(), []);
    assert!(tally.of("write")[8] > 0);
    assert_eq!(tally.of("write")[9], 0);
}

#[test]
fn few_calls_do_not_give_every_answer() {
    let tally = compare::<Reference, Reference>(1, 1).unwrap();
    assert!(!tally.missing().is_empty());
}

#[test]
fn every_fault_is_found() {
    let found = faults_found!(Reference, 30_000:
        1 2 3 4 5 6 7 8 9 10 11 12 13 14 15 16 17 18 19 20
        21 22 23 24 25 26 27
    );
    assert_eq!(found, [true; FAULTS]);
}

/// What a refusal has to leave, what a look may name and what a call may write,
/// without another store that is right.
#[test]
fn some_faults_are_found_beside_themselves() {
    let found = faults_found!(itself, 30_000:
        6 15 17 18 22 23 24 25 26 27
    );
    assert_eq!(found, [true; 10]);
}

#[test]
fn a_difference_is_told_in_its_simplest_form() {
    let difference = compare::<Reference, Faulty<4>>(1, 30_000).unwrap_err();
    // one byte too many in the buffer, on a store that is up
    let mut memory = GuardedMemory::new();
    memory.state[STATE_MOUNTED] = 1;
    assert_eq!(difference.memory, memory);
    let Call::Read {
        position: 0,
        file: 0,
        buffer,
    } = &difference.call
    else {
        panic!("{difference}");
    };
    assert_eq!(buffer.len(), 1);
    let text = difference.to_string();
    assert!(text.starts_with("seed 1, call "), "{text}");
    assert!(text.contains("the buffers of the call differ"), "{text}");
    assert!(
        text.contains("read file 0, position 0, buffer of 1: "),
        "{text}"
    );
    assert!(text.contains("  state: mounted\n"), "{text}");
}
