//! The calls over memory of the caller's own: what a device cannot ask for, and
//! trip lists.

#[path = "../../tuned/tests/worked_trips/mod.rs"]
mod worked_trips;

use boxstore::raw as calls;
use boxstore::{
    raw, Error, FILES, FILE_BYTES, MEDIA_BYTES, MOUNT_WRITES, STATE_BYTES, SYNC_WRITES,
};
use layout::{floor_at, slot_at, PAGES, STATE_MOUNTED};
use random_calls::{Memory, MemoryMut, MemoryVec};

const SHAPE: Result<usize, Error> = Err(Error::Shape);
const BOOKS: Result<usize, Error> = Err(Error::Books);

/// A device that is mounted, all files empty.
fn mounted() -> MemoryVec {
    let mut memory = MemoryVec::new();
    memory.state.fill(9);
    assert_eq!(raw::down(&mut memory.state), 0);
    assert_eq!(memory.state, [0; STATE_BYTES]);
    let m = memory.lend_mut();
    assert_eq!(raw::mount(m.media, m.sizes, m.state, 0), 0);
    memory
}

/// The answer of each call on this memory.
fn all_calls(memory: MemoryMut<'_>) -> Vec<Result<usize, Error>> {
    let Memory {
        media,
        sizes,
        frames,
        state,
    } = memory;
    let look = raw::look(media, sizes, frames, state, 0, 0);
    assert_eq!(look, 0);
    [
        raw::read(media, sizes, frames, state, 0, 0, &mut [0; 4]),
        raw::write(media, sizes, frames, state, 0, 0, &[1; 4]),
        raw::truncate(media, sizes, frames, state, 0, 0),
        raw::sync(media, sizes, frames, state, 0, SYNC_WRITES),
        raw::look_count(media, sizes, frames, state, 0, 0),
        raw::mount(media, sizes, state, MOUNT_WRITES),
        raw::format(media, sizes, state, MOUNT_WRITES),
    ]
    .map(Error::decode)
    .to_vec()
}

#[test]
fn buffers_of_another_length() {
    let spoils: [fn(&mut MemoryVec); 3] = [
        |memory| memory.media.truncate(MEDIA_BYTES - 1),
        |memory| memory.sizes.push(0),
        |memory| memory.state.clear(),
    ];
    for spoil in spoils {
        let mut memory = mounted();
        spoil(&mut memory);
        assert_eq!(all_calls(memory.lend_mut()), [SHAPE; 7]);
    }

    // mount and format do not borrow the frames
    let mut memory = mounted();
    memory.frames.push(0);
    let answers = all_calls(memory.lend_mut());
    assert_eq!(answers[..5], [SHAPE; 5]);
    assert_eq!(answers[5..], [Ok(0), Ok(0)]);

    assert_eq!(Error::decode(raw::down(&mut [1; STATE_BYTES - 1])), SHAPE);
}

#[test]
fn states_that_are_not_sound() {
    let spoils: [fn(&mut [u8]); 6] = [
        |state| state[STATE_MOUNTED] = 2,
        // a slot that is neither used nor free; no file; no page
        |state| state[slot_at(0)] = 2,
        |state| state[slot_at(0)..slot_at(1)].copy_from_slice(&[1, FILES as u8, 0]),
        |state| state[slot_at(0)..slot_at(1)].copy_from_slice(&[1, 0, PAGES as u8]),
        // a page in two slots
        |state| state[slot_at(0)..slot_at(2)].copy_from_slice(&[1, 3, 3, 1, 3, 3]),
        // a floor above the logical size
        |state| state[floor_at(0)] = 1,
    ];
    for spoil in spoils {
        let mut memory = mounted();
        spoil(&mut memory.state);
        let state = memory.state.clone();
        let answers = all_calls(memory.lend_mut());
        assert_eq!(answers[..5], [BOOKS; 5], "{state:?}");
        assert_eq!(answers[5..], [Ok(0), Ok(0)]);
    }
}

#[test]
fn a_refusal_changes_nothing() {
    let mut memory = mounted();
    memory.state[STATE_MOUNTED] = 7;
    let before = memory.clone();
    let mut buffer = [5; 4];
    let m = memory.lend_mut();
    let answer = raw::read(m.media, m.sizes, m.frames, m.state, 0, 0, &mut buffer);
    assert_eq!(Error::decode(answer), BOOKS);
    let answer = raw::write(m.media, m.sizes, m.frames, m.state, 0, 0, &[1; 4]);
    assert_eq!(Error::decode(answer), BOOKS);
    assert_eq!(memory, before);
    assert_eq!(buffer, [5; 4]);
}

#[test]
fn a_look_names_its_source() {
    let mut memory = mounted();
    let Memory {
        media,
        sizes,
        frames,
        state,
    } = memory.lend_mut();
    raw::write(media, sizes, frames, state, 1, 0, &[6; 300]);
    let look = raw::look(media, sizes, frames, state, 1, 250);
    assert_eq!(look >> 16 & 65_535, 1);
    assert_eq!(raw::looked(look, media, frames), [6; 6]);

    raw::sync(media, sizes, frames, state, 1, SYNC_WRITES);
    let look = raw::look(media, sizes, frames, state, 1, 250);
    assert_eq!(look, (FILE_BYTES as u64 + 250) << 32 | 6);
    assert_eq!(raw::looked(look, media, frames), [6; 6]);
}

#[test]
fn the_truncate_rule_on_sizes() {
    let mut record = [300, 200, 250];
    assert_eq!(raw::truncate_sizes(&mut record, 100, 4_096), 0);
    assert_eq!(record, [100, 100, 250]);
    assert_eq!(raw::truncate_sizes(&mut record, 4_096, 4_096), 0);
    assert_eq!(record, [4_096, 100, 250]);

    let range = Err(Error::Range);
    for n in [4_097, 1 << 32, usize::MAX] {
        assert_eq!(
            Error::decode(raw::truncate_sizes(&mut record, n, 4_096)),
            range
        );
    }
    // the greatest size is told
    assert_eq!(
        Error::decode(raw::truncate_sizes(&mut record, 0, 4_095)),
        BOOKS
    );
    assert_eq!(record, [4_096, 100, 250]);
    for mut unsound in [[1, 2, 3], [3, 2, 1]] {
        assert_eq!(
            Error::decode(raw::truncate_sizes(&mut unsound, 0, 9)),
            BOOKS
        );
    }
    assert_eq!(Error::decode(raw::truncate_sizes(&mut [0; 2], 0, 9)), SHAPE);
}

#[test]
fn the_media_writes_by_themselves() {
    let mut media = vec![1; MEDIA_BYTES];
    let mut sizes = [0, 100, 0, 0, 0, 0, 0, 5_000];

    assert_eq!(raw::write_page(&mut media[256..512], &[2; 256]), 0);
    assert_eq!(media[..256], [1; 256]);
    assert_eq!(media[256..512], [2; 256]);
    assert_eq!(media[512], 1);
    assert_eq!(
        Error::decode(raw::write_page(&mut media[..255], &[2; 256])),
        SHAPE
    );
    assert_eq!(
        Error::decode(raw::write_page(&mut media[..256], &[2; 257])),
        SHAPE
    );

    assert_eq!(raw::write_size(&media, &mut sizes, 0, 4_096), 0);
    assert_eq!(sizes[0], 4_096);
    let decode = Error::decode;
    assert_eq!(
        decode(raw::write_size(&media[1..], &mut sizes, 0, 0)),
        SHAPE
    );
    assert_eq!(
        decode(raw::write_size(&media, &mut sizes[1..], 0, 0)),
        SHAPE
    );
    assert_eq!(
        decode(raw::write_size(&media, &mut sizes, 8, 0)),
        Err(Error::NoFile)
    );
    assert_eq!(
        decode(raw::write_size(&media, &mut sizes, 0, 4_097)),
        Err(Error::Range)
    );
    assert_eq!(sizes[0], 4_096);

    assert_eq!(raw::trim(&mut media, &mut sizes, 1, 50), 0);
    assert_eq!(sizes[1], 50);
    assert_eq!(media[4_096..4_146], [1; 50]);
    assert_eq!(media[4_146..8_192], [0; 4_046]);
    assert_eq!(media[8_192], 1);
    assert_eq!(decode(raw::trim(&mut media[1..], &mut sizes, 1, 0)), SHAPE);
    assert_eq!(decode(raw::trim(&mut media, &mut sizes[1..], 1, 0)), SHAPE);
    assert_eq!(
        decode(raw::trim(&mut media, &mut sizes, 8, 0)),
        Err(Error::NoFile)
    );
    assert_eq!(
        decode(raw::trim(&mut media, &mut sizes, 1, 51)),
        Err(Error::Range)
    );
    assert_eq!(
        decode(raw::trim(&mut media, &mut sizes, 7, 4_097)),
        Err(Error::Range)
    );
    assert_eq!(sizes[1], 50);
}

#[test]
fn empty_slices_everywhere() {
    assert_eq!(Error::decode(raw::down(&mut [])), SHAPE);
    assert_eq!(
        Error::decode(raw::mount(&mut [], &mut [], &mut [], 0)),
        SHAPE
    );
    assert_eq!(
        Error::decode(raw::format(&mut [], &mut [], &mut [], 0)),
        SHAPE
    );
    assert_eq!(
        Error::decode(raw::read(&[], &[], &[], &[], 0, 0, &mut [])),
        SHAPE
    );
    assert_eq!(Error::decode(raw::write_page(&mut [], &[])), SHAPE);
    assert_eq!(Error::decode(raw::truncate_sizes(&mut [], 0, 0)), SHAPE);
    assert_eq!(Error::decode(raw::read_trip(&[], 0, &mut [])), SHAPE);
    assert_eq!(Error::decode(raw::next_trip(&[], 0, 0, &mut [])), SHAPE);
    assert_eq!(Error::decode(raw::write_trips(&[], &mut [])), SHAPE);
    assert_eq!(Error::decode(raw::join_trips(&[], &[], &mut [])), SHAPE);
}
