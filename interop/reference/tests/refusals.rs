//! The refusals: each in its case, the first that applies, nothing changed.

mod common;

use common::{cut, mounted, refused, Rng};
use reference::device::Device;
use reference::store::Refusal::{self, Books, Down, Media, NoFile, NoRoom, Range, Shape};
use reference::store::{Answer, CacheState, Slot, FRAMES_LEN, MEDIA_LEN};

#[derive(Clone, Copy, Debug, PartialEq)]
enum Call {
    Read,
    Write,
    Truncate,
    Sync,
    Look,
    Mount,
    Format,
}

use Call::*;

const CALLS: [Call; 7] = [Read, Write, Truncate, Sync, Look, Mount, Format];

/// The arguments of any call.
#[derive(Clone, Copy, Debug)]
struct Arguments {
    file: usize,
    position: usize,
    length: usize,
    budget: usize,
}

impl Call {
    fn make(self, device: &mut Device, arguments: Arguments) -> Answer {
        let Arguments {
            file,
            position,
            length,
            budget,
        } = arguments;
        match self {
            Read => {
                let mut buffer = vec![0xaa; length];
                let answer = device.read(file, position, &mut buffer);
                if answer.done().is_none() {
                    assert!(buffer.iter().all(|&byte| byte == 0xaa));
                }
                answer
            }
            Write => device.write(file, position, &vec![5; length]),
            Truncate => device.truncate(file, position),
            Sync => device.sync(file, budget),
            Look => {
                let answer = device.look_count(file, position);
                if answer.done().is_none() {
                    assert!(device.look(file, position).is_empty());
                }
                answer
            }
            Mount => device.mount(budget),
            Format => device.format(budget),
        }
    }
}

/// Something wrong with the input of a call.
#[derive(Clone, Copy, Debug, PartialEq)]
enum Defect {
    MediaLength(usize),
    SizesLength(usize),
    FramesLength(usize),
    StoredAbove,
    Unsound,
    NotMounted,
    NoSuchFile(usize),
    OutOfRange,
    NoRoomLeft,
    NoBudget,
}

use Defect::*;

impl Defect {
    fn refusal(self, call: Call) -> Option<Refusal> {
        let on_books = !matches!(call, Mount | Format);
        match self {
            MediaLength(_) | SizesLength(_) => Some(Shape),
            FramesLength(_) => on_books.then_some(Shape),
            StoredAbove => (call != Format).then_some(Media),
            Unsound => on_books.then_some(Books),
            NotMounted => on_books.then_some(Down),
            NoSuchFile(_) => on_books.then_some(NoFile),
            OutOfRange => matches!(call, Read | Write | Truncate | Look).then_some(Range),
            NoRoomLeft => (call == Write).then_some(NoRoom),
            NoBudget => matches!(call, Sync | Mount | Format).then_some(Refusal::Cut(0)),
        }
    }
}

/// A box on which every call is done if its budget is 20, and cut if it is 0:
/// file 0 has work to sync, file 1 has stale bytes past its stored size.
fn good_box() -> (Device, Arguments) {
    let mut device = mounted();
    device.write(0, 0, &[1; 600]);
    device.sync(0, 20);
    device.write(0, 300, &[2; 10]);
    device.media[4096 + 9] = 3;
    let arguments = Arguments {
        file: 0,
        position: 300,
        length: 10,
        budget: 20,
    };
    (device, arguments)
}

/// Applies defects; `NotMounted` first, so that others can stand beside it.
fn spoil(device: &mut Device, arguments: &mut Arguments, defects: &[Defect]) {
    if defects.contains(&NoRoomLeft) {
        // A full cache in which the first page of the write is not held.
        let mut others = (0..24).map(|k| (1 + k / 16, k % 16));
        for slot in &mut device.state.slots {
            let (file, page) = others.next().unwrap();
            *slot = Slot {
                used: true,
                file,
                page,
            };
        }
        // A sync of file 0 still has its size to store.
        device.state.logical[0] = 700;
    }
    if defects.contains(&NotMounted) {
        device.state = CacheState::DOWN;
    }
    for defect in defects {
        match *defect {
            MediaLength(length) => device.media.resize(length, 0),
            SizesLength(length) => device.sizes.resize(length, 0),
            FramesLength(length) => device.frames.resize(length, 0),
            StoredAbove => {
                if let Some(size) = device.sizes.last_mut() {
                    *size = 4097;
                }
            }
            Unsound => {
                device.state.slots[23] = Slot {
                    used: false,
                    file: 0,
                    page: 1,
                }
            }
            NoSuchFile(file) => arguments.file = file,
            OutOfRange => arguments.position = 4097,
            NoBudget => arguments.budget = 0,
            NotMounted | NoRoomLeft => {}
        }
    }
}

#[test]
fn the_good_box_refuses_nothing() {
    for call in CALLS {
        let (mut device, arguments) = good_box();
        assert!(call.make(&mut device, arguments).done().is_some());
    }
}

/// Every set of defects, on every call: the first refusal that applies is
/// given, and it changes nothing unless it is CUT.
#[test]
fn first_refusal_of_every_set_of_defects() {
    let all = [
        MediaLength(MEDIA_LEN - 1),
        SizesLength(7),
        FramesLength(FRAMES_LEN + 1),
        StoredAbove,
        Unsound,
        NotMounted,
        NoSuchFile(8),
        OutOfRange,
        NoRoomLeft,
        NoBudget,
    ];
    let mut seen = [0; 10];
    for call in CALLS {
        for set in 0..1_u32 << all.len() {
            let defects: Vec<Defect> = (0..all.len())
                .filter(|&bit| set >> bit & 1 == 1)
                .map(|bit| all[bit])
                .collect();
            let (mut device, mut arguments) = good_box();
            spoil(&mut device, &mut arguments, &defects);
            let expected = defects
                .iter()
                .filter_map(|defect| defect.refusal(call))
                .min_by_key(|refusal| refusal.number());
            let before = device.clone();
            let answer = call.make(&mut device, arguments);
            match expected {
                None => assert!(answer.done().is_some(), "{call:?} {defects:?} {answer:?}"),
                Some(refusal) => assert_eq!(answer, refused(refusal), "{call:?} {defects:?}"),
            }
            match expected {
                None | Some(Refusal::Cut(_)) => {}
                Some(_) => assert!(device == before, "{call:?} {defects:?}"),
            }
            if let Some(Refusal::Cut(_)) = expected {
                assert_eq!(device.state, CacheState::DOWN);
                assert!(device.media == before.media && device.sizes == before.sizes);
                assert!(device.frames == before.frames);
            }
            seen[usize::from(answer.number())] += 1;
        }
    }
    // All but LINE, which only a session gives.
    assert_eq!(seen[1], 0);
    for (number, count) in seen.iter().enumerate().filter(|(n, _)| *n != 1) {
        assert!(*count > 0, "answer {number} never came");
    }
}

/// Each pair of refusals that stand next to each other and can meet.
#[test]
fn order_of_neighbours() {
    let pairs = [
        (Read, [FramesLength(0), StoredAbove], Shape),
        (Read, [StoredAbove, Unsound], Media),
        (Read, [Unsound, NotMounted], Books),
        (Read, [NotMounted, NoSuchFile(8)], Down),
        (Read, [NoSuchFile(8), OutOfRange], NoFile),
        (Write, [OutOfRange, NoRoomLeft], Range),
        (Write, [NoSuchFile(9), NoRoomLeft], NoFile),
        (Truncate, [NoSuchFile(9), OutOfRange], NoFile),
        (Look, [NoSuchFile(9), OutOfRange], NoFile),
        (Sync, [NoSuchFile(8), NoBudget], NoFile),
        (Mount, [StoredAbove, NoBudget], Media),
        (Format, [SizesLength(9), NoBudget], Shape),
    ];
    for (call, defects, expected) in pairs {
        for defect in defects {
            let (mut device, mut arguments) = good_box();
            spoil(&mut device, &mut arguments, &[defect]);
            assert_eq!(
                call.make(&mut device, arguments),
                refused(defect.refusal(call).unwrap())
            );
        }
        let (mut device, mut arguments) = good_box();
        spoil(&mut device, &mut arguments, &defects);
        assert_eq!(call.make(&mut device, arguments), refused(expected));
    }
}

#[test]
fn shapes() {
    let wrong = [
        MediaLength(0),
        MediaLength(MEDIA_LEN - 1),
        MediaLength(MEDIA_LEN + 1),
        MediaLength(MEDIA_LEN * 2),
        SizesLength(0),
        SizesLength(7),
        SizesLength(9),
        FramesLength(0),
        FramesLength(FRAMES_LEN - 1),
        FramesLength(FRAMES_LEN + 1),
    ];
    for call in CALLS {
        for defect in wrong {
            let (mut device, mut arguments) = good_box();
            spoil(&mut device, &mut arguments, &[defect]);
            let before = device.clone();
            let answer = call.make(&mut device, arguments);
            if defect.refusal(call).is_some() {
                assert_eq!(answer, refused(Shape));
                assert!(device == before);
            } else {
                assert!(answer.done().is_some());
            }
        }
    }
}

#[test]
fn stored_sizes() {
    for size in [4097, 65_536, u32::MAX] {
        for file in 0..8 {
            for call in CALLS {
                let (mut device, arguments) = good_box();
                device.sizes[file] = size;
                let before = device.clone();
                let answer = call.make(&mut device, arguments);
                if call == Format {
                    assert!(answer.done().is_some());
                    assert_eq!(device.sizes, [0; 8]);
                } else {
                    assert_eq!(answer, refused(Media));
                    assert!(device == before);
                }
            }
        }
    }
    let mut device = mounted();
    device.sizes = vec![4096; 8];
    assert_eq!(device.mount(0), Answer::Done(0));
}

#[test]
fn unsound_states() {
    type Spoil = fn(&mut CacheState);
    let used = |file, page| Slot {
        used: true,
        file,
        page,
    };
    // Beside stored sizes 0, 100, 200, ... 700.
    let mut up = CacheState {
        mounted: 1,
        ..CacheState::DOWN
    };
    up.slots[4] = used(7, 15);
    up.slots[9] = used(7, 0);
    for file in 0..8 {
        up.logical[file] = 4096;
        up.floor[file] = 100 * file;
    }
    let spoils: [Spoil; 18] = [
        |s| s.mounted = 2,
        |s| s.mounted = 255,
        |s| s.slots[4].file = 8,
        |s| s.slots[4].file = usize::MAX,
        |s| s.slots[4].page = 16,
        |s| s.slots[4].page = usize::MAX,
        |s| s.slots[23] = s.slots[4],
        |s| s.slots[0].file = 1,
        |s| s.slots[23].page = 1,
        |s| s.floor[7] = 701,
        |s| s.floor[0] = 1,
        |s| s.logical[7] = 4097,
        |s| s.logical[0] = usize::MAX,
        |s| s.logical[6] = 599,
        |s| s.mounted = 0,
        |s| {
            *s = CacheState::DOWN;
            s.slots[3].used = true;
        },
        |s| {
            *s = CacheState::DOWN;
            s.logical[3] = 1;
        },
        |s| {
            *s = CacheState::DOWN;
            s.logical[3] = 1;
            s.floor[3] = 1;
        },
    ];
    let (mut device, arguments) = good_box();
    device.sizes = (0..8).map(|file| 100 * file).collect();
    device.state = up;
    for call in CALLS {
        assert!(call.make(&mut device.clone(), arguments).done().is_some());
        for spoil in spoils {
            let mut device = device.clone();
            spoil(&mut device.state);
            let before = device.clone();
            let answer = call.make(&mut device, arguments);
            if matches!(call, Mount | Format) {
                assert!(answer.done().is_some());
                assert!(device.state.is_sound(&device.sizes));
            } else {
                assert_eq!(answer, refused(Books));
                assert!(device == before);
            }
        }
    }
}

#[test]
fn sound_states_at_the_limits() {
    let (mut device, arguments) = good_box();
    for index in 0..24 {
        device.state.slots[index] = Slot {
            used: true,
            file: 7 - index / 16,
            page: 15 - index % 16,
        };
    }
    device.sizes = vec![4096; 8];
    device.state.logical = [4096; 8];
    device.state.floor = [4096; 8];
    assert!(device.state.is_sound(&device.sizes));
    assert_eq!(Read.make(&mut device, arguments), Answer::Done(10));
    device.state.floor = [0; 8];
    assert_eq!(Read.make(&mut device, arguments), Answer::Done(10));
    device.state.logical = [0; 8];
    assert_eq!(Read.make(&mut device, arguments), Answer::Done(0));
}

#[test]
fn file_numbers() {
    for call in [Read, Write, Truncate, Sync, Look] {
        for file in 0..8 {
            let (mut device, mut arguments) = good_box();
            arguments.file = file;
            assert!(call.make(&mut device, arguments).done().is_some());
        }
        for file in [8, 9, 255, 256, 1 << 32, usize::MAX] {
            let (mut device, mut arguments) = good_box();
            arguments.file = file;
            let before = device.clone();
            assert_eq!(call.make(&mut device, arguments), refused(NoFile));
            assert!(device == before);
        }
    }
}

#[test]
fn ranges_are_taken_exactly() {
    let (device, _) = good_box();
    let make = |call: Call, position, length| {
        let mut device = device.clone();
        let before = device.clone();
        let arguments = Arguments {
            file: 0,
            position,
            length,
            budget: 0,
        };
        let answer = call.make(&mut device, arguments);
        if answer.done().is_none() {
            assert!(device == before);
        }
        answer
    };
    for position in [4097, 65_535, 1 << 32, usize::MAX - 1, usize::MAX] {
        for call in [Read, Write, Truncate, Look] {
            assert_eq!(make(call, position, 0), refused(Range));
            assert_eq!(make(call, position, 2), refused(Range));
        }
    }
    assert_eq!(make(Write, 0, 4097), refused(Range));
    assert_eq!(make(Write, 4096, 1), refused(Range));
    assert_eq!(make(Write, 4000, 97), refused(Range));
    assert_eq!(make(Write, 4000, 96), Answer::Done(96));
    assert_eq!(make(Write, 4096, 0), Answer::Done(0));
    assert_eq!(make(Truncate, 4096, 0), Answer::Done(0));
    // A read may ask past 4,096: only its position counts.
    assert_eq!(make(Read, 4096, 9999), Answer::Done(0));
    assert_eq!(make(Read, 600, 9999), Answer::Done(0));
    assert_eq!(make(Read, 599, 9999), Answer::Done(1));
    assert_eq!(make(Read, 0, 9999), Answer::Done(600));
    assert_eq!(make(Look, 4096, 0), Answer::Done(0));
}

#[test]
fn cut_leaves_the_first_media_writes_and_the_down_state() {
    use reference::store::{store_page, store_size, trim, PAGE};
    // TRIM to 300, pages 0, 1, 3 (cached in another order), SIZE 900.
    let mut device = mounted();
    device.write(2, 0, &[1; 1000]);
    device.sync(2, 20);
    device.write(2, 800, &[2; 10]);
    device.truncate(2, 300);
    device.write(2, 890, &[3; 10]);
    device.write(2, 290, &[4; 5]);
    device.write(2, 1, &[5; 5]);
    let pages = [(0, 2), (1, 1), (3, 0)];
    for (page, slot) in pages {
        assert_eq!(device.state.slot_of(2, page), Some(slot));
    }
    for budget in 0..5 {
        let mut expected = device.clone();
        for step in 0..budget {
            match step {
                0 => trim(&mut expected.media, &mut expected.sizes, 2, 300).unwrap(),
                4 => store_size(&mut expected.sizes, 2, 900).unwrap(),
                _ => {
                    let (page, slot) = pages[step - 1];
                    let start = 2 * 4096 + page * PAGE;
                    store_page(
                        &mut expected.media[start..start + PAGE],
                        &device.frames[slot * PAGE..][..PAGE],
                    )
                    .unwrap();
                }
            }
        }
        expected.state = CacheState::DOWN;
        let mut actual = device.clone();
        assert_eq!(actual.sync(2, budget), cut(budget));
        assert!(actual == expected, "budget {budget}");
    }
    let mut done = device.clone();
    assert_eq!(done.sync(2, 5), Answer::Done(5));
    assert_eq!(done.sizes[2], 900);
    assert_eq!((done.state.logical[2], done.state.floor[2]), (900, 900));
    assert_eq!(done.state.slots, CacheState::DOWN.slots);
    assert!(done.frames == device.frames);
}

#[test]
fn sync_of_18_media_writes() {
    let mut device = mounted();
    device.write(5, 0, &[1; 3000]);
    device.sync(5, 20);
    device.truncate(5, 10);
    assert_eq!(device.write(5, 0, &[2; 4096]), Answer::Done(4096));
    // Another file's pages do not count and stay cached.
    assert_eq!(device.write(6, 0, &[3; 2048]), Answer::Done(2048));
    for budget in 0..18 {
        assert_eq!(device.clone().sync(5, budget), cut(budget));
    }
    assert_eq!(device.sync(5, 18), Answer::Done(18));
    assert_eq!(device.state.slots.iter().filter(|s| s.used).count(), 8);
    assert!(device.state.slots.iter().all(|s| !s.used || s.file == 6));
}

#[test]
fn mount_and_format_are_cut_by_file() {
    let mut rng = Rng(5);
    for _ in 0..200 {
        let mut device = mounted();
        let mut stale = Vec::new();
        let mut filled = Vec::new();
        for file in 0..8 {
            let size = rng.pick(&[0, 0, 1, 255, 256, 4095, 4096]);
            device.sizes[file] = size as u32;
            if rng.one_in(2) {
                device.media[file * 4096 + rng.below(4096)] = 1;
            }
            let bytes = &device.media[file * 4096..][..4096];
            if bytes[size..].iter().any(|&byte| byte != 0) {
                stale.push(file);
            }
            if size > 0 || bytes.iter().any(|&byte| byte != 0) {
                filled.push(file);
            }
        }
        for budget in 0..10 {
            for (call, files) in [(Mount, &stale), (Format, &filled)] {
                let mut expected = device.clone();
                for &file in files.iter().take(budget) {
                    let size = if call == Mount {
                        device.sizes[file] as usize
                    } else {
                        0
                    };
                    expected.media[file * 4096 + size..(file + 1) * 4096].fill(0);
                    expected.sizes[file] = size as u32;
                }
                expected.state = CacheState::DOWN;
                let answer = if budget < files.len() {
                    cut(budget)
                } else {
                    if call == Mount {
                        expected.state.mounted = 1;
                        for file in 0..8 {
                            expected.state.logical[file] = device.sizes[file] as usize;
                            expected.state.floor[file] = device.sizes[file] as usize;
                        }
                    }
                    Answer::Done(files.len())
                };
                let mut actual = device.clone();
                let arguments = Arguments {
                    file: 0,
                    position: 0,
                    length: 0,
                    budget,
                };
                assert_eq!(call.make(&mut actual, arguments), answer);
                assert!(actual == expected);
            }
        }
    }
}
