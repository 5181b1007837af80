//! What is timed: lists of steps on one device, run over and over.

use std::hint::black_box;

use layout::{
    floor_at, size, slot_at, FILES, FILE_BYTES, LIST_BYTES, MOUNT_WRITES, PAGE_BYTES, SLOTS,
    SYNC_WRITES, TRIP_NUMBERS,
};
use random_calls::{MemoryVec, Store};
use random_lists::TripLists;
use random_sessions::rng::Rng;

use crate::lists::{lists, pairs, Parting, Spelling, LISTS};

/// All calls of `boxstore.h`.
pub trait Calls: Store + TripLists {}

impl<S: Store + TripLists> Calls for S {}

/// One step of a scenario.
#[derive(Clone, Copy, Debug)]
pub enum Step {
    /// Format.
    Format,
    /// Mount.
    Mount,
    /// Read into the front of the buffer.
    Read {
        /// File number.
        file: usize,
        /// Position of the first byte.
        position: usize,
        /// Number of bytes.
        length: usize,
    },
    /// Write bytes from the front of the source.
    Write {
        /// File number.
        file: usize,
        /// Position of the first byte.
        position: usize,
        /// Number of bytes.
        length: usize,
    },
    /// Truncate.
    Truncate {
        /// File number.
        file: usize,
        /// The new size.
        n: usize,
    },
    /// Sync.
    Sync {
        /// File number.
        file: usize,
        /// Media writes allowed.
        budget: usize,
    },
    /// Look.
    Look {
        /// File number.
        file: usize,
        /// Position of the first byte.
        position: usize,
    },
    /// Look count.
    LookCount {
        /// File number.
        file: usize,
        /// Position of the first byte.
        position: usize,
    },
    /// Read the last trip of a list.
    ReadTrip {
        /// Which list.
        list: usize,
        /// Its last place.
        place: usize,
    },
    /// Go through a list by the cursor, and add up the numbers of all trips.
    WalkTrips {
        /// Which list.
        list: usize,
    },
    /// Write a list in its one spelling, into the buffer.
    WriteTrips {
        /// Which list.
        list: usize,
    },
    /// Join two lists into the buffer.
    JoinTrips {
        /// Which list is the first.
        first: usize,
        /// Which one is the second.
        second: usize,
    },
    /// No call: puts two pages past the stored size of file 3, as a sync that
    /// was cut leaves them. 512 bytes are copied, on both sides alike.
    LeaveTail,
}

/// A list of steps, with what the device is before the first of them.
pub struct Scenario {
    /// Its name in the tables.
    pub name: &'static str,
    /// The steps of one pass; they can be run again after the last.
    pub steps: Vec<Step>,
    /// Steps that make the device ready.
    prepare: Vec<Step>,
    /// The trip lists that there are.
    lists: Vec<Vec<u8>>,
}

impl Scenario {
    /// The calls of one pass.
    pub fn calls(&self) -> usize {
        let calls = |&step: &Step| match step {
            Step::LeaveTail => 0,
            // one more finds the end
            Step::WalkTrips { list } => trips(&self.lists[list]) + 1,
            _ => 1,
        };
        self.steps.iter().map(calls).sum()
    }

    /// Whether it is one of trip lists.
    pub fn is_on_lists(&self) -> bool {
        !self.lists.is_empty()
    }

    /// A device that is ready for the steps.
    pub fn ready<S: Calls>(&self) -> Run {
        let mut run = Run::new(&self.lists);
        for &step in &self.prepare {
            run.step::<S>(step);
        }
        run
    }
}

/// The number of trips of a list.
fn trips(list: &[u8]) -> usize {
    list.iter().filter(|&&byte| byte == b'\n').count()
}

/// A device, with the buffers of the caller.
#[derive(Clone)]
pub struct Run {
    /// The memory of the store.
    pub memory: MemoryVec,
    /// Takes what is read, and the spelling of a trip list or of a join.
    pub buffer: Vec<u8>,
    /// The trip that was read last.
    trip: [u32; TRIP_NUMBERS],
    /// What is written.
    source: Vec<u8>,
    /// Trip lists.
    lists: Vec<Vec<u8>>,
}

impl Run {
    fn new(lists: &[Vec<u8>]) -> Run {
        let mut rng = Rng::new(2);
        Run {
            memory: MemoryVec::new(),
            buffer: vec![0; FILE_BYTES],
            // No byte is 0, so that a page which is lost shows.
            source: (0..FILE_BYTES).map(|_| rng.between(1, 255) as u8).collect(),
            trip: [0; TRIP_NUMBERS],
            lists: lists.to_vec(),
        }
    }

    /// Carries out one step and answers its word, or the sum of a walk.
    #[inline(always)]
    pub fn step<S: Calls>(&mut self, step: Step) -> u64 {
        let memory = &mut self.memory;
        match step {
            Step::Format => S::format(memory.lend_mut(), MOUNT_WRITES).into(),
            Step::Mount => S::mount(memory.lend_mut(), MOUNT_WRITES).into(),
            Step::Read {
                file,
                position,
                length,
            } => {
                let buffer = &mut self.buffer[..length];
                S::read(memory.lend(), file, position, buffer).into()
            }
            Step::Write {
                file,
                position,
                length,
            } => {
                let bytes = &self.source[..length];
                S::write(memory.lend_mut(), file, position, bytes).into()
            }
            Step::Truncate { file, n } => S::truncate(memory.lend_mut(), file, n).into(),
            Step::Sync { file, budget } => S::sync(memory.lend_mut(), file, budget).into(),
            Step::Look { file, position } => S::look(memory.lend(), file, position),
            Step::LookCount { file, position } => {
                S::look_count(memory.lend(), file, position).into()
            }
            Step::ReadTrip { list, place } => {
                S::read_trip(&self.lists[list], place, &mut self.trip).into()
            }
            Step::WalkTrips { list } => walk::<S>(&self.lists[list], &mut self.trip),
            Step::WriteTrips { list } => {
                S::write_trips(&self.lists[list], &mut self.buffer[..LIST_BYTES]).into()
            }
            Step::JoinTrips { first, second } => {
                let buffer = &mut self.buffer[..LIST_BYTES];
                S::join_trips(&self.lists[first], &self.lists[second], buffer).into()
            }
            Step::LeaveTail => {
                let at =
                    3 * FILE_BYTES + PAGE_BYTES * (memory.sizes[3] as usize).div_ceil(PAGE_BYTES);
                memory.media[at..at + 512].copy_from_slice(&self.source[..512]);
                0
            }
        }
    }

    /// Carries out all steps, several times.
    #[inline(never)]
    pub fn passes<S: Calls>(&mut self, steps: &[Step], passes: usize) {
        for _ in 0..passes {
            for &step in steps {
                black_box(self.step::<S>(step));
            }
        }
        black_box(&mut self.memory);
        black_box(&mut self.buffer);
        black_box(&mut self.trip);
    }

    /// The plain work of a step, at the least:
    ///
    /// - read and write: a copy of the bytes between the caller and the store;
    /// - sync: a copy of 256 bytes for each page that is written to the media,
    ///   and a fill of the bytes that a trim clears;
    /// - mount: a scan of the bytes past the stored sizes, of each file up to
    ///   the first that is not 0, and a fill for each trim;
    /// - format: such a scan of the files whose stored size is 0, and a fill
    ///   for each trim;
    /// - truncate, look and look count: none;
    /// - read and walk of a trip list: a scan of it;
    /// - write of a trip list: a copy of what is written;
    /// - join of two: a scan of both, and a copy of what is written.
    ///
    /// The bytes that fill a page when it becomes cached, and the cache state,
    /// are not counted.
    pub fn work<S: Calls>(&mut self, step: Step) -> Vec<Work> {
        let before = self.memory.clone();
        let answer = self.step::<S>(step);
        let (number, count) = (answer >> 16, (answer & 65_535) as usize);
        let mut work = Vec::new();
        match step {
            Step::Read { .. } | Step::Write { .. } | Step::WriteTrips { .. }
                if number == 0 && count > 0 =>
            {
                work.push(Work::Copy(count));
            }
            Step::ReadTrip { list, .. } | Step::WalkTrips { list } => {
                work.push(Work::Scan(self.lists[list].len()));
            }
            Step::JoinTrips { first, second } if number == 0 => {
                work.extend([first, second].map(|list| Work::Scan(self.lists[list].len())));
                work.push(Work::Copy(count));
            }
            Step::Sync { file, .. } if number == 0 || number == 9 => {
                let floor = size(&before.state, floor_at(file));
                let mut left = count;
                if floor < before.sizes[file] as usize && left > 0 {
                    work.push(Work::Fill(FILE_BYTES - floor));
                    left -= 1;
                }
                let pages = (0..SLOTS)
                    .filter(|slot| {
                        before.state[slot_at(*slot)] == 1
                            && usize::from(before.state[slot_at(*slot) + 1]) == file
                    })
                    .count();
                let pages = pages.min(left);
                work.extend(std::iter::repeat_n(Work::Copy(PAGE_BYTES), pages));
            }
            Step::Mount => {
                for (bytes, &size) in before.media.chunks(FILE_BYTES).zip(&before.sizes) {
                    let past = &bytes[size as usize..];
                    work.push(scan(past));
                    if past.iter().any(|&byte| byte != 0) {
                        work.push(Work::Fill(past.len()));
                    }
                }
            }
            Step::Format => {
                let files = before.media.chunks(FILE_BYTES).zip(&before.sizes);
                let empty = files.filter(|(_, &size)| size == 0);
                work.extend(empty.map(|(bytes, _)| scan(bytes)));
                work.extend(std::iter::repeat_n(Work::Fill(FILE_BYTES), count));
            }
            _ => {}
        }
        work
    }
}

/// Goes through a list as `boxstore.h` says. Answers the sum of the numbers of
/// all trips.
#[inline(always)]
fn walk<S: TripLists>(list: &[u8], trip: &mut [u32; TRIP_NUMBERS]) -> u64 {
    let mut sum = 0;
    let mut at = 0;
    let mut least = 0;
    loop {
        match S::next_trip(list, at, least, trip) {
            0 => return sum,
            refused @ 65_536.. => return refused.into(),
            next => at = next as usize,
        }
        least = trip[0] as usize + 1;
        sum += trip.iter().map(|&number| u64::from(number)).sum::<u64>();
    }
}

/// A scan of bytes up to the first that is not 0.
fn scan(bytes: &[u8]) -> Work {
    let first = bytes.iter().position(|&byte| byte != 0);
    Work::Scan(first.map_or(bytes.len(), |index| index + 1))
}

/// Plain work on a number of bytes.
#[derive(Clone, Copy, Debug, PartialEq, Eq)]
pub enum Work {
    /// They are copied.
    Copy(usize),
    /// They are looked at: an OR over them.
    Scan(usize),
    /// They become 0.
    Fill(usize),
}

impl Work {
    /// The number of bytes.
    pub fn bytes(self) -> usize {
        match self {
            Work::Copy(bytes) | Work::Scan(bytes) | Work::Fill(bytes) => bytes,
        }
    }
}

/// What differs between two devices, if something does. The bytes of free
/// slots may.
pub fn different(one: &Run, two: &Run) -> Option<String> {
    if one.buffer != two.buffer {
        return Some("buffers of reads".to_owned());
    }
    if one.trip != two.trip {
        return Some("trips".to_owned());
    }
    one.memory.difference(&two.memory, true)
}

const START: [Step; 2] = [Step::Format, Step::Mount];

const fn sync(file: usize) -> Step {
    Step::Sync {
        file,
        budget: SYNC_WRITES,
    }
}

const fn write(file: usize, position: usize, length: usize) -> Step {
    Step::Write {
        file,
        position,
        length,
    }
}

const fn read(file: usize, position: usize, length: usize) -> Step {
    Step::Read {
        file,
        position,
        length,
    }
}

/// Steps after the start of a device.
fn started(steps: &[Step]) -> Vec<Step> {
    [&START, steps].concat()
}

/// All scenarios, in the order of the table.
pub fn all() -> Vec<Scenario> {
    let (plain, zeros) = (lists(Spelling::Plain), lists(Spelling::Zeros));
    vec![
        on_files(
            "serial: write 12 bytes, sync",
            started(&[]),
            [write(0, 0, 12), sync(0)].repeat(16),
        ),
        on_files(
            "odometer: append 8 bytes, sync each eighth",
            started(&[]),
            odometer(),
        ),
        on_files("fill: write 16 pages, sync", started(&[]), fill()),
        on_files(
            "read 4,096 bytes, none cached",
            started(&[write(1, 0, FILE_BYTES), sync(1)]),
            vec![read(1, 0, FILE_BYTES); 16],
        ),
        on_files(
            "read 4,096 bytes, all cached",
            started(&[write(1, 0, FILE_BYTES)]),
            vec![read(1, 0, FILE_BYTES); 16],
        ),
        on_files(
            "mount after a cut",
            mount_prepare(),
            [Step::LeaveTail, Step::Mount].repeat(4),
        ),
        on_files("mixed session", Vec::new(), mixed()),
        on_files(
            "empty read, no page cached",
            started(&[]),
            vec![read(1, 0, 0); 16],
        ),
        on_files(
            "empty read, 24 pages cached",
            started(&[write(1, 0, FILE_BYTES), write(2, 0, FILE_BYTES)]),
            vec![read(1, 0, 0); 16],
        ),
        on_lists(
            "trip list: read the last of its trips",
            &plain,
            |list, trips| Step::ReadTrip {
                list,
                place: trips - 1,
            },
        ),
        on_lists("trip list: walk through its trips", &plain, |list, _| {
            Step::WalkTrips { list }
        }),
        on_lists("trip list: write, spelled so already", &plain, |list, _| {
            Step::WriteTrips { list }
        }),
        on_lists(
            "trip list: write, zeros before each number",
            &zeros,
            |list, _| Step::WriteTrips { list },
        ),
        on_pairs(
            "trip lists: join, minutes of both by turns",
            Parting::ByTurns,
        ),
        on_pairs(
            "trip lists: join, one after the other",
            Parting::OneAfterTheOther,
        ),
        on_pairs(
            "trip lists: join, half of the trips in both",
            Parting::HalfInBoth,
        ),
    ]
}

/// A scenario on the files of a device.
fn on_files(name: &'static str, prepare: Vec<Step>, steps: Vec<Step>) -> Scenario {
    Scenario {
        name,
        prepare,
        steps,
        lists: Vec::new(),
    }
}

/// A scenario with one step for each list and the number of its trips.
fn on_lists(name: &'static str, lists: &[Vec<u8>], step: fn(usize, usize) -> Step) -> Scenario {
    let steps = lists.iter().enumerate();
    Scenario {
        name,
        prepare: Vec::new(),
        steps: steps
            .map(|(index, list)| step(index, trips(list)))
            .collect(),
        lists: lists.to_vec(),
    }
}

/// A scenario with a join of each pair.
fn on_pairs(name: &'static str, parting: Parting) -> Scenario {
    let step = |pair| Step::JoinTrips {
        first: 2 * pair,
        second: 2 * pair + 1,
    };
    Scenario {
        name,
        prepare: Vec::new(),
        steps: (0..LISTS).map(step).collect(),
        lists: pairs(parting).concat(),
    }
}

/// Appends until file 1 is full, then begins anew.
fn odometer() -> Vec<Step> {
    let mut steps = Vec::new();
    for entry in 0..FILE_BYTES / 8 {
        steps.push(write(1, 8 * entry, 8));
        if entry % 8 == 7 {
            steps.push(sync(1));
        }
    }
    steps.push(Step::Truncate { file: 1, n: 0 });
    steps.push(sync(1));
    steps
}

fn fill() -> Vec<Step> {
    let mut steps: Vec<Step> = (0..FILE_BYTES / PAGE_BYTES)
        .map(|page| write(2, PAGE_BYTES * page, PAGE_BYTES))
        .collect();
    steps.push(sync(2));
    steps
}

/// Files of 0 to 3,500 bytes.
fn mount_prepare() -> Vec<Step> {
    let mut steps = started(&[]);
    for file in 0..FILES {
        steps.push(write(file, 0, 500 * file));
        steps.push(sync(file));
    }
    steps
}

/// The length of the mixed session.
const MIXED: usize = 4_000;

/// A session of calls of all kinds, which begins with a format. Of 113 calls 30
/// are small reads, 30 small writes, 20 syncs and 10 looks, at any place of any
/// file.
fn mixed() -> Vec<Step> {
    let mut rng = Rng::new(5);
    let mut steps = START.to_vec();
    while steps.len() < MIXED {
        let file = rng.below(FILES);
        let position = rng.below(FILE_BYTES);
        let small = rng.between(1, 64).min(FILE_BYTES - position);
        let large = rng.between(1, 1_500).min(FILE_BYTES - position);
        let step = match rng.weighted(&[30, 8, 30, 6, 8, 20, 6, 4, 1]) {
            0 => read(file, position, small),
            1 => read(file, 0, FILE_BYTES),
            2 => write(file, position, small),
            3 => write(file, position, large),
            4 => Step::Truncate { file, n: position },
            5 => sync(file),
            6 => Step::Look { file, position },
            7 => Step::LookCount { file, position },
            _ => {
                // the power goes during a sync
                let budget = rng.below(3);
                steps.push(Step::Sync { file, budget });
                Step::Mount
            }
        };
        steps.push(step);
    }
    steps
}

#[cfg(test)]
mod tests {
    use layout::{FRAMES_BYTES, STATE_LOGICAL};
    use random_calls::Reference;

    use super::*;

    fn work(scenarios: &[Scenario], name: &str) -> Vec<Work> {
        let scenario = scenarios
            .iter()
            .find(|scenario| scenario.name.starts_with(name))
            .expect("there is one");
        let mut run = scenario.ready::<Reference>();
        run.passes::<Reference>(&scenario.steps, 1);
        let steps = scenario.steps.iter();
        steps
            .flat_map(|&step| run.work::<Reference>(step))
            .collect()
    }

    #[test]
    fn plain_work() {
        use Work::{Copy, Fill, Scan};
        let scenarios = all();
        let work = |name: &str| work(&scenarios, name);
        assert_eq!(work("serial"), [Copy(12), Copy(256)].repeat(16));
        assert_eq!(work("fill"), [Copy(256); 32]);
        assert_eq!(work("read 4,096 bytes, none"), [Copy(4_096); 16]);
        assert_eq!(work("read 4,096 bytes, all"), [Copy(4_096); 16]);
        assert_eq!(work("empty read"), []);

        // 64 groups of entries, and the trim of the full file
        let mut group = vec![Copy(8); 8];
        group.push(Copy(256));
        let mut odometer = group.repeat(64);
        odometer.push(Fill(4_096));
        assert_eq!(work("odometer"), odometer);

        // what is past the stored sizes 0, 500, .. 3,500; file 3 is trimmed, for
        // a byte 37 past its 1,500
        let mut mount: Vec<Work> = (0..8).map(|file| Scan(4_096 - 500 * file)).collect();
        mount[3] = Scan(37);
        mount.insert(4, Fill(2_596));
        assert_eq!(work("mount"), mount.repeat(4));

        assert_eq!(work("trip list: read"), [Scan(4_096); LISTS]);
        assert_eq!(work("trip list: walk"), [Scan(4_096); LISTS]);
        assert_eq!(work("trip list: write, spelled"), [Copy(4_096); LISTS]);
        let zeros = work("trip list: write, zeros");
        assert_eq!(zeros.len(), LISTS);
        assert!(zeros.iter().all(|&work| work != Copy(4_096)));
        for (name, in_both) in [("minutes", false), ("one after", false), ("half", true)] {
            let work = work(&format!("trip lists: join, {name}"));
            assert_eq!(work.len(), 3 * LISTS);
            for work in work.chunks(3) {
                let [Scan(first), Scan(second), Copy(4_096)] = *work else {
                    panic!("{name}: {work:?}");
                };
                assert_eq!(first + second > 4_096, in_both, "{name}");
                assert!(first + second >= 4_096, "{name}");
            }
        }

        // a file with bytes, and seven without
        let mut run = Run::new(&[]);
        for step in started(&[write(2, 0, 1), sync(2)]) {
            run.step::<Reference>(step);
        }
        let mut format = vec![Scan(4_096); 7];
        format.push(Fill(4_096));
        assert_eq!(run.work::<Reference>(Step::Format), format);
    }

    #[test]
    fn a_mount_after_a_cut_has_one_file_to_trim() {
        let scenarios = all();
        let scenario = &scenarios[5];
        let mut run = scenario.ready::<Reference>();
        for _ in 0..2 {
            assert_eq!(run.step::<Reference>(Step::Mount), 0);
            run.step::<Reference>(Step::LeaveTail);
            assert_eq!(run.step::<Reference>(Step::Mount), 1);
        }
        assert_eq!(scenario.calls(), 4);
    }

    #[test]
    fn the_mixed_session_has_all_calls_and_answers() {
        let scenarios = all();
        let scenario = &scenarios[6];
        let mut run = scenario.ready::<Reference>();
        let mut answers = [0; 10];
        let mut looks = 0;
        for &step in &scenario.steps {
            let answer = run.step::<Reference>(step);
            if let Step::Look { .. } = step {
                looks += usize::from(answer != 0);
            } else {
                answers[(answer >> 16) as usize] += 1;
            }
        }
        assert!(answers[0] > 3_000, "{answers:?}");
        assert!(answers[8] > 0 && answers[9] > 0, "{answers:?}");
        assert!(looks > 0);
    }

    #[test]
    fn steps_on_trip_lists() {
        let list = b"5,1200,ANNA\n017,0,B7\n";
        let (other, bad) = (b"6,1,C\n", b"7,1,C\n6,1,C\n");
        let mut run = Run::new(&[list.to_vec(), other.to_vec(), bad.to_vec()]);
        let mut step = |step| (run.step::<Reference>(step), run.trip);
        let last = [17, 0, 18, 2];
        let sum = 5 + 1_200 + 7 + 4 + 17 + 18 + 2;
        assert_eq!(step(Step::WalkTrips { list: 0 }), (sum, last));
        assert_eq!(
            step(Step::ReadTrip { list: 0, place: 0 }),
            (2, [5, 1_200, 7, 4])
        );
        assert_eq!(step(Step::ReadTrip { list: 0, place: 1 }), (2, last));
        assert_eq!(step(Step::WriteTrips { list: 0 }), (20, last));
        assert_eq!(run.buffer[..21], *b"5,1200,ANNA\n17,0,B7\n\0");
        let join = Step::JoinTrips {
            first: 0,
            second: 1,
        };
        assert_eq!(run.step::<Reference>(join), 26);
        assert_eq!(run.buffer[..27], *b"5,1200,ANNA\n6,1,C\n17,0,B7\n\0");
        let refused = Step::JoinTrips {
            first: 2,
            second: 1,
        };
        assert_eq!(run.step::<Reference>(refused), 11 << 16);
        assert_eq!(run.work::<Reference>(refused), []);

        run.lists[0][13] = b'x';
        assert_eq!(run.step::<Reference>(Step::WalkTrips { list: 0 }), 10 << 16);

        let scenarios = all();
        let walk = scenarios
            .iter()
            .find(|scenario| scenario.name.contains("walk"));
        let walk = walk.expect("there is one");
        let trips: usize = walk.lists.iter().map(|list| trips(list)).sum();
        assert_eq!(walk.calls(), trips + walk.lists.len());
    }

    #[test]
    fn differences_are_seen() {
        let scenarios = all();
        let mut one = scenarios[4].ready::<Reference>();
        assert_eq!(different(&one, &one.clone()), None);
        type Alter = fn(&mut Run);
        let alter: [(Alter, &str); 6] = [
            (|run| run.buffer[9] ^= 1, "buffers of reads"),
            (|run| run.trip[1] ^= 1, "trips"),
            (|run| run.memory.media[9] ^= 1, "media"),
            (|run| run.memory.sizes[1] ^= 1, "stored sizes"),
            (|run| run.memory.state[STATE_LOGICAL] ^= 1, "cache states"),
            (|run| run.memory.frames[9] ^= 1, "frames of slot 0"),
        ];
        for (alter, what) in alter {
            let mut two = one.clone();
            alter(&mut two);
            assert_eq!(different(&one, &two).as_deref(), Some(what));
        }
        // the last slot is free
        one.memory.frames[FRAMES_BYTES - 1] ^= 1;
        assert_eq!(different(&one, &scenarios[4].ready::<Reference>()), None);
    }
}
