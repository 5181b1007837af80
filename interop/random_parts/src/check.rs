//! Histories on two stores, judged by model files.

use std::fmt;
use std::marker::PhantomData;

use layout::{BLOCK_RECORDS, FILES, FILE_BYTES, KIND_TRIM, PAGE_BYTES, RECORD_BYTES, RECORD_KIND};
use random_calls::{zeros_follow, Answered, Call};
use random_sessions::rng::Rng;
use reference::model::ModelFile;
use reference::store::Answer;

use crate::compare::with_budget;
use crate::history::{lose_power, Event, Generator, History};
use crate::memory::PartMemory;
use crate::pair::Pair;
use crate::part_store::PartStore;
use crate::stepwise::{
    blank, block_of, highest, is_blank, newest, number, oldest, sync_writes, Record, Rules,
};

/// The steps of a part.
#[derive(Clone, Copy, Debug, PartialEq, Eq)]
enum Kind {
    Copy,
    Erase,
    Write,
}

const STEPS: [&str; 3] = ["a copy", "an erase", "a media write"];
const CUT_CALLS: [&str; 3] = ["syncs", "mounts", "formats"];

/// What came up in histories.
#[derive(Clone, Debug, Default, PartialEq, Eq)]
pub struct HistoryTally {
    /// Histories.
    pub histories: usize,
    /// Calls made on both stores, those after a cut included.
    pub calls: usize,
    /// Syncs, mounts and formats that were cut before a copy, an erase and a media
    /// write, each followed by a loss of power and a mount.
    pub cuts: [[usize; 3]; 3],
    /// Mounts done, all files checked.
    pub mounts: usize,
    /// Files that a mount found with a part of the changes since their sync.
    pub partial: usize,
    /// Syncs done, the image checked.
    pub syncs: usize,
    /// Reads and looks done and compared with the model's bytes.
    pub reads: usize,
    /// Calls refused, by their number.
    pub refused: [usize; 14],
    /// Losses of power between calls.
    pub power_losses: usize,
    /// The most steps of a call.
    pub longest: usize,
}

impl HistoryTally {
    /// Calls that were cut.
    pub fn all_cuts(&self) -> usize {
        self.cuts.iter().flatten().sum()
    }

    /// Adds the counts of another.
    pub fn add(&mut self, other: &HistoryTally) {
        self.histories += other.histories;
        self.calls += other.calls;
        self.mounts += other.mounts;
        self.partial += other.partial;
        self.syncs += other.syncs;
        self.reads += other.reads;
        self.power_losses += other.power_losses;
        self.longest = self.longest.max(other.longest);
        for (mine, theirs) in self.refused.iter_mut().zip(other.refused) {
            *mine += theirs;
        }
        let cuts = self.cuts.iter_mut().flatten();
        for (mine, theirs) in cuts.zip(other.cuts.iter().flatten()) {
            *mine += theirs;
        }
    }

    /// What histories can come to, and did not.
    pub fn missing(&self) -> Vec<String> {
        let mut missing = Vec::new();
        let mut need = |count: usize, what: String| {
            if count == 0 {
                missing.push(what);
            }
        };
        need(
            self.partial,
            "files found with a part of the changes".to_owned(),
        );
        need(self.syncs, "syncs".to_owned());
        need(self.reads, "reads".to_owned());
        need(self.power_losses, "losses of power".to_owned());
        for number in [3, 5, 6, 7, 8, 9, 12, 13] {
            need(self.refused[number], format!("refusals of number {number}"));
        }
        for (call, counts) in CUT_CALLS.iter().zip(&self.cuts) {
            for (step, &count) in STEPS.iter().zip(counts) {
                need(count, format!("{call} cut before {step}"));
            }
        }
        missing
    }
}

/// A history that shows a fault.
pub struct Failure {
    /// The seed of the histories.
    pub seed: u64,
    /// How many histories came before it.
    pub index: usize,
    /// What is wrong after its last event.
    pub what: String,
    /// The history, made shorter where the fault stayed.
    pub history: History,
}

impl fmt::Display for Failure {
    fn fmt(&self, f: &mut fmt::Formatter<'_>) -> fmt::Result {
        writeln!(
            f,
            "seed {}, history {}, at the last event: {}",
            self.seed, self.index, self.what
        )?;
        write!(f, "{}", self.history)
    }
}

impl fmt::Debug for Failure {
    fn fmt(&self, f: &mut fmt::Formatter<'_>) -> fmt::Result {
        fmt::Display::fmt(self, f)
    }
}

/// Makes random histories on both stores. Each call is compared as [`Pair::call`]
/// does it, and the answers and images of the second store are held against model
/// files. Each sync, mount and format is also cut after each number of steps below
/// those that it needs, one step apart from each other, and a loss of power and a
/// mount follow.
pub fn check<A: PartStore, B: PartStore>(
    seed: u64,
    histories: usize,
) -> Result<HistoryTally, Box<Failure>> {
    let mut seeds = Rng::new(seed);
    let mut tally = HistoryTally::default();
    for index in 0..histories {
        let mut generator = Generator::new(seeds.next_u64());
        if let Some((history, what)) = failing::<A, B>(&mut generator, &mut tally) {
            let (history, what) = shorter::<A, B>(history, what);
            return Err(Box::new(Failure {
                seed,
                index,
                what,
                history,
            }));
        }
        tally.histories += 1;
    }
    Ok(tally)
}

/// Makes one history, each event for the box as it is then. At a fault, tells the
/// events up to there and what is wrong.
fn failing<A: PartStore, B: PartStore>(
    generator: &mut Generator,
    tally: &mut HistoryTally,
) -> Option<(History, String)> {
    let mut history = generator.start();
    let mut run = match Run::<A, B>::new(&history.start, tally) {
        Ok(run) => run?,
        Err(what) => return Some((history, what)),
    };
    for _ in 0..generator.events() {
        let event = generator.event(run.pair.memory());
        let result = run.event(&event, tally);
        history.events.push(event);
        if let Err(what) = result {
            return Some((history, what));
        }
    }
    None
}

/// Carries a history out once more; tells what is wrong, and how many events that
/// took.
fn replay<A: PartStore, B: PartStore>(history: &History) -> Option<(usize, String)> {
    let tally = &mut HistoryTally::default();
    let mut run = match Run::<A, B>::new(&history.start, tally) {
        Ok(run) => run?,
        Err(what) => return Some((0, what)),
    };
    for (index, event) in history.events.iter().enumerate() {
        if let Err(what) = run.event(event, tally) {
            return Some((index + 1, what));
        }
    }
    None
}

/// Leaves out the events that the fault does not need.
fn shorter<A: PartStore, B: PartStore>(
    mut history: History,
    mut what: String,
) -> (History, String) {
    let mut index = history.events.len();
    while index > 0 {
        index -= 1;
        let mut without = history.clone();
        without.events.remove(index);
        if let Some((events, fault)) = replay::<A, B>(&without) {
            without.events.truncate(events);
            index = index.min(events);
            (history, what) = (without, fault);
        }
    }
    (history, what)
}

/// A history under way. The model files are fed with the answers of the second
/// store.
struct Run<A, B> {
    pair: Pair,
    files: Vec<ModelFile>,
    stores: PhantomData<(A, B)>,
}

/// A budget that no call exceeds.
const FULL: usize = usize::MAX;

impl<A: PartStore, B: PartStore> Run<A, B> {
    /// Mounts a box; nothing where the numbers of its part are used up.
    fn new(start: &PartMemory, tally: &mut HistoryTally) -> Result<Option<Run<A, B>>, String> {
        let mut run = Run {
            pair: Pair::new(start),
            files: vec![ModelFile::default(); FILES],
            stores: PhantomData,
        };
        // The first mount finds what the part holds.
        let (media, sizes) = Rules::RIGHT.image(&start.part);
        for (file, model) in run.files.iter_mut().enumerate() {
            model.mount(&media[file * FILE_BYTES..][..sizes[file] as usize]);
        }
        let mount = Event::Call(Call::Mount { budget: FULL });
        match run.event(&mount, tally)? {
            0 => Ok(Some(run)),
            13 => Ok(None),
            _ => Err("the first mount is not done".to_owned()),
        }
    }

    /// Carries an event out. Tells the number of a call's answer.
    fn event(&mut self, event: &Event, tally: &mut HistoryTally) -> Result<usize, String> {
        match event {
            Event::PowerLoss { memory } => {
                self.pair.alter(|lost| lose_power(lost, *memory));
                tally.power_losses += 1;
                Ok(0)
            }
            Event::Call(call) => {
                let steps = self.cuts(call, tally)?;
                let before = highest(&self.pair.memory().part);
                let answered = self.pair.call::<A, B>(call)?;
                self.pair.join();
                tally.calls += 1;
                if answered.number() == 13 && before < u32::MAX - 500 {
                    return Err("numbers run out early".to_owned());
                }
                if let (Some(steps), 0) = (steps, answered.number()) {
                    if answered.count() != steps {
                        return Err(format!("{steps} budgets are cut, and the count differs"));
                    }
                }
                self.judge(call, &answered, tally)?;
                Ok(answered.number())
            }
        }
    }

    /// Cuts a sync, mount or format after each number of steps, loses power and
    /// mounts. Tells the steps that it needs, where it is not refused. A call knows
    /// no more than the memory it is lent, so that a copy of the box stands for the
    /// same history made once more.
    fn cuts(&self, call: &Call, tally: &mut HistoryTally) -> Result<Option<usize>, String> {
        let of = match call {
            Call::Sync { .. } => 0,
            Call::Mount { .. } => 1,
            Call::Format { .. } => 2,
            _ => return Ok(None),
        };
        let mut files = self.files.clone();
        if of == 2 {
            // of a format that is cut, each file is trimmed or not
            for file in &mut files {
                file.truncate(0, Answer::Done(0));
            }
        }
        let mut part = self.pair.memory().part.to_vec();
        let mut writes = Vec::new();
        for budget in 0.. {
            let call = with_budget(call, budget).expect("it has a budget");
            let during = |what: String| format!("{call}: {what}");
            let mut other = self.pair.clone();
            let answered = other.call::<A, B>(&call).map_err(during)?;
            tally.calls += 1;
            if !matches!(answered.number(), 0 | 9) {
                return Ok(None);
            }
            let next = other.memory().part.to_vec();
            if budget > 0 {
                let (kind, record) = step(&part, &next).map_err(during)?;
                tally.cuts[of][kind as usize] += 1;
                writes.extend(record);
            } else if part != next {
                return Err(during("a step is done that nothing pays for".to_owned()));
            }
            part = next;
            if answered.number() == 0 {
                tally.longest = tally.longest.max(budget);
                self.appended(&call, &writes).map_err(during)?;
                return match answered.count() {
                    count if count == budget => Ok(Some(budget)),
                    count => Err(during(format!("it counts {count}"))),
                };
            }
            down(&answered, budget, &other).map_err(during)?;
            let after = |what: String| format!("after a cut, {call}: {what}");
            other.alter(|lost| lose_power(lost, budget as u64));
            let answered = other
                .call::<A, B>(&Call::Mount { budget: FULL })
                .map_err(after)?;
            tally.calls += 1;
            match answered.number() {
                0 => found(&files, other.memory(), tally).map_err(after)?,
                13 => {}
                _ => return Err(after("the mount is not done".to_owned())),
            }
        }
        Ok(None)
    }

    /// The media writes among the steps are those of the call.
    fn appended(&self, call: &Call, writes: &[Record]) -> Result<(), String> {
        let right = match call {
            Call::Sync { file, .. } => {
                let wanted = sync_writes(self.pair.memory().memory.lend(), *file);
                let pairs = writes.iter().zip(&wanted);
                writes.len() == wanted.len() && pairs.into_iter().all(|(a, b)| a[4..] == b[4..])
            }
            _ => writes.iter().all(|write| write[RECORD_KIND] == KIND_TRIM),
        };
        if right {
            Ok(())
        } else {
            Err("other media writes are appended".to_owned())
        }
    }

    /// Holds an answer against the model files, and feeds them with it.
    fn judge(
        &mut self,
        call: &Call,
        answered: &Answered,
        tally: &mut HistoryTally,
    ) -> Result<(), String> {
        let (number, count) = (answered.number(), answered.count());
        if number != 0 {
            tally.refused[number] += 1;
        }
        if number == 9 {
            let (Call::Sync { budget, .. } | Call::Mount { budget } | Call::Format { budget }) =
                call
            else {
                return Err("a call without a budget is cut".to_owned());
            };
            if let Call::Format { .. } = call {
                for file in &mut self.files {
                    file.truncate(0, Answer::Done(0));
                }
            }
            return down(answered, *budget, &self.pair);
        }
        if number != 0 {
            return Ok(());
        }
        let done = Answer::Done(count);
        match call {
            Call::Read {
                file,
                position,
                buffer,
            } => {
                let rest = self.rest(*file, *position)?;
                let read = rest.len().min(buffer.len());
                let after = &answered.bytes;
                if count != read || after[..read] != rest[..read] || after[read..] != buffer[read..]
                {
                    return Err("the bytes read are not the model's".to_owned());
                }
                tally.reads += 1;
            }
            Call::Look { file, position } => {
                let rest = self.rest(*file, *position)?;
                let rest = &rest[..rest.len().min(PAGE_BYTES - position % PAGE_BYTES)];
                if count != rest.len() || !zeros_follow(&answered.bytes, rest) {
                    return Err("the bytes looked at are not the model's".to_owned());
                }
                tally.reads += 1;
            }
            Call::Write {
                file,
                position,
                bytes,
            } => {
                self.rest(*file, *position)?;
                if count > bytes.len() || (count == 0 && !bytes.is_empty()) {
                    return Err(format!("a write of {} counts {count}", bytes.len()));
                }
                self.files[*file].write(*position, bytes, done);
                self.reads_as_model(*file)?;
            }
            Call::Truncate { file, n } => {
                self.rest(*file, *n)?;
                self.files[*file].truncate(*n, done);
                self.reads_as_model(*file)?;
            }
            Call::Sync { file, .. } => {
                self.rest(*file, 0)?;
                self.files[*file].sync(done);
                if on_media(self.pair.memory(), *file)? != self.files[*file].current {
                    return Err("the image lacks the model's bytes after a sync".to_owned());
                }
                self.reads_as_model(*file)?;
                tally.syncs += 1;
            }
            Call::Mount { .. } => {
                found(&self.files, self.pair.memory(), tally)?;
                for file in 0..FILES {
                    let bytes = on_media(self.pair.memory(), file)?;
                    self.files[file].mount(bytes);
                    self.reads_as_model(file)?;
                }
            }
            Call::Format { .. } => self.files.iter_mut().for_each(|file| file.mount(&[])),
            _ => {}
        }
        Ok(())
    }

    /// The model's bytes of a file from a position on.
    fn rest(&self, file: usize, position: usize) -> Result<&[u8], String> {
        match self.files.get(file) {
            Some(model) if position <= FILE_BYTES => {
                Ok(model.current.get(position..).unwrap_or(&[]))
            }
            _ => Err(format!("a call on file {file} at {position} is done")),
        }
    }

    /// A read of the whole file gives the model's bytes, and no more.
    fn reads_as_model(&self, file: usize) -> Result<(), String> {
        let memory = self.pair.memory();
        let bytes = &self.files[file].current;
        let mut buffer = [0xee; FILE_BYTES + 1];
        let word = B::read(&memory.part, memory.memory.lend(), file, 0, &mut buffer);
        if word as usize == bytes.len() && buffer.starts_with(bytes) {
            Ok(())
        } else {
            Err(format!("file {file} does not read as its model"))
        }
    }
}

/// A call was cut: it counts its budget, and the state is down.
fn down(answered: &Answered, budget: usize, pair: &Pair) -> Result<(), String> {
    if answered.number() != 9 || answered.count() != budget {
        return Err(format!(
            "the answer {:x} to a budget of {budget}",
            answered.word
        ));
    }
    if pair.memory().memory.state.iter().any(|&byte| byte != 0) {
        return Err("the state is not down after a cut".to_owned());
    }
    Ok(())
}

/// A mount was done: the log of each file explains what it found.
fn found(files: &[ModelFile], memory: &PartMemory, tally: &mut HistoryTally) -> Result<(), String> {
    for (file, model) in files.iter().enumerate() {
        let found = on_media(memory, file)?;
        // No change, or all of them, needs no search.
        if found != model.durable && found != model.current {
            if !model.explains(found) {
                return Err(format!(
                    "nothing explains what the mount found of file {file}"
                ));
            }
            tally.partial += 1;
        }
    }
    tally.mounts += 1;
    Ok(())
}

/// The bytes of a file in the image, as many as its stored size.
fn on_media(memory: &PartMemory, file: usize) -> Result<&[u8], String> {
    let memory = &memory.memory;
    let bytes = &memory.media[file * FILE_BYTES..(file + 1) * FILE_BYTES];
    bytes
        .get(..memory.sizes[file] as usize)
        .ok_or_else(|| format!("the stored size of file {file} is {}", memory.sizes[file]))
}

/// What one step made of a part: the kind of the step, and of a media write its
/// record. Copies and erases change no file and nothing valid.
fn step(before: &[u8], after: &[u8]) -> Result<(Kind, Option<Record>), String> {
    let differ: Vec<usize> = before
        .chunks_exact(RECORD_BYTES)
        .zip(after.chunks_exact(RECORD_BYTES))
        .enumerate()
        .filter(|(_, (before, after))| before != after)
        .map(|(index, _)| index)
        .collect();
    let Some(&first) = differ.first() else {
        return Err("a step does nothing".to_owned());
    };
    let of = |part: &[u8], index: usize| -> Record {
        let at = index * RECORD_BYTES;
        part[at..at + RECORD_BYTES].try_into().expect("a record")
    };
    let block = block_of(first);
    let collects = blank(before) < 65;
    let (kind, record) = if is_blank(&of(before, first)) {
        let record = of(after, first);
        let next = u64::from(highest(before)) + 1;
        let in_newest = newest(before) == Some(block);
        let first_of_blank = first % BLOCK_RECORDS == 0 && newest(after) == Some(block);
        if differ.len() != 1 || u64::from(number(&record)) != next || !(in_newest || first_of_blank)
        {
            return Err(format!("a step is no append: records {differ:?} differ"));
        }
        match collects {
            true => (Kind::Copy, None),
            false => (Kind::Write, Some(record)),
        }
    } else {
        let erased = differ
            .iter()
            .all(|&index| block_of(index) == block && is_blank(&of(after, index)));
        if !erased || !collects || oldest(before) != Some(block) || oldest(after) == Some(block) {
            return Err(format!("a step is no erase of block {block}"));
        }
        (Kind::Erase, None)
    };
    let valid = |part: &[u8]| Rules::RIGHT.valid(part).len();
    if kind != Kind::Write
        && (Rules::RIGHT.image(before) != Rules::RIGHT.image(after)
            || valid(before) != valid(after))
    {
        return Err("collecting changes what is valid".to_owned());
    }
    Ok((kind, record))
}
