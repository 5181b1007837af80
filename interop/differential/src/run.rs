//! A history on two stores, judged by model files.

use std::marker::PhantomData;

use layout::{FILES, FILE_BYTES, FRAMES_BYTES, PAGES, PAGE_BYTES, SLOTS, STATE_MOUNTED};
use random_calls::{fill, zeros_follow, Answered, Call, GuardedMemory, Pair, Store};
use random_sessions::rng::Rng;
use reference::model::{Entry, ModelFile};
use reference::store::Answer;

use crate::history::{History, Step, FULL};
use crate::tally::Tally;

/// A history under way. The model files are fed with the answers of the second
/// store.
pub struct Run<A, B> {
    pair: Pair,
    /// The same box, for calls that are cut.
    other: Pair,
    files: Vec<ModelFile>,
    /// The pages that the cache holds, as the answers tell.
    cached: [[bool; PAGES]; FILES],
    /// Frames after a loss of power.
    frames: Vec<u8>,
    stores: PhantomData<(A, B)>,
}

impl<A: Store, B: Store> Run<A, B> {
    /// Mounts the box of a history.
    pub fn new(history: &History, tally: &mut Tally) -> Result<Run<A, B>, String> {
        let pair = Pair::new(&history.start);
        let mut frames = vec![0; FRAMES_BYTES];
        fill(&mut Rng::new(0), &mut frames);
        let mut run = Run {
            other: pair.clone(),
            pair,
            files: vec![ModelFile::default(); FILES],
            cached: Default::default(),
            frames,
            stores: PhantomData,
        };
        if history.format {
            let answered = run.pair.call::<A, B>(&Call::Format { budget: FULL })?;
            tally.calls += 1;
            if answered.number() != 0 {
                return Err(format!("the format answers {:x}", answered.word));
            }
        }
        // The first mount finds what is on the media.
        run.found()?;
        run.step(&Step::Call(Call::Mount { budget: FULL }), tally)?;
        if run.pair.memory().state[STATE_MOUNTED] != 1 {
            return Err("the first mount is not done".to_owned());
        }
        Ok(run)
    }

    /// The model files become what is on the media.
    fn found(&mut self) -> Result<(), String> {
        for (file, model) in self.files.iter_mut().enumerate() {
            model.mount(on_media(self.pair.memory(), file)?);
        }
        Ok(())
    }

    /// The memory of the second store.
    pub fn memory(&self) -> &GuardedMemory {
        self.pair.memory()
    }

    /// Carries a step out. A sync or a mount is first carried out with each
    /// smaller budget, on a copy of the box.
    pub fn step(&mut self, step: &Step, tally: &mut Tally) -> Result<(), String> {
        match step {
            Step::PowerLoss { frames } => {
                self.pair.call::<A, B>(&Call::Down)?;
                fill(&mut Rng::new(*frames), &mut self.frames);
                self.pair.set_frames(&self.frames);
                self.cached = Default::default();
                tally.power_losses += 1;
                tally.calls += 1;
                Ok(())
            }
            Step::Call(call) => {
                if let Call::Sync { .. } | Call::Mount { .. } = call {
                    self.cuts(call, tally)?;
                }
                let answered = self.pair.call::<A, B>(call)?;
                tally.calls += 1;
                self.judge(call, &answered, tally)
            }
        }
    }

    /// Cuts a sync or a mount after each number of media writes, and mounts. A
    /// call knows no more than the memory it is lent, so that a copy of the box
    /// stands for the same history made once more.
    fn cuts(&mut self, call: &Call, tally: &mut Tally) -> Result<(), String> {
        for budget in 0..=FULL {
            let call = match *call {
                Call::Sync { file, .. } => Call::Sync { file, budget },
                _ => Call::Mount { budget },
            };
            self.other.set(&self.pair);
            let during = |what: String| format!("{call}: {what}");
            let answered = self.other.call::<A, B>(&call).map_err(during)?;
            tally.calls += 1;
            if answered.number() != 9 {
                return Ok(());
            }
            self.down(&answered, budget, &self.other).map_err(during)?;
            tally.cuts += 1;
            let cuts: &mut [usize] = match call {
                Call::Sync { .. } => &mut tally.cut_syncs,
                _ => &mut tally.cut_mounts,
            };
            match cuts.get_mut(budget) {
                Some(count) => *count += 1,
                None => return Err(format!("{call} is cut")),
            }
            let after = |what: String| format!("after a cut, {call}: {what}");
            self.other.set_frames(&self.frames);
            // Where the mount needs media writes, it is cut once itself.
            for budget in [0, FULL] {
                let answered = self
                    .other
                    .call::<A, B>(&Call::Mount { budget })
                    .map_err(after)?;
                tally.calls += 1;
                if answered.number() == 0 {
                    self.mounted(&self.other, tally).map_err(after)?;
                    break;
                }
                self.down(&answered, budget, &self.other).map_err(after)?;
                if budget == FULL {
                    return Err(after("the mount is not done".to_owned()));
                }
            }
        }
        Err(format!("{call} needs more than {FULL} media writes"))
    }

    /// A call was cut: it counts its budget, and the state is down.
    fn down(&self, answered: &Answered, budget: usize, pair: &Pair) -> Result<(), String> {
        if answered.number() != 9 || answered.count() != budget {
            return Err(format!(
                "the answer {:x} to a budget of {budget}",
                answered.word
            ));
        }
        if pair.memory().state.iter().any(|&byte| byte != 0) {
            return Err("the state is not down after a cut".to_owned());
        }
        Ok(())
    }

    /// A mount was done: the log of each file explains what it found, which is
    /// also what reads give.
    fn mounted(&self, pair: &Pair, tally: &mut Tally) -> Result<(), String> {
        let memory = pair.memory();
        for (file, model) in self.files.iter().enumerate() {
            let found = on_media(memory, file)?;
            // No change, or all of them, needs no search.
            if found != model.durable && found != model.current {
                if !model.explains(found) {
                    return Err(format!(
                        "nothing explains what the mount found of file {file}"
                    ));
                }
                tally.parts += 1;
            }
            reads_as::<B>(memory, file, found)?;
        }
        tally.mounts += 1;
        Ok(())
    }

    /// Holds an answer against the model files, and feeds them with it.
    fn judge(&mut self, call: &Call, answered: &Answered, tally: &mut Tally) -> Result<(), String> {
        let (number, count) = (answered.number(), answered.count());
        if number != 0 {
            tally.refused[number] += 1;
        }
        let wrong = || {
            Err(format!(
                "the model files have another answer than {:x}",
                answered.word
            ))
        };
        match (call, number) {
            (
                Call::Read {
                    file,
                    position,
                    buffer,
                },
                0,
            ) => {
                let rest = self.rest(*file, *position)?;
                let read = rest.len().min(buffer.len());
                let after = &answered.bytes;
                if count != read {
                    return wrong();
                }
                if after[..read] != rest[..read] || after[read..] != buffer[read..] {
                    return Err("the bytes read are not the model's".to_owned());
                }
                tally.reads += 1;
            }
            (Call::Look { file, position }, 0) => {
                let rest = self.rest(*file, *position)?;
                let rest = &rest[..rest.len().min(PAGE_BYTES - position % PAGE_BYTES)];
                if count != rest.len() {
                    return wrong();
                }
                if !zeros_follow(&answered.bytes, rest) {
                    return Err("the bytes looked at are not the model's".to_owned());
                }
                tally.reads += 1;
            }
            (
                Call::Write {
                    file,
                    position,
                    bytes,
                },
                0 | 8,
            ) => {
                self.rest(*file, *position)?;
                let room = self.room(*file, *position, bytes.len());
                if count != room || (number == 8) != (room == 0 && !bytes.is_empty()) {
                    return wrong();
                }
                self.cache(*file, *position, count);
                self.files[*file].write(*position, bytes, Answer::Done(count));
                reads_as::<B>(self.memory(), *file, &self.files[*file].current)?;
                tally.short_writes += usize::from(0 < count && count < bytes.len());
            }
            (Call::Truncate { file, n }, 0) => {
                self.rest(*file, *n)?;
                if count != 0 {
                    return wrong();
                }
                self.cached[*file][n.div_ceil(PAGE_BYTES)..].fill(false);
                self.files[*file].truncate(*n, Answer::Done(0));
                reads_as::<B>(self.memory(), *file, &self.files[*file].current)?;
            }
            (Call::Sync { file, budget }, 0 | 9) => {
                self.rest(*file, 0)?;
                let needed = self.media_writes(*file);
                if count != needed.min(*budget) || (number == 0) != (needed <= *budget) {
                    return wrong();
                }
                if number == 9 {
                    self.down(answered, *budget, &self.pair)?;
                    self.cached = Default::default();
                    return Ok(());
                }
                self.cached[*file].fill(false);
                self.files[*file].sync(Answer::Done(count));
                if on_media(self.pair.memory(), *file)? != self.files[*file].current {
                    return Err("the media do not hold the model's bytes after a sync".to_owned());
                }
                reads_as::<B>(self.memory(), *file, &self.files[*file].current)?;
                tally.syncs += 1;
            }
            (Call::Mount { .. }, 0) => {
                self.cached = Default::default();
                self.mounted(&self.pair, tally)?;
                self.found()?;
            }
            (Call::Mount { budget }, 9) => {
                self.down(answered, *budget, &self.pair)?;
                self.cached = Default::default();
            }
            // refused, and nothing altered
            _ => {}
        }
        Ok(())
    }

    /// The model's bytes of a file from a position on.
    fn rest(&self, file: usize, position: usize) -> Result<&[u8], String> {
        match self.files.get(file) {
            Some(model) if position <= FILE_BYTES => {
                Ok(model.current.get(position..).unwrap_or(&[]))
            }
            _ => Err(format!("a call on file {file} at {position} is done")),
        }
    }

    /// How many bytes a write can put down: up to the first page that is not
    /// cached while 24 are.
    fn room(&self, file: usize, position: usize, length: usize) -> usize {
        let end = FILE_BYTES.min(position + length);
        let mut used = self
            .cached
            .iter()
            .flatten()
            .filter(|&&cached| cached)
            .count();
        let mut at = position;
        while at < end {
            let page = at / PAGE_BYTES;
            if !self.cached[file][page] {
                if used == SLOTS {
                    break;
                }
                used += 1;
            }
            at = end.min((page + 1) * PAGE_BYTES);
        }
        at - position
    }

    /// The pages of a write are cached.
    fn cache(&mut self, file: usize, position: usize, count: usize) {
        if count > 0 {
            self.cached[file][position / PAGE_BYTES..=(position + count - 1) / PAGE_BYTES]
                .fill(true);
        }
    }

    /// The media writes that a sync needs.
    fn media_writes(&self, file: usize) -> usize {
        let ModelFile {
            current,
            durable,
            log,
        } = &self.files[file];
        let truncates = log.iter().filter_map(|entry| match entry {
            Entry::Truncate { size } => Some(*size),
            Entry::Write { .. } => None,
        });
        let floor = truncates.fold(durable.len(), usize::min);
        let pages = self.cached[file].iter().filter(|&&cached| cached).count();
        usize::from(floor < durable.len()) + pages + usize::from(floor != current.len())
    }
}

/// A read of the whole file gives these bytes, and no more.
fn reads_as<B: Store>(memory: &GuardedMemory, file: usize, bytes: &[u8]) -> Result<(), String> {
    let mut buffer = [0xee; FILE_BYTES + 1];
    let word = B::read(memory.lend(), file, 0, &mut buffer);
    if word as usize == bytes.len() && buffer.starts_with(bytes) {
        Ok(())
    } else {
        Err(format!("file {file} does not read as its model"))
    }
}

/// The bytes of a file on the media, as many as its stored size.
fn on_media(memory: &GuardedMemory, file: usize) -> Result<&[u8], String> {
    let bytes = &memory.media[file * FILE_BYTES..(file + 1) * FILE_BYTES];
    bytes
        .get(..memory.sizes[file] as usize)
        .ok_or_else(|| format!("the stored size of file {file} is {}", memory.sizes[file]))
}
