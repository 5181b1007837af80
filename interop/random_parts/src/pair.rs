//! One call on two stores.

use layout::MOST_VALID;
use random_calls::{looked, same_answer, Answered, Call, Ran, BESIDE};

use crate::memory::PartMemory;
use crate::part_store::PartStore;
use crate::stepwise::Rules;

/// The memory of two stores that are given the same calls.
#[derive(Clone, Debug)]
pub struct Pair {
    one: PartMemory,
    two: PartMemory,
    /// Whether the frames of free slots may differ.
    apart: bool,
}

impl Pair {
    /// Both stores on the same memory.
    pub fn new(start: &PartMemory) -> Pair {
        Pair {
            one: start.clone(),
            two: start.clone(),
            apart: false,
        }
    }

    /// The memory of the second store.
    pub fn memory(&self) -> &PartMemory {
        &self.two
    }

    /// Alters the memory of both alike.
    pub fn alter(&mut self, change: impl Fn(&mut PartMemory)) {
        change(&mut self.one);
        change(&mut self.two);
    }

    /// The second store gets the frames of the first, where free slots may
    /// differ.
    pub fn join(&mut self) {
        if self.apart {
            self.two.memory.frames.clone_from(&self.one.memory.frames);
            self.apart = false;
        }
    }

    /// Makes a call on both stores. Says what is wrong where the answers, the
    /// buffers of the call or the memory differ, where the second store altered
    /// what it may not write or, refusing, anything at all, where one wrote
    /// outside of what it was lent, or where a part that a call left is damaged,
    /// has too much valid or differs from its image.
    ///
    /// The frames of free slots are not compared where they may differ.
    pub fn call<A: PartStore, B: PartStore>(&mut self, call: &Call) -> Result<Answered, String> {
        let came = self.two.clone();
        let mut call_two = call.clone();
        let two = self.two.run::<B>(&mut call_two);
        if !two.intact {
            return Err(BESIDE.to_owned());
        }
        let Ran { word, look, .. } = two;
        let number = word >> 16;
        let done_or_cut = number == 0 || number == 9;
        let may = call.may_write();
        let kept = |may: bool| !done_or_cut || !may;
        let left = &self.two;
        let (before, after) = (&came.memory, &left.memory);
        let altered = [
            ("part", kept(may.media) && left.part != came.part),
            ("image", kept(may.media) && after.media != before.media),
            (
                "stored sizes",
                kept(may.sizes) && after.sizes != before.sizes,
            ),
            ("frames", kept(may.frames) && after.frames != before.frames),
            (
                "cache state",
                kept(may.state) && after.state != before.state,
            ),
            ("buffers of the call", !done_or_cut && call_two != *call),
        ];
        if let Some((what, _)) = altered.iter().find(|(_, altered)| *altered) {
            return Err(format!("the {what} did not stay as they came"));
        }

        let mut call_one = call.clone();
        let one = self.one.run::<A>(&mut call_one);
        if !one.intact {
            return Err(format!("the first store: {BESIDE}"));
        }
        if !same_answer(one, two) {
            return Err(format!(
                "the answers differ: {:x} and {word:x}, looks {:x} and {look:x}",
                one.word, one.look
            ));
        }
        if !matches!(number, 0 | 2..=9 | 12 | 13) {
            return Err(format!("the answer {word:x} has no meaning"));
        }
        if call_one != call_two {
            return Err("the buffers of the call differ".to_owned());
        }
        let changes_frames = matches!(call, Call::Write { .. } | Call::Truncate { .. });
        self.apart |= changes_frames && number == 0;
        if self.one.part != self.two.part {
            return Err("the parts differ".to_owned());
        }
        if let Some(what) = self.one.memory.difference(&self.two.memory, self.apart) {
            return Err(format!("the {what} differ"));
        }
        if done_or_cut && may.media && self.two.part != came.part {
            self.left_right()?;
        }
        let bytes = match call_two {
            Call::Read { buffer, .. } => buffer,
            Call::Look { file, position } => {
                looked(self.two.memory.lend(), word, look, |buffer| {
                    B::read(
                        &self.two.part,
                        self.two.memory.lend(),
                        file,
                        position,
                        buffer,
                    );
                })?
                .to_vec()
            }
            _ => Vec::new(),
        };
        Ok(Answered { word, bytes })
    }

    /// What a call leaves is intact and equals its image.
    fn left_right(&self) -> Result<(), String> {
        let PartMemory { part, memory } = &self.two;
        if !Rules::RIGHT.is_intact(part) {
            return Err("the call left a damaged part".to_owned());
        }
        let valid = Rules::RIGHT.valid(part).len();
        if valid > MOST_VALID {
            return Err(format!("the call left {valid} valid"));
        }
        let (media, sizes) = Rules::RIGHT.image(part);
        if media[..] != memory.media[..] || sizes[..] != memory.sizes[..] {
            return Err("the call left an image that differs from the part".to_owned());
        }
        Ok(())
    }
}
