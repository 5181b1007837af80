//! One call on two stores.

use layout::PAGE_BYTES;

use crate::call::{Call, Ran};
use crate::guarded::Guarded;
use crate::memory::MemoryRef;
use crate::random_memory::GuardedMemory;
use crate::store::Store;

/// The memory of two stores that are given the same calls.
#[derive(Clone, Debug)]
pub struct Pair {
    one: GuardedMemory,
    two: GuardedMemory,
    /// Whether the frames of free slots may differ.
    apart: bool,
    /// The frames of `two` before a call.
    frames: Guarded<u8>,
}

/// What a call answered.
#[derive(Clone, Debug)]
pub struct Answered {
    /// The word: 65,536 * number + count.
    pub word: u32,
    /// Of a read, the buffer after it; of a look, the bytes that it names.
    pub bytes: Vec<u8>,
}

/// Said of a call that alters a guard.
pub const BESIDE: &str = "the call wrote before or past a slice that it was lent";

impl Answered {
    /// The number of the answer, 0 for done.
    pub fn number(&self) -> usize {
        (self.word >> 16) as usize
    }

    /// The count of the answer.
    pub fn count(&self) -> usize {
        (self.word & 65_535) as usize
    }
}

impl Pair {
    /// Both stores on the same memory.
    pub fn new(start: &GuardedMemory) -> Pair {
        Pair {
            one: start.clone(),
            two: start.clone(),
            apart: false,
            frames: start.frames.clone(),
        }
    }

    /// Becomes the same as another pair.
    pub fn set(&mut self, other: &Pair) {
        self.one.clone_from(&other.one);
        self.two.clone_from(&other.two);
        self.apart = other.apart;
    }

    /// The memory of the second store.
    pub fn memory(&self) -> &GuardedMemory {
        &self.two
    }

    /// Both get these bytes as frames.
    pub fn set_frames(&mut self, frames: &[u8]) {
        self.one.frames.copy_from_slice(frames);
        self.two.frames.copy_from_slice(frames);
        self.apart = false;
    }

    /// The second store gets the frames of the first, where free slots may
    /// differ.
    pub fn join(&mut self) {
        if self.apart {
            self.two.frames.clone_from(&self.one.frames);
            self.apart = false;
        }
    }

    /// Makes a call on both stores. Says what is wrong where the answers, the
    /// buffers of the call or the memory differ, where the second store altered
    /// what it may not write or, refusing, anything at all, or where one wrote
    /// outside of what it was lent.
    ///
    /// Document 01 leaves open which free slot a page takes, and the bytes of
    /// free slots after a write or a truncate. All stores here take the first
    /// free slot, so cache states are compared byte by byte; the frames of free
    /// slots are not compared where they may differ.
    pub fn call<A: Store, B: Store>(&mut self, call: &Call) -> Result<Answered, String> {
        self.frames.clone_from(&self.two.frames);
        let mut call_two = call.clone();
        let two = call_two.run::<B>(&mut self.two);
        if !two.intact {
            return Err(BESIDE.to_owned());
        }
        let Ran { word, look, .. } = two;
        let number = word >> 16;
        let refused = (2..=8).contains(&number);
        let may = call.may_write();
        let kept = |may: bool| refused || !may;
        // Media, sizes and state of the first store are as they came.
        let (came, left) = (&self.one, &self.two);
        let altered = [
            ("media", kept(may.media) && left.media != came.media),
            ("stored sizes", kept(may.sizes) && left.sizes != came.sizes),
            ("frames", kept(may.frames) && left.frames != self.frames),
            ("cache state", kept(may.state) && left.state != came.state),
            ("buffers of the call", refused && call_two != *call),
        ];
        if let Some((what, _)) = altered.iter().find(|(_, altered)| *altered) {
            return Err(format!("the {what} did not stay as they came"));
        }

        let mut call_one = call.clone();
        let one = call_one.run::<A>(&mut self.one);
        if !one.intact {
            return Err(format!("the first store: {BESIDE}"));
        }
        if !same_answer(one, two) {
            return Err(format!(
                "the answers differ: {:x} and {word:x}, looks {:x} and {look:x}",
                one.word, one.look
            ));
        }
        if number > 9 || number == 1 {
            return Err(format!("the answer {word:x} has no meaning"));
        }
        if call_one != call_two {
            return Err("the buffers of the call differ".to_owned());
        }
        let changes_frames = matches!(call, Call::Write { .. } | Call::Truncate { .. });
        self.apart |= changes_frames && number == 0;
        if let Some(what) = self.one.difference(&self.two, self.apart) {
            return Err(format!("the {what} differ"));
        }
        let bytes = match call_two {
            Call::Read { buffer, .. } => buffer,
            Call::Look { file, position } => looked(self.two.lend(), word, look, |buffer| {
                A::read(self.one.lend(), file, position, buffer);
            })?
            .to_vec(),
            _ => Vec::new(),
        };
        Ok(Answered { word, bytes })
    }
}

/// The bytes of a memory that a look with these answers names. With zeros behind
/// them, they are what `read` puts into a buffer of their count.
pub fn looked<'a>(
    memory: MemoryRef<'a>,
    word: u32,
    look: u64,
    read: impl FnOnce(&mut [u8]),
) -> Result<&'a [u8], String> {
    let source = match look >> 16 & 65_535 {
        0 => memory.media,
        1 => memory.frames,
        other => return Err(format!("the look {look:x} has the source {other}")),
    };
    let start = (look >> 32) as usize;
    let Some(bytes) = source.get(start..start + (look & 65_535) as usize) else {
        return Err(format!("the look {look:x} is outside of its source"));
    };
    if word < 65_536 {
        let mut buffer = [0; PAGE_BYTES];
        let Some(buffer) = buffer.get_mut(..word as usize) else {
            return Err(format!("the look counts {word} bytes"));
        };
        read(buffer);
        if !zeros_follow(bytes, buffer) {
            return Err(format!(
                "the look {look:x} does not give the bytes of a read"
            ));
        }
    }
    Ok(bytes)
}

/// Whether all bytes are these, with zeros behind them.
pub fn zeros_follow(bytes: &[u8], all: &[u8]) -> bool {
    let rest = all.strip_prefix(bytes);
    rest.is_some_and(|rest| rest.iter().all(|&byte| byte == 0))
}

/// Whether two answers are the same. A look that is done and finds no byte may
/// name any place; a refused one has the word 0.
pub fn same_answer(one: Ran, two: Ran) -> bool {
    let empty = |ran: Ran| ran.word >> 16 == 0 && ran.look & 65_535 == 0;
    one == two || (one.word == two.word && empty(one) && empty(two))
}

#[cfg(test)]
mod tests {
    use super::*;
    use crate::Reference;

    /// As a call that writes one element before or past a slice leaves it.
    #[test]
    fn a_spoilt_guard_is_told() {
        let spoil: [fn(&mut GuardedMemory, bool); 4] = [
            |memory, past| memory.media.spoil(past, 0),
            |memory, past| memory.sizes.spoil(past, 0),
            |memory, past| memory.frames.spoil(past, 0),
            |memory, past| memory.state.spoil(past, 0),
        ];
        let call = |pair: &mut Pair| pair.call::<Reference, Reference>(&Call::Down);
        for spoil in spoil {
            for past in [false, true] {
                let mut pair = Pair::new(&GuardedMemory::new());
                call(&mut pair).unwrap();
                spoil(&mut pair.two, past);
                assert_eq!(call(&mut pair).unwrap_err(), BESIDE);

                let mut pair = Pair::new(&GuardedMemory::new());
                spoil(&mut pair.one, past);
                let what = call(&mut pair).unwrap_err();
                assert_eq!(what, format!("the first store: {BESIDE}"));
            }
        }
    }
}
