//! Two stores side by side.

use std::fmt;

use random_sessions::rng::Rng;

use crate::call::{Call, KINDS};
use crate::pair::Pair;
use crate::random_memory::GuardedMemory;
use crate::shrink::shrink;
use crate::store::Store;

/// How often each call gave each answer, and on what memory.
#[derive(Clone, Debug, Default, PartialEq, Eq)]
pub struct Tally {
    answers: [[usize; 10]; KINDS.len()],
    /// Calls on memory with a wrong length.
    pub wrong_lengths: usize,
    /// Calls on memory with right lengths and a sound state.
    pub sound: usize,
    /// Calls on memory with right lengths and a state that is not sound.
    pub unsound: usize,
}

impl Tally {
    /// The answers of a call, by their number: 0 for done.
    pub fn of(&self, name: &str) -> [usize; 10] {
        let kind = KINDS.iter().position(|&kind| kind == name);
        self.answers[kind.expect("a call has this name")]
    }

    /// All calls together.
    pub fn calls(&self) -> usize {
        self.answers.iter().flatten().sum()
    }

    /// Adds the counts of another.
    pub fn add(&mut self, other: &Tally) {
        let answers = self.answers.iter_mut().flatten();
        for (mine, theirs) in answers.zip(other.answers.iter().flatten()) {
            *mine += theirs;
        }
        self.wrong_lengths += other.wrong_lengths;
        self.sound += other.sound;
        self.unsound += other.unsound;
    }

    /// The answers that a store can give and that did not come up, as call and
    /// number.
    pub fn missing(&self) -> Vec<(&'static str, usize)> {
        let possible: [&[usize]; KINDS.len()] = [
            &[0, 2],
            &[0, 2, 9],
            &[0, 2, 3, 9],
            &[0, 2, 3, 4, 5, 6, 7],
            &[0, 2, 3, 4, 5, 6, 7, 8],
            &[0, 2, 3, 4, 5, 6, 7],
            &[0, 2, 3, 4, 5, 6, 9],
            &[0, 2, 3, 4, 5, 6, 7],
            &[0, 2, 4, 7],
            &[0, 2],
            &[0, 2, 6, 7],
            &[0, 2, 6, 7],
        ];
        let mut missing = Vec::new();
        for (kind, numbers) in possible.iter().enumerate() {
            for &number in *numbers {
                if self.answers[kind][number] == 0 {
                    missing.push((KINDS[kind], number));
                }
            }
        }
        missing
    }

    fn count(&mut self, memory: &GuardedMemory) {
        let kind = match memory {
            memory if !memory.has_right_lengths() => &mut self.wrong_lengths,
            memory if memory.is_sound() => &mut self.sound,
            _ => &mut self.unsound,
        };
        *kind += 1;
    }
}

/// A call on which two stores differ, or the second one breaks a rule.
pub struct Difference {
    /// The seed of the calls.
    pub seed: u64,
    /// How many calls were made before it.
    pub index: usize,
    /// What is wrong.
    pub what: String,
    /// The memory before the call, made simpler where the difference stayed.
    pub memory: GuardedMemory,
    /// The call, made simpler alike.
    pub call: Call,
}

impl fmt::Display for Difference {
    fn fmt(&self, f: &mut fmt::Formatter<'_>) -> fmt::Result {
        writeln!(f, "seed {}, call {}: {}", self.seed, self.index, self.what)?;
        writeln!(f, "{}", self.call)?;
        writeln!(f, "on")?;
        write!(f, "{}", self.memory)
    }
}

impl fmt::Debug for Difference {
    fn fmt(&self, f: &mut fmt::Formatter<'_>) -> fmt::Result {
        fmt::Display::fmt(self, f)
    }
}

/// Calls on one memory before a new one is made.
const CALLS: usize = 12;

/// Makes at least `calls` random calls on both stores, and tells the first on
/// which [`Pair::call`] finds something wrong.
pub fn compare<A: Store, B: Store>(seed: u64, calls: usize) -> Result<Tally, Box<Difference>> {
    let mut rng = Rng::new(seed);
    let mut tally = Tally::default();
    while tally.calls() < calls {
        let start = GuardedMemory::random(&mut rng);
        let mut pair = Pair::new(&start);
        let mut made: Vec<Call> = Vec::new();
        for _ in 0..CALLS {
            let call = Call::random(&mut rng);
            tally.count(pair.memory());
            match pair.call::<A, B>(&call) {
                Ok(answered) => tally.answers[call.kind()][answered.number()] += 1,
                Err(what) => {
                    let mut before = start;
                    for call in &mut made {
                        call.run::<A>(&mut before);
                    }
                    let index = tally.calls();
                    return Err(simplest::<A, B>(seed, index, what, before, call));
                }
            }
            pair.join();
            made.push(call);
        }
    }
    Ok(tally)
}

/// The difference that this call shows, made simpler.
fn simplest<A: Store, B: Store>(
    seed: u64,
    index: usize,
    what: String,
    memory: GuardedMemory,
    call: Call,
) -> Box<Difference> {
    let wrong = |memory: &GuardedMemory, call: &Call| Pair::new(memory).call::<A, B>(call).err();
    let (memory, call) = shrink(memory, call, |memory, call| wrong(memory, call).is_some());
    Box::new(Difference {
        seed,
        index,
        what: wrong(&memory, &call).unwrap_or(what),
        memory,
        call,
    })
}
