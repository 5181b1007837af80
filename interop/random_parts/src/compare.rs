//! Random calls on two stores.

use std::fmt;

use random_calls::{any_number, Call};
use random_sessions::rng::Rng;
use reference::part::Damage;

use crate::memory::{Condition, PartMemory};
use crate::pair::Pair;
use crate::part_store::PartStore;
use crate::stepwise::oldest;

/// The calls on a part.
const KINDS: [&str; 7] = [
    "format", "mount", "read", "write", "truncate", "sync", "look",
];

/// The answers that each can give.
const POSSIBLE: [&[usize]; KINDS.len()] = [
    &[0, 2, 9, 12, 13],
    &[0, 2, 9, 12, 13],
    &[0, 2, 3, 4, 5, 6, 7, 12],
    &[0, 2, 3, 4, 5, 6, 7, 8, 12],
    &[0, 2, 3, 4, 5, 6, 7, 12],
    &[0, 2, 3, 4, 5, 6, 9, 12, 13],
    &[0, 2, 3, 4, 5, 6, 7, 12],
];

/// What a part and its image can be.
const CONDITIONS: [Condition; 16] = [
    Condition::WrongLength,
    Condition::Damaged(Damage::Number),
    Condition::Damaged(Damage::Kind),
    Condition::Damaged(Damage::File),
    Condition::Damaged(Damage::Page),
    Condition::Damaged(Damage::Size),
    Condition::Damaged(Damage::Order),
    Condition::Damaged(Damage::Gap),
    Condition::Damaged(Damage::Overlap),
    Condition::Damaged(Damage::PartlyBlank),
    Condition::Damaged(Damage::Spare),
    Condition::OtherBytes,
    Condition::OtherSizes,
    Condition::Blank,
    Condition::Roomy,
    Condition::Full,
];

/// The index of a call's name.
fn kind(call: &Call) -> Option<usize> {
    match call {
        Call::Format { .. } => Some(0),
        Call::Mount { .. } => Some(1),
        Call::Read { .. } => Some(2),
        Call::Write { .. } => Some(3),
        Call::Truncate { .. } => Some(4),
        Call::Sync { .. } => Some(5),
        Call::Look { .. } => Some(6),
        _ => None,
    }
}

/// How often each call gave each answer, and on what memory.
#[derive(Clone, Debug, Default, PartialEq, Eq)]
pub struct Tally {
    answers: [[usize; 14]; KINDS.len()],
    conditions: [usize; CONDITIONS.len()],
    /// Calls that were done or cut and collected a block.
    pub collections: usize,
}

impl Tally {
    /// All calls together.
    pub fn calls(&self) -> usize {
        self.answers.iter().flatten().sum()
    }

    /// Calls on a part with damage.
    pub fn damaged(&self) -> usize {
        self.conditions[1..11].iter().sum()
    }

    /// Calls on a part without damage, beside its image.
    pub fn sound(&self) -> usize {
        self.conditions[13..].iter().sum()
    }

    /// Adds the counts of another.
    pub fn add(&mut self, other: &Tally) {
        let answers = self.answers.iter_mut().flatten();
        for (mine, theirs) in answers.zip(other.answers.iter().flatten()) {
            *mine += theirs;
        }
        for (mine, theirs) in self.conditions.iter_mut().zip(&other.conditions) {
            *mine += theirs;
        }
        self.collections += other.collections;
    }

    /// What can come up and did not.
    pub fn missing(&self) -> Vec<String> {
        let mut missing = Vec::new();
        for (kind, numbers) in POSSIBLE.iter().enumerate() {
            for &number in *numbers {
                if self.answers[kind][number] == 0 {
                    missing.push(format!("{} answering {number}", KINDS[kind]));
                }
            }
        }
        for (condition, count) in CONDITIONS.iter().zip(self.conditions) {
            if count == 0 {
                missing.push(format!("{condition:?}"));
            }
        }
        if self.collections == 0 {
            missing.push("collections".to_owned());
        }
        missing
    }

    fn count(&mut self, memory: &PartMemory) {
        let condition = memory.condition();
        let index = CONDITIONS.iter().position(|&other| other == condition);
        self.conditions[index.expect("all are listed")] += 1;
    }
}

/// A call on which two stores differ, or the second one breaks a rule.
pub struct Difference {
    /// The seed of the calls.
    pub seed: u64,
    /// How many calls were made before it.
    pub index: usize,
    /// What is wrong.
    pub what: String,
    /// The memory before the call, made simpler where the difference stayed.
    pub memory: PartMemory,
    /// The call, made simpler alike.
    pub call: Call,
}

impl fmt::Display for Difference {
    fn fmt(&self, f: &mut fmt::Formatter<'_>) -> fmt::Result {
        writeln!(f, "seed {}, call {}: {}", self.seed, self.index, self.what)?;
        writeln!(f, "{}", self.call)?;
        writeln!(f, "on")?;
        write!(f, "{}", self.memory)
    }
}

impl fmt::Debug for Difference {
    fn fmt(&self, f: &mut fmt::Formatter<'_>) -> fmt::Result {
        fmt::Display::fmt(self, f)
    }
}

/// Calls on one memory before a new one is made.
const CALLS: usize = 6;

/// Makes at least `calls` random calls on both stores, and tells the first on
/// which [`Pair::call`] finds something wrong.
pub fn compare<A: PartStore, B: PartStore>(
    seed: u64,
    calls: usize,
) -> Result<Tally, Box<Difference>> {
    let mut rng = Rng::new(seed);
    let mut tally = Tally::default();
    while tally.calls() < calls {
        let mut pair = Pair::new(&PartMemory::random(&mut rng));
        for _ in 0..CALLS {
            let call = random_call::<A>(&mut rng, pair.memory());
            let before = pair.memory().clone();
            tally.count(&before);
            match pair.call::<A, B>(&call) {
                Ok(answered) => {
                    let kind = kind(&call).expect("a call on a part");
                    tally.answers[kind][answered.number()] += 1;
                    let after = &pair.memory().part;
                    let first = oldest(&before.part);
                    tally.collections += usize::from(first.is_some() && first != oldest(after));
                }
                Err(what) => {
                    return Err(simplest::<A, B>(seed, tally.calls(), what, before, call));
                }
            }
            pair.join();
        }
    }
    Ok(tally)
}

/// A random call on a part. Its budget is often near the steps that it needs.
pub fn random_call<A: PartStore>(rng: &mut Rng, memory: &PartMemory) -> Call {
    loop {
        let mut call = Call::random(rng);
        if kind(&call).is_none() {
            continue;
        }
        if rng.chance(25) {
            call = match rng.below(4) {
                0 => Call::Mount { budget: 0 },
                1 => Call::Format { budget: 0 },
                _ => Call::Sync {
                    file: rng.below(8),
                    budget: 0,
                },
            };
        }
        if let Some(all) = with_budget(&call, usize::MAX) {
            let ran = memory.clone().run::<A>(&mut all.clone());
            let budget = match rng.below(6) {
                0 => rng.below(3),
                1 if rng.chance(10) => any_number(rng),
                1..=3 => rng.below((ran.word & 65_535) as usize + 2),
                _ => rng.pick(&[
                    (ran.word & 65_535) as usize,
                    ((ran.word & 65_535) as usize).saturating_sub(1),
                    65_535,
                    65_536,
                    1 << 32,
                    usize::MAX,
                ]),
            };
            call = with_budget(&call, budget).unwrap_or(call);
        }
        return call;
    }
}

/// A sync, mount or format with another budget.
pub fn with_budget(call: &Call, budget: usize) -> Option<Call> {
    match *call {
        Call::Sync { file, .. } => Some(Call::Sync { file, budget }),
        Call::Mount { .. } => Some(Call::Mount { budget }),
        Call::Format { .. } => Some(Call::Format { budget }),
        _ => None,
    }
}

/// Most tries to make a difference simpler.
const TRIES: usize = 1_500;

/// The difference that this call shows, made simpler.
fn simplest<A: PartStore, B: PartStore>(
    seed: u64,
    index: usize,
    what: String,
    mut memory: PartMemory,
    mut call: Call,
) -> Box<Difference> {
    let wrong = |memory: &PartMemory, call: &Call| Pair::new(memory).call::<A, B>(call).err();
    let mut tries = 0;
    loop {
        let mut found = false;
        for way in 0..PartMemory::SIMPLER {
            // the same way again, as long as it works
            while let Some(simpler) = memory.simpler(way) {
                tries += 1;
                if tries > TRIES || wrong(&simpler, &call).is_none() {
                    break;
                }
                memory = simpler;
                found = true;
            }
        }
        while let Some(simpler) = call
            .simpler()
            .into_iter()
            .find(|simpler| wrong(&memory, simpler).is_some())
        {
            tries += 1;
            call = simpler;
            found = true;
        }
        if !found || tries > TRIES {
            break;
        }
    }
    Box::new(Difference {
        seed,
        index,
        what: wrong(&memory, &call).unwrap_or(what),
        memory,
        call,
    })
}
