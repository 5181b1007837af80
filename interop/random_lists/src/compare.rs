//! Two implementations side by side.

use std::fmt;

use layout::LIST_BYTES;
use random_sessions::rng::Rng;

use crate::call::{Call, Text, GREATEST, KINDS, NUMBERS};
use crate::laws::{join_laws, laws};
use crate::random_list::random_list;
use crate::random_pair::random_pair;
use crate::shrink::shrink;
use crate::trip_lists::TripLists;

/// How often each call gave each answer, and what lists it was given. Lists and
/// trips are those of the calls on one list, pairs those of the joins.
#[derive(Clone, Debug, Default, PartialEq, Eq)]
pub struct Tally {
    /// Lists.
    pub lists: usize,
    /// Lists that are not refused.
    pub accepted: usize,
    /// Trips of these.
    pub trips: usize,
    /// Accepted lists of the greatest length.
    pub full: usize,
    answers: [[usize; GREATEST + 1]; KINDS.len()],
    /// Places past the last trip.
    pub past: usize,
    /// Cursors at the end of a list or past it.
    pub ends: usize,
    /// Cursors that found a trip amid a line.
    pub amid: usize,
    /// Lists written with fewer bytes than they have.
    pub shorter: usize,
    /// Pairs of lists.
    pub pairs: usize,
    /// Pairs that are joined, and have a trip in both lists.
    pub common: usize,
    /// Joined lists of the greatest length.
    pub full_joins: usize,
}

impl Tally {
    /// The answers of a call, by their number: 0 for done.
    pub fn of(&self, name: &str) -> [usize; GREATEST + 1] {
        let kind = KINDS.iter().position(|&kind| kind == name);
        self.answers[kind.expect("a call has this name")]
    }

    /// All calls that were compared.
    pub fn calls(&self) -> usize {
        self.answers.iter().flatten().sum()
    }

    /// Adds the counts of another.
    pub fn add(&mut self, other: &Tally) {
        self.lists += other.lists;
        self.accepted += other.accepted;
        self.trips += other.trips;
        self.full += other.full;
        let answers = self.answers.iter_mut().flatten();
        for (mine, theirs) in answers.zip(other.answers.iter().flatten()) {
            *mine += theirs;
        }
        self.past += other.past;
        self.ends += other.ends;
        self.amid += other.amid;
        self.shorter += other.shorter;
        self.pairs += other.pairs;
        self.common += other.common;
        self.full_joins += other.full_joins;
    }

    /// What lists and calls can come to, and did not.
    pub fn missing(&self) -> Vec<String> {
        let mut missing = Vec::new();
        let mut need = |count: usize, what: String| {
            if count == 0 {
                missing.push(what);
            }
        };
        for (kind, (answers, numbers)) in KINDS.iter().zip(self.answers.iter().zip(NUMBERS)) {
            for &number in numbers {
                need(answers[number], format!("{kind} answering {number}"));
            }
        }
        for (count, what) in [
            (self.trips, "trips"),
            (self.full, "accepted lists of the greatest length"),
            (self.past, "places past the last trip"),
            (self.ends, "cursors at the end"),
            (self.amid, "trips amid a line"),
            (self.shorter, "lists written shorter"),
            (self.common, "joined lists with common trips"),
            (self.full_joins, "joined lists of the greatest length"),
        ] {
            need(count, what.to_owned());
        }
        missing
    }

    fn count_call(&mut self, list: &[u8], call: &Call, word: u32) {
        self.answers[call.kind()][(word >> 16) as usize] += 1;
        let count = word as usize;
        if count > 65_535 {
            return;
        }
        match *call {
            Call::ReadTrip { place, .. } => self.past += usize::from(place >= count),
            Call::NextTrip { .. } if count == 0 => self.ends += 1,
            Call::NextTrip { at, .. } => {
                self.amid += usize::from(at > 0 && list[at - 1] != b'\n');
            }
            Call::WriteTrips { .. } => self.shorter += usize::from(count < list.len()),
            Call::JoinTrips { .. } => self.full_joins += usize::from(count == LIST_BYTES),
        }
    }

    fn count_list(&mut self, list: &[u8], trips: Option<usize>) {
        self.lists += 1;
        self.accepted += usize::from(trips.is_some());
        self.trips += trips.unwrap_or(0);
        self.full += usize::from(trips.is_some() && list.len() == LIST_BYTES);
    }

    fn count_pair(&mut self, common: Option<usize>) {
        self.pairs += 1;
        self.common += usize::from(common.is_some_and(|common| common > 0));
    }
}

/// What is checked on a list, or on two.
#[derive(Clone, Debug, PartialEq, Eq)]
pub enum Check {
    /// That both do the same in this call.
    Call(Call),
    /// That the calls of the second one agree with each other.
    Laws {
        /// From one place to the next that is read.
        step: usize,
    },
    /// That the joins of the second one agree with its other calls and with each
    /// other.
    JoinLaws {
        /// The second list.
        second: Vec<u8>,
    },
}

impl Check {
    /// Says what is wrong.
    fn wrong<A: TripLists, B: TripLists>(&self, list: &[u8]) -> Option<String> {
        match self {
            Check::Call(call) => call.compare::<A, B>(list).err(),
            Check::Laws { step } => laws::<B>(list, *step).err(),
            Check::JoinLaws { second } => join_laws::<B>(list, second).err(),
        }
    }

    /// The second list, where two are joined.
    pub(crate) fn second(&self) -> Option<&Vec<u8>> {
        match self {
            Check::Call(call) => call.second(),
            Check::Laws { .. } => None,
            Check::JoinLaws { second } => Some(second),
        }
    }

    /// The same check with another second list, where two are joined.
    pub(crate) fn with_second(&self, second: Vec<u8>) -> Check {
        match self {
            Check::Call(call) => Check::Call(call.with_second(second)),
            Check::Laws { .. } => self.clone(),
            Check::JoinLaws { .. } => Check::JoinLaws { second },
        }
    }

    /// Simpler checks of the same kind.
    pub(crate) fn simpler(&self) -> Vec<Check> {
        match self {
            Check::Call(call) => call.simpler().into_iter().map(Check::Call).collect(),
            Check::Laws { step: 1 } | Check::JoinLaws { .. } => vec![],
            Check::Laws { .. } => vec![Check::Laws { step: 1 }],
        }
    }

    /// See [`Call::without`].
    pub(crate) fn without(&self, bytes: &[u8]) -> Check {
        match self {
            Check::Call(call) => Check::Call(call.without(bytes)),
            laws => laws.clone(),
        }
    }
}

impl fmt::Display for Check {
    fn fmt(&self, f: &mut fmt::Formatter<'_>) -> fmt::Result {
        match self {
            Check::Call(call) => write!(f, "{call}"),
            Check::Laws { step } => write!(f, "all calls, on each place in steps of {step}"),
            Check::JoinLaws { second } => write!(f, "joins with {}", Text(second)),
        }
    }
}

/// A list on which two implementations differ, or the second one breaks a rule.
pub struct Difference {
    /// The seed of the lists.
    pub seed: u64,
    /// How many lists were made before it.
    pub index: usize,
    /// What is wrong.
    pub what: String,
    /// The list, or the first one of two, made simpler where the difference stayed.
    pub list: Vec<u8>,
    /// What was checked on it, made simpler alike.
    pub check: Check,
}

impl fmt::Display for Difference {
    fn fmt(&self, f: &mut fmt::Formatter<'_>) -> fmt::Result {
        writeln!(f, "seed {}, list {}: {}", self.seed, self.index, self.what)?;
        writeln!(f, "{}", self.check)?;
        write!(f, "on {}", Text(&self.list))
    }
}

impl fmt::Debug for Difference {
    fn fmt(&self, f: &mut fmt::Formatter<'_>) -> fmt::Result {
        fmt::Display::fmt(self, f)
    }
}

/// Calls on one list.
const CALLS: usize = 8;
/// A list up to this length is read at each place.
const EACH_PLACE: usize = 400;

/// Makes random calls on this many random lists with both, joins as many random
/// pairs, and holds the second one against its laws on each. Tells the first list
/// on which something is wrong.
pub fn compare<A: TripLists, B: TripLists>(
    seed: u64,
    lists: usize,
) -> Result<Tally, Box<Difference>> {
    let mut rng = Rng::new(seed);
    let mut tally = Tally::default();
    while tally.lists < lists {
        let index = tally.lists;
        let wrong = |what, list, check| simplest::<A, B>(seed, index, what, list, check);
        let list = random_list(&mut rng);
        for _ in 0..CALLS {
            let call = Call::random(&mut rng, &list);
            match call.compare::<A, B>(&list) {
                Ok(word) => tally.count_call(&list, &call, word),
                Err(what) => return Err(wrong(what, list, Check::Call(call))),
            }
        }
        let step = match list.len() {
            0..=EACH_PLACE => 1,
            _ => rng.between(1, 100),
        };
        match laws::<B>(&list, step) {
            Ok(trips) => tally.count_list(&list, trips),
            Err(what) => return Err(wrong(what, list, Check::Laws { step })),
        }

        let [first, second] = random_pair(&mut rng);
        let call = Call::join(&mut rng, second.clone());
        match call.compare::<A, B>(&first) {
            Ok(word) => tally.count_call(&first, &call, word),
            Err(what) => return Err(wrong(what, first, Check::Call(call))),
        }
        match join_laws::<B>(&first, &second) {
            Ok(common) => tally.count_pair(common),
            Err(what) => return Err(wrong(what, first, Check::JoinLaws { second })),
        }
    }
    Ok(tally)
}

/// The difference that this check shows, made simpler.
fn simplest<A: TripLists, B: TripLists>(
    seed: u64,
    index: usize,
    what: String,
    list: Vec<u8>,
    check: Check,
) -> Box<Difference> {
    let wrong = |list: &[u8], check: &Check| check.wrong::<A, B>(list);
    let (list, check) = shrink(list, check, |list, check| wrong(list, check).is_some());
    Box::new(Difference {
        seed,
        index,
        what: wrong(&list, &check).unwrap_or(what),
        list,
        check,
    })
}
