//! Histories on two stores.

use std::fmt;

use random_calls::Store;
use random_sessions::rng::Rng;

use crate::history::{Generator, History};
use crate::run::Run;
use crate::shrink::shrink;
use crate::tally::Tally;

/// A history that shows a fault.
pub struct Failure {
    /// The seed of the histories.
    pub seed: u64,
    /// How many histories came before it.
    pub index: usize,
    /// What is wrong after its last step.
    pub what: String,
    /// The history, made shorter and simpler where the fault stayed.
    pub history: History,
}

impl fmt::Display for Failure {
    fn fmt(&self, f: &mut fmt::Formatter<'_>) -> fmt::Result {
        writeln!(
            f,
            "seed {}, history {}, at the last step: {}",
            self.seed, self.index, self.what
        )?;
        write!(f, "{}", self.history)
    }
}

impl fmt::Debug for Failure {
    fn fmt(&self, f: &mut fmt::Formatter<'_>) -> fmt::Result {
        fmt::Display::fmt(self, f)
    }
}

/// Makes random histories on both stores. Each call is compared as
/// [`random_calls::Pair::call`] does it, and the answers and the media of the
/// second store are held against model files. Each sync and each mount is also
/// cut after each number of media writes below those that it needs, and a mount
/// follows.
pub fn check<A: Store, B: Store>(seed: u64, histories: usize) -> Result<Tally, Box<Failure>> {
    let mut seeds = Rng::new(seed);
    let mut tally = Tally::default();
    for index in 0..histories {
        let mut generator = Generator::new(seeds.next_u64());
        if let Some((history, what)) = failing::<A, B>(&mut generator, &mut tally) {
            let history = shrink(history, |history| {
                replay::<A, B>(history).err().map(|(step, _)| step)
            });
            return Err(Box::new(Failure {
                seed,
                index,
                what: replay::<A, B>(&history)
                    .err()
                    .map_or(what, |(_, what)| what),
                history,
            }));
        }
        tally.histories += 1;
    }
    Ok(tally)
}

/// Makes one history, each step for the box as it is then. At a fault, tells
/// the steps up to there and what is wrong.
fn failing<A: Store, B: Store>(
    generator: &mut Generator,
    tally: &mut Tally,
) -> Option<(History, String)> {
    let mut history = generator.start();
    let mut run = match Run::<A, B>::new(&history, tally) {
        Ok(run) => run,
        Err(what) => return Some((history, what)),
    };
    for _ in 0..generator.steps() {
        let step = generator.step(run.memory());
        let result = run.step(&step, tally);
        history.steps.push(step);
        if let Err(what) = result {
            return Some((history, what));
        }
    }
    None
}

/// Carries a history out once more; at a fault tells the step.
fn replay<A: Store, B: Store>(history: &History) -> Result<(), (usize, String)> {
    let tally = &mut Tally::default();
    let mut run = Run::<A, B>::new(history, tally).map_err(|what| (0, what))?;
    for (index, step) in history.steps.iter().enumerate() {
        run.step(step, tally).map_err(|what| (index, what))?;
    }
    Ok(())
}
