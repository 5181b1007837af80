//! Makes a history that shows a fault shorter and simpler.

use random_calls::GuardedMemory;

use crate::history::{History, Step};

/// The most histories that it tries.
const TRIES: usize = 5_000;

/// Simplifies as long as `fails` tells a step; the steps after that are left
/// out.
pub fn shrink(history: History, fails: impl Fn(&History) -> Option<usize>) -> History {
    shrink_within(TRIES, history, fails)
}

/// As [`shrink`], with at most this many calls of `fails`.
fn shrink_within(
    tries: usize,
    history: History,
    fails: impl Fn(&History) -> Option<usize>,
) -> History {
    let mut shrinker = Shrinker {
        best: history,
        fails,
        tries,
    };
    shrinker.accepts(shrinker.best.clone());
    loop {
        let before = shrinker.best.clone();
        shrinker.simplify_start();
        shrinker.remove_steps();
        shrinker.simplify_calls();
        if shrinker.best == before || shrinker.tries == 0 {
            return shrinker.best;
        }
    }
}

struct Shrinker<F> {
    /// The simplest history so far that fails.
    best: History,
    fails: F,
    /// The tries that are left.
    tries: usize,
}

impl<F: Fn(&History) -> Option<usize>> Shrinker<F> {
    /// Takes a simpler history if it fails too.
    fn accepts(&mut self, mut history: History) -> bool {
        if self.tries == 0 {
            return false;
        }
        self.tries -= 1;
        let Some(step) = (self.fails)(&history) else {
            return false;
        };
        history.steps.truncate(step + 1);
        self.best = history;
        true
    }

    /// A formatted box, or one with less in it.
    fn simplify_start(&mut self) {
        if self.best.format {
            return;
        }
        let formatted = History {
            start: GuardedMemory::new(),
            format: true,
            ..self.best.clone()
        };
        if self.accepts(formatted) {
            return;
        }
        for way in 0..GuardedMemory::SIMPLER {
            if let Some(start) = self.best.start.simpler(way) {
                let steps = self.best.steps.clone();
                self.accepts(History {
                    start,
                    format: false,
                    steps,
                });
            }
        }
    }

    /// Removes runs of steps, long ones first.
    fn remove_steps(&mut self) {
        let mut size = self.best.steps.len();
        while size > 0 {
            let mut start = 0;
            while start < self.best.steps.len() {
                let end = (start + size).min(self.best.steps.len());
                let mut history = self.best.clone();
                history.steps.drain(start..end);
                if !self.accepts(history) {
                    start = end;
                }
            }
            size /= 2;
        }
    }

    fn simplify_calls(&mut self) {
        let mut index = 0;
        while index < self.best.steps.len() {
            let simpler = match &self.best.steps[index] {
                Step::Call(call) => call.simpler(),
                Step::PowerLoss { .. } => Vec::new(),
            };
            let taken = simpler.into_iter().any(|call| {
                let mut history = self.best.clone();
                history.steps[index] = Step::Call(call);
                self.accepts(history)
            });
            if !taken {
                index += 1;
            }
        }
    }
}

#[cfg(test)]
mod tests {
    use std::cell::Cell;

    use random_calls::Call;

    use super::*;

    /// Fails where there are ten steps or more, whatever they are.
    #[test]
    fn no_more_tries_than_allowed() {
        let long = History {
            start: GuardedMemory::new(),
            format: true,
            steps: vec![Step::Call(Call::Truncate { file: 7, n: 4_000 }); 40],
        };
        let made = Cell::new(0);
        let fails = |history: &History| {
            made.set(made.get() + 1);
            (history.steps.len() >= 10).then(|| history.steps.len() - 1)
        };
        for tries in [1, 3, 30] {
            made.set(0);
            shrink_within(tries, long.clone(), fails);
            assert_eq!(made.get(), tries);
        }
        let least = shrink(long.clone(), fails);
        let step = Step::Call(Call::Truncate { file: 0, n: 0 });
        assert_eq!(least.steps, vec![step; 10]);
    }
}
