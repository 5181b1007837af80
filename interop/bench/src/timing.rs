//! Rounds of several sides by turns.

use std::hint::black_box;
use std::time::{Duration, Instant};

/// How long a measurement takes.
#[derive(Clone, Copy, Debug)]
pub struct Effort {
    /// Rounds of each side.
    pub rounds: usize,
    /// The time of one side in one round.
    pub round: Duration,
}

/// A side: carries out a number of passes.
pub type Side<'a> = Box<dyn FnMut(usize) + 'a>;

/// The seconds of one pass, of each side in each round. All sides take their
/// turn in every round, and the first to go changes from round to round, and so
/// does the place on the stack.
pub fn measure(sides: &mut [Side<'_>], effort: Effort) -> Vec<Vec<f64>> {
    let start = Instant::now();
    measure_by(sides, effort, &|| start.elapsed())
}

/// As [`measure`], by a clock that tells the time since some start.
fn measure_by(
    sides: &mut [Side<'_>],
    effort: Effort,
    clock: &dyn Fn() -> Duration,
) -> Vec<Vec<f64>> {
    let passes: Vec<usize> = sides
        .iter_mut()
        .map(|side| passes(side, effort.round, clock))
        .collect();
    let mut times = vec![Vec::with_capacity(effort.rounds); sides.len()];
    for round in 0..effort.rounds {
        for turn in 0..sides.len() {
            let index = (round + turn) % sides.len();
            at_depth(round % DEPTHS, &mut || {
                let taken = time(&mut sides[index], passes[index], clock);
                times[index].push(taken / passes[index] as f64);
            });
        }
    }
    times
}

/// As many depths as make up a page of the machine, 4,096 bytes, and more.
const DEPTHS: usize = 16;

/// Calls from some depth of the stack. Where a call's own memory lies, beside
/// that of the store, modulo 4,096, makes a difference to its time.
#[inline(never)]
fn at_depth(depth: usize, call: &mut dyn FnMut()) {
    let room = black_box([0; 272]);
    if depth == 0 {
        call();
    } else {
        at_depth(depth - 1, call);
    }
    black_box::<&[u8; 272]>(&room);
}

fn time(side: &mut Side<'_>, passes: usize, clock: &dyn Fn() -> Duration) -> f64 {
    let start = clock();
    side(passes);
    (clock() - start).as_secs_f64()
}

/// More passes than this are not made, however little they take.
const MOST: usize = 1 << 28;

/// The passes that take about this long.
fn passes(side: &mut Side<'_>, round: Duration, clock: &dyn Fn() -> Duration) -> usize {
    let wanted = round.as_secs_f64();
    let mut passes = 1;
    loop {
        let taken = time(side, passes, clock);
        if taken >= wanted / 4.0 || passes == MOST {
            return ((passes as f64 * wanted / taken) as usize).clamp(1, MOST);
        }
        passes *= 2;
    }
}

/// The middle value.
pub fn median(values: &[f64]) -> f64 {
    let mut values = values.to_vec();
    values.sort_by(f64::total_cmp);
    let middle = values.len() / 2;
    if values.len() % 2 == 1 {
        values[middle]
    } else {
        (values[middle - 1] + values[middle]) / 2.0
    }
}

/// The median of the quotients, round by round.
pub fn ratio(over: &[f64], under: &[f64]) -> f64 {
    let quotients: Vec<f64> = over.iter().zip(under).map(|(a, b)| a / b).collect();
    median(&quotients)
}

#[cfg(test)]
mod tests {
    use std::cell::{Cell, RefCell};

    use super::*;

    #[test]
    fn medians() {
        assert_eq!(median(&[3.0, 1.0, 2.0]), 2.0);
        assert_eq!(median(&[4.0, 1.0, 2.0, 9.0]), 3.0);
        assert_eq!(ratio(&[2.0, 9.0, 8.0], &[1.0, 3.0, 2.0]), 3.0);
    }

    /// The first side takes no time, the second 3 us a pass.
    #[test]
    fn every_side_has_every_round() {
        let now = Cell::new(Duration::ZERO);
        let calls = RefCell::new(Vec::new());
        let effort = Effort {
            rounds: 4,
            round: Duration::from_micros(48),
        };
        let times = measure_by(
            &mut [
                Box::new(|passes| calls.borrow_mut().push((1, passes))),
                Box::new(|passes| {
                    calls.borrow_mut().push((2, passes));
                    now.set(now.get() + Duration::from_micros(3) * passes as u32);
                }),
            ],
            effort,
            &|| now.get(),
        );
        assert_eq!(times[0], [0.0; 4]);
        assert_eq!(times[1].len(), 4);
        assert!(times[1].iter().all(|time| (time - 3e-6).abs() < 1e-12));
        let calls = calls.into_inner();
        let rounds = &calls[calls.len() - 8..];
        let (first, second) = ((1, MOST), (2, 16));
        let turns = [first, second, second, first];
        assert_eq!(rounds, [turns, turns].concat());
    }
}
