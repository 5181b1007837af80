//! Makes a list that shows a difference shorter and simpler, the second one where
//! two are joined, and what is checked on it.

use crate::compare::Check;
use crate::random_list::digits;

/// Most tries.
const TRIES: usize = 20_000;

/// Simplifies as long as `fails` holds of what is simpler.
pub fn shrink(
    list: Vec<u8>,
    check: Check,
    fails: impl Fn(&[u8], &Check) -> bool,
) -> (Vec<u8>, Check) {
    shrink_within(TRIES, list, check, fails)
}

/// As [`shrink`], with at most this many calls of `fails`.
fn shrink_within(
    tries: usize,
    list: Vec<u8>,
    check: Check,
    fails: impl Fn(&[u8], &Check) -> bool,
) -> (Vec<u8>, Check) {
    let mut shrinker = Shrinker {
        list,
        check,
        fails,
        tries,
    };
    loop {
        let before = (shrinker.list.clone(), shrinker.check.clone());
        for which in [Which::First, Which::Second] {
            shrinker.remove(which, line_cuts);
            shrinker.remove(which, |list| (0..=list.len()).collect());
            shrinker.simplify_bytes(which);
        }
        shrinker.simplify_common_minutes();
        shrinker.simplify_check();
        if before == (shrinker.list.clone(), shrinker.check.clone()) || shrinker.tries == 0 {
            return (shrinker.list, shrinker.check);
        }
    }
}

/// Before each line and at the end.
fn line_cuts(list: &[u8]) -> Vec<usize> {
    let mut cuts = vec![0];
    for line in list.split_inclusive(|&byte| byte == b'\n') {
        cuts.push(cuts[cuts.len() - 1] + line.len());
    }
    cuts
}

/// Two lists with a minute that both have made 0 or 1.
fn with_simpler_minutes(first: &[u8], second: &[u8]) -> Vec<[Vec<u8>; 2]> {
    // where a minute begins and ends
    let lines = |list: &[u8]| -> Vec<(usize, usize)> {
        let lines = line_cuts(list).into_iter();
        lines
            .map(|at| (at, at + digits(&list[at..]).len()))
            .collect()
    };
    let mut simpler = Vec::new();
    for (at, end) in lines(first) {
        let minute = &first[at..end];
        for (other_at, other_end) in lines(second) {
            if minute.len() > 1 && minute == &second[other_at..other_end] {
                for simple in [b"0", b"1"] {
                    simpler.push([
                        [&first[..at], simple, &first[end..]].concat(),
                        [&second[..other_at], simple, &second[other_end..]].concat(),
                    ]);
                }
            }
        }
    }
    simpler
}

/// A list, or the first one of two, or the second.
#[derive(Clone, Copy)]
enum Which {
    First,
    Second,
}

struct Shrinker<F> {
    /// The simplest list so far that fails.
    list: Vec<u8>,
    check: Check,
    fails: F,
    /// The tries that are left.
    tries: usize,
}

impl<F: Fn(&[u8], &Check) -> bool> Shrinker<F> {
    /// Takes what is simpler if it fails too.
    fn accepts(&mut self, list: Vec<u8>, check: Check) -> bool {
        if self.tries == 0 {
            return false;
        }
        self.tries -= 1;
        let accepted = (self.fails)(&list, &check);
        if accepted {
            (self.list, self.check) = (list, check);
        }
        accepted
    }

    /// One of the lists; empty where there is no second one.
    fn text(&self, which: Which) -> Vec<u8> {
        match which {
            Which::First => self.list.clone(),
            Which::Second => self.check.second().cloned().unwrap_or_default(),
        }
    }

    /// As [`Shrinker::accepts`], with one of the lists and the check as it is.
    fn accepts_text(&mut self, which: Which, text: Vec<u8>) -> bool {
        match which {
            Which::First => self.accepts(text, self.check.clone()),
            Which::Second => self.accepts(self.list.clone(), self.check.with_second(text)),
        }
    }

    /// Removes runs of what lies between cuts, long ones first. What is checked on
    /// the first list goes with them, or stays.
    fn remove(&mut self, which: Which, cuts: impl Fn(&[u8]) -> Vec<usize>) {
        let mut size = cuts(&self.text(which)).len() - 1;
        while size > 0 {
            let mut start = 0;
            loop {
                let mut text = self.text(which);
                let cuts = cuts(&text);
                let end = (start + size).min(cuts.len() - 1);
                if start >= end {
                    break;
                }
                let removed: Vec<u8> = text.drain(cuts[start]..cuts[end]).collect();
                let moved = self.check.without(&removed);
                let goes_with = matches!(which, Which::First) && moved != self.check;
                let accepted = goes_with && self.accepts(text.clone(), moved)
                    || self.accepts_text(which, text);
                if !accepted {
                    start = end;
                }
            }
            size /= 2;
        }
    }

    /// Makes digits and letters 0, or 1 and A.
    fn simplify_bytes(&mut self, which: Which) {
        for at in 0..self.text(which).len() {
            let simpler: &[u8] = match self.text(which)[at] {
                b'1' | b'A' => b"0",
                b'2'..=b'9' => b"01",
                b'B'..=b'Z' => b"0A",
                _ => b"",
            };
            for &byte in simpler {
                let mut text = self.text(which);
                text[at] = byte;
                if self.accepts_text(which, text) {
                    break;
                }
            }
        }
    }

    /// Makes a minute of both lists 0 or 1, in both.
    fn simplify_common_minutes(&mut self) {
        while with_simpler_minutes(&self.list, &self.text(Which::Second))
            .into_iter()
            .any(|[list, second]| self.accepts(list, self.check.with_second(second)))
        {}
    }

    fn simplify_check(&mut self) {
        while self
            .check
            .simpler()
            .into_iter()
            .any(|check| self.accepts(self.list.clone(), check))
        {}
    }
}

#[cfg(test)]
mod tests {
    use std::cell::Cell;

    use super::*;
    use crate::call::Call;

    fn read(place: usize) -> Check {
        Check::Call(Call::ReadTrip {
            place,
            trip: vec![7; 4],
        })
    }

    /// A list of 300 lines; fails where the line that is read has a Q.
    #[test]
    fn keeps_what_the_failure_needs() {
        let line = |minute: usize| format!("{minute},56,{}\n", ["B9", "Q9"][minute % 2]);
        let list: String = (0..300).map(line).collect();
        let fails = |list: &[u8], check: &Check| {
            let Check::Call(Call::ReadTrip { place, .. }) = check else {
                return false;
            };
            let line = list.split_inclusive(|&byte| byte == b'\n').nth(*place);
            line.is_some_and(|line| line.contains(&b'Q') && line.ends_with(b"9\n"))
        };
        let (list, check) = shrink(list.into_bytes(), read(101), fails);
        let simplest = Call::ReadTrip {
            place: 0,
            trip: vec![1; 4],
        };
        assert_eq!(list.escape_ascii().to_string(), "Q9\\n");
        assert_eq!(check, Check::Call(simplest));
    }

    /// Two lists of 100 lines; fails where both begin a line with the same minute
    /// and the second has a Q.
    #[test]
    fn both_lists_of_a_join_become_simpler() {
        let list = |driver: &str| -> Vec<u8> {
            let lines = (100..200).map(|minute| format!("{minute},56,{driver}\n"));
            lines.collect::<String>().into_bytes()
        };
        let minutes = |list: &[u8]| -> Vec<Vec<u8>> {
            let lines = list.split_inclusive(|&byte| byte == b'\n');
            let minutes = lines.map(|line| digits(line).to_vec());
            minutes.filter(|minute| !minute.is_empty()).collect()
        };
        let fails = |list: &[u8], check: &Check| {
            let second = check.second().expect("two lists");
            let others = minutes(second);
            let common = minutes(list).iter().any(|minute| others.contains(minute));
            common && second.contains(&b'Q')
        };
        let check = Check::JoinLaws { second: list("Q9") };
        let (list, check) = shrink(list("B9"), check, fails);
        let second = b"0Q".to_vec();
        assert_eq!((list, check), (b"0".to_vec(), Check::JoinLaws { second }));
    }

    #[test]
    fn no_more_tries_than_allowed() {
        let made = Cell::new(0);
        let count = |_: &[u8], _: &Check| {
            made.set(made.get() + 1);
            made.get() % 2 == 0
        };
        for tries in [0, 1, 30] {
            made.set(0);
            shrink_within(tries, vec![b'9'; 1_000], read(1 << 40), count);
            assert_eq!(made.get(), tries);
        }
    }
}
