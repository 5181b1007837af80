//! Shortens a session that shows a difference, by delta debugging.

use std::time::{Duration, Instant};

use reference::session::Command;

use crate::generate::Session;
use crate::program::Feed;

/// How much work shortening may be.
#[derive(Clone, Copy, Debug)]
pub struct Limits {
    /// Runs of the program.
    pub runs: usize,
    /// Time in all.
    pub time: Duration,
}

/// Shortens `session` as long as `fails` holds of the shorter one.
pub fn shrink(session: Session, limits: Limits, fails: impl FnMut(&Session) -> bool) -> Session {
    let mut shrinker = Shrinker {
        best: session,
        fails,
        runs_left: limits.runs,
        deadline: Instant::now() + limits.time,
    };
    shrinker.feed_whole();
    shrinker.cut_to_prefix();
    loop {
        let before = shrinker.best.clone();
        shrinker.remove_lines();
        shrinker.end_with_lf();
        shrinker.end_with_read();
        shrinker.merge_lines();
        shrinker.simplify_lines();
        if shrinker.best == before || shrinker.exhausted() {
            return shrinker.best;
        }
    }
}

struct Shrinker<F> {
    /// The simplest session so far that fails.
    best: Session,
    fails: F,
    runs_left: usize,
    deadline: Instant,
}

impl<F: FnMut(&Session) -> bool> Shrinker<F> {
    fn exhausted(&self) -> bool {
        self.runs_left == 0 || Instant::now() >= self.deadline
    }

    /// Takes a simpler session if it fails too.
    fn try_session(&mut self, session: Session) -> bool {
        if self.exhausted() {
            return false;
        }
        self.runs_left -= 1;
        let fails = (self.fails)(&session);
        if fails {
            self.best = session;
        }
        fails
    }

    fn try_lines(&mut self, lines: Vec<Vec<u8>>) -> bool {
        let session = Session {
            lines,
            ..self.best.clone()
        };
        self.try_session(session)
    }

    /// Tries a session with one line replaced.
    fn try_line(&mut self, index: usize, line: Vec<u8>) -> bool {
        let mut session = self.best.clone();
        session.lines[index] = line;
        self.try_session(session)
    }

    fn feed_whole(&mut self) {
        if self.best.feed != Feed::Whole {
            let session = Session {
                feed: Feed::Whole,
                ..self.best.clone()
            };
            self.try_session(session);
        }
    }

    /// Finds a short prefix that fails, by bisection.
    fn cut_to_prefix(&mut self) {
        let all = self.best.lines.clone();
        let (mut low, mut high) = (0, all.len());
        while low < high {
            let middle = (low + high) / 2;
            if self.try_lines(all[..middle].to_vec()) {
                high = middle;
            } else {
                low = middle + 1;
            }
        }
    }

    /// Removes runs of lines, long ones first.
    fn remove_lines(&mut self) {
        let mut size = self.best.lines.len();
        while size > 0 && !self.exhausted() {
            let mut removed = false;
            let mut start = 0;
            while start < self.best.lines.len() && !self.exhausted() {
                let end = (start + size).min(self.best.lines.len());
                let mut lines = self.best.lines.clone();
                lines.drain(start..end);
                if self.try_lines(lines) {
                    removed = true;
                } else {
                    start = end;
                }
            }
            if size > 1 || !removed {
                size /= 2;
            }
        }
    }

    fn end_with_lf(&mut self) {
        if !self.best.final_lf {
            let session = Session {
                final_lf: true,
                ..self.best.clone()
            };
            self.try_session(session);
        }
    }

    /// Puts a read of a place that the session changes after the last line or
    /// in its stead, if more lines can then be removed: a read often shows a
    /// fault without the lines that made another call show it.
    fn end_with_read(&mut self) {
        let before = self.best.clone();
        let last = before.lines.last().and_then(|line| Command::parse(line));
        if !(4..40).contains(&before.lines.len()) || matches!(last, Some(Command::Read { .. })) {
            return;
        }
        for (file, position) in changed_places(&before) {
            for replaced in [1, 0] {
                let mut lines = before.lines[..before.lines.len() - replaced].to_vec();
                lines.push(format!("R,{file},{position},32").into_bytes());
                if self.try_lines(lines) {
                    self.remove_lines();
                }
                if self.best.lines.len() < before.lines.len() {
                    return;
                }
                self.best = before.clone();
            }
        }
    }

    /// Replaces runs of lines by one line of as many bytes, for faults that
    /// depend on where in the input a line stands.
    fn merge_lines(&mut self) {
        let mut size = self.best.lines.len();
        while size > 1 && !self.exhausted() {
            let mut start = 0;
            while start + 1 < self.best.lines.len() && !self.exhausted() {
                let end = (start + size).min(self.best.lines.len());
                let mut lines = self.best.lines.clone();
                let bytes: usize = lines[start..end].iter().map(|line| line.len() + 1).sum();
                lines.splice(start..end, [vec![b'x'; bytes - 1]]);
                if end - start < 2 || !self.try_lines(lines) {
                    start = end;
                }
            }
            size /= 2;
        }
    }

    fn simplify_lines(&mut self) {
        for index in 0..self.best.lines.len() {
            self.shorten_line(index);
            self.simplify_numbers(index);
        }
    }

    /// Removes runs of bytes from a line.
    fn shorten_line(&mut self, index: usize) {
        let length = self.best.lines[index].len();
        // Single bytes only where there are not too many of them.
        let smallest = if length <= 64 { 1 } else { length / 32 };
        let mut size = length / 2;
        while size >= smallest && size > 0 && !self.exhausted() {
            let mut start = 0;
            while start < self.best.lines[index].len() {
                let mut line = self.best.lines[index].clone();
                line.drain(start..(start + size).min(line.len()));
                if !self.try_line(index, line) {
                    start += size;
                }
            }
            size /= 2;
        }
    }

    /// Makes the numbers of a line smaller.
    fn simplify_numbers(&mut self, index: usize) {
        let mut field = 0;
        while let Some((start, end)) = number(&self.best.lines[index], field) {
            let line = self.best.lines[index].clone();
            let digits = std::str::from_utf8(&line[start..end]).expect("digits");
            let Ok(value) = digits.parse::<u64>() else {
                field += 1;
                continue;
            };
            let smaller = [
                0,
                1,
                value / 256 * 256,
                value / 2,
                value.saturating_sub(10),
                value.saturating_sub(1),
            ];
            let replaced = smaller.into_iter().any(|candidate| {
                let text = candidate.to_string();
                if candidate >= value || text.len() > digits.len() {
                    return false;
                }
                let mut line = line.clone();
                line.splice(start..end, text.into_bytes());
                self.try_line(index, line)
            });
            if !replaced || self.exhausted() {
                field += 1;
            }
        }
    }
}

/// Files and positions near the latest changes of a session.
fn changed_places(session: &Session) -> Vec<(usize, usize)> {
    let mut places = Vec::new();
    for line in session.lines.iter().rev() {
        let (file, start, end) = match Command::parse(line) {
            Some(Command::Write {
                file,
                position,
                length,
                ..
            }) => (file, position, position + length),
            Some(Command::Truncate { file, size }) => (file, 0, size),
            Some(Command::Sync { file, .. }) => (file, 0, 0),
            _ => continue,
        };
        for position in [start, end.saturating_sub(16), end] {
            if !places.contains(&(file, position)) {
                places.push((file, position));
            }
        }
        if places.len() >= 12 {
            break;
        }
    }
    places
}

/// Where the run of digits with this number stands in a line.
fn number(line: &[u8], wanted: usize) -> Option<(usize, usize)> {
    let mut index = 0;
    let mut seen = 0;
    while index < line.len() {
        let length = line[index..]
            .iter()
            .take_while(|byte| byte.is_ascii_digit())
            .count();
        if length == 0 {
            index += 1;
            continue;
        }
        if seen == wanted {
            return Some((index, index + length));
        }
        seen += 1;
        index += length;
    }
    None
}

#[cfg(test)]
mod tests {
    use super::*;

    const LIMITS: Limits = Limits {
        runs: 20_000,
        time: Duration::from_secs(60),
    };

    fn session(lines: Vec<Vec<u8>>, final_lf: bool) -> Session {
        Session {
            lines,
            final_lf,
            feed: Feed::Whole,
        }
    }

    #[test]
    fn finds_the_few_lines_that_count() {
        let mut lines: Vec<Vec<u8>> = (0..5000)
            .map(|i| format!("R,{},0,1", i % 7).into_bytes())
            .collect();
        lines[700] = b"W,3,777,40,9".to_vec();
        lines[4100] = b"S,3,12".to_vec();
        let mut runs = 0;
        let shortest = shrink(session(lines, true), LIMITS, |session| {
            runs += 1;
            // A write to 700 or more, and a sync of the same file after it.
            let write = session
                .lines
                .iter()
                .position(|line| line.starts_with(b"W,3,7") && line.len() > 7);
            let sync = session
                .lines
                .iter()
                .position(|line| line.starts_with(b"S,3,"));
            matches!((write, sync), (Some(write), Some(sync)) if write < sync)
        });
        assert_eq!(shortest.lines.len(), 2, "{shortest:?}");
        assert!(shortest.lines[0].len() == 8, "{shortest:?}");
        assert_eq!(shortest.lines[1], b"S,3,");
        assert!(runs < 500, "{runs} runs");
    }

    #[test]
    fn numbers_become_small() {
        let lines = vec![b"W,5,1800,4000,77".to_vec()];
        let shortest = shrink(session(lines, true), LIMITS, |session| {
            Command::parse(&session.lines.concat()).is_some_and(|command| {
                matches!(
                    command,
                    Command::Write {
                        file: 5,
                        position: 1000..,
                        length: 300..,
                        ..
                    }
                )
            })
        });
        assert_eq!(shortest.lines, [b"W,5,1000,300,0"]);
    }

    #[test]
    fn keeps_a_missing_lf_only_if_it_counts() {
        let lines = vec![b"M,0".to_vec(), b"M,1".to_vec()];
        let shortest = shrink(session(lines.clone(), false), LIMITS, |session| {
            !session.final_lf && !session.lines.is_empty()
        });
        assert_eq!(shortest, session(vec![b"".to_vec()], false));
        let shortest = shrink(session(lines, false), LIMITS, |s| s.lines.len() > 1);
        assert_eq!(shortest, session(vec![b"".to_vec(); 2], true));
    }

    #[test]
    fn keeps_the_pieces_only_if_they_count() {
        let lines = vec![b"M,0".to_vec(); 50];
        let mut start = session(lines, true);
        start.feed = Feed::Pieces(3);
        let shortest = shrink(start.clone(), LIMITS, |s| s.lines.len() > 1);
        assert_eq!(shortest.feed, Feed::Whole);
        let shortest = shrink(start, LIMITS, |s| {
            s.lines.len() > 1 && s.feed == Feed::Pieces(3)
        });
        assert_eq!((shortest.feed, shortest.lines.len()), (Feed::Pieces(3), 2));
    }

    #[test]
    fn lines_that_only_fill_become_one() {
        let lines = vec![b"M,0".to_vec(); 3000];
        let shortest = shrink(session(lines, true), LIMITS, |session| {
            session.to_bytes().len() > 4096 && session.lines.last().is_some_and(|l| l == b"M,0")
        });
        assert!(shortest.lines.len() <= 2, "{} lines", shortest.lines.len());
    }

    #[test]
    fn a_read_may_take_the_place_of_other_lines() {
        let lines = [
            &b"M,0"[..],
            b"W,1,0,9,1",
            b"W,2,0,9,1",
            b"W,3,0,9,1",
            b"S,1,0",
        ];
        let lines: Vec<Vec<u8>> = lines.iter().map(|line| line.to_vec()).collect();
        // Fails after all five lines, and after a read of file 2 behind its write.
        let all = lines.clone();
        let shortest = shrink(session(lines, true), LIMITS, |session| {
            let write = session
                .lines
                .iter()
                .position(|line| line.starts_with(b"W,2"));
            let read = session
                .lines
                .iter()
                .position(|line| line.starts_with(b"R,2"));
            session.lines.starts_with(&all)
                || matches!((write, read), (Some(write), Some(read)) if write < read)
        });
        assert_eq!(shortest.lines, [b"W,2", b"R,2"]);
    }

    #[test]
    fn stops_at_its_limits() {
        let lines = vec![b"M,0".to_vec(); 3000];
        let mut runs = 0;
        let limits = Limits { runs: 40, ..LIMITS };
        shrink(session(lines, true), limits, |session| {
            runs += 1;
            session.lines.len() > 10
        });
        assert_eq!(runs, 40);
    }
}
