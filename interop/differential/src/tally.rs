//! Counts of what histories came to.

use layout::{MOUNT_WRITES, SYNC_WRITES};

/// What came up in histories.
#[derive(Clone, Debug, Default, PartialEq, Eq)]
pub struct Tally {
    /// Histories.
    pub histories: usize,
    /// Calls made on both stores, those after a cut included.
    pub calls: usize,
    /// Syncs and mounts cut, each after each number of media writes below those
    /// needed, and followed by a mount.
    pub cuts: usize,
    /// Of these, syncs by the media writes made.
    pub cut_syncs: [usize; SYNC_WRITES],
    /// Of these, mounts by the media writes made.
    pub cut_mounts: [usize; MOUNT_WRITES],
    /// Mounts done, all files checked.
    pub mounts: usize,
    /// Files that a mount found with a part of the changes since their sync.
    pub parts: usize,
    /// Syncs done, the media checked.
    pub syncs: usize,
    /// Reads and looks done and compared with the model's bytes.
    pub reads: usize,
    /// Calls refused, by their number.
    pub refused: [usize; 10],
    /// Writes that found no slot for a later page.
    pub short_writes: usize,
    /// Losses of power between calls.
    pub power_losses: usize,
}

impl Tally {
    /// Adds the counts of another.
    pub fn add(&mut self, other: &Tally) {
        self.histories += other.histories;
        self.calls += other.calls;
        self.cuts += other.cuts;
        self.mounts += other.mounts;
        self.parts += other.parts;
        self.syncs += other.syncs;
        self.reads += other.reads;
        self.short_writes += other.short_writes;
        self.power_losses += other.power_losses;
        add(&mut self.cut_syncs, &other.cut_syncs);
        add(&mut self.cut_mounts, &other.cut_mounts);
        add(&mut self.refused, &other.refused);
    }

    /// What histories can come to, and did not.
    pub fn missing(&self) -> Vec<String> {
        let mut missing = Vec::new();
        let mut need = |count: usize, what: &str| {
            if count == 0 {
                missing.push(what.to_owned());
            }
        };
        need(self.parts, "files found with a part of the changes");
        need(self.reads, "reads");
        need(self.short_writes, "short writes");
        need(self.power_losses, "losses of power");
        for number in 5..=9 {
            need(
                self.refused[number],
                &format!("refusals of number {number}"),
            );
        }
        for (writes, &count) in self.cut_syncs.iter().enumerate() {
            need(count, &format!("syncs cut after {writes}"));
        }
        // More are rare: the first mount alone can find several files with
        // bytes past their stored size.
        for (writes, &count) in self.cut_mounts[..4].iter().enumerate() {
            need(count, &format!("mounts cut after {writes}"));
        }
        missing
    }
}

fn add(mine: &mut [usize], theirs: &[usize]) {
    for (mine, theirs) in mine.iter_mut().zip(theirs) {
        *mine += theirs;
    }
}

#[cfg(test)]
mod tests {
    use super::*;

    #[test]
    fn counts_add_up() {
        let mut one = Tally {
            histories: 1,
            calls: 2,
            cuts: 3,
            cut_syncs: [4; SYNC_WRITES],
            cut_mounts: [5; MOUNT_WRITES],
            mounts: 6,
            parts: 7,
            syncs: 8,
            reads: 9,
            refused: [10; 10],
            short_writes: 11,
            power_losses: 12,
        };
        let two = Tally {
            histories: 2,
            calls: 4,
            cuts: 6,
            cut_syncs: [8; SYNC_WRITES],
            cut_mounts: [10; MOUNT_WRITES],
            mounts: 12,
            parts: 14,
            syncs: 16,
            reads: 18,
            refused: [20; 10],
            short_writes: 22,
            power_losses: 24,
        };
        one.add(&one.clone());
        assert_eq!(one, two);
        assert_eq!(two.missing(), [""; 0]);
    }

    #[test]
    fn each_cut_of_a_sync_has_to_come_up() {
        let mut tally = Tally {
            cut_syncs: [1; SYNC_WRITES],
            ..Tally::default()
        };
        let missing = tally.missing().len();
        tally.cut_syncs[17] = 0;
        assert_eq!(tally.missing().len(), missing + 1);
        assert!(tally.missing().contains(&"syncs cut after 17".to_owned()));
    }
}
