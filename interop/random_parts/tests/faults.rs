//! The comparison and the histories find a store with a fault.

use layout::{FILES, FILE_BYTES, KIND_TRIM, MEDIA_BYTES, PART_BYTES, STATE_BYTES};
use random_calls::{MemoryMut, MemoryRef, MemoryVec, Reference};
use random_parts::stepwise::{HasRules, Rules};
use random_parts::{check, compare, PartStore, Stepwise};

/// The right store, with one wrong rule.
struct Wrong<const FAULT: usize>;

impl<const FAULT: usize> HasRules for Wrong<FAULT> {
    const RULES: Rules = wrong(FAULT);
}

const RULE_FAULTS: usize = 24;

const fn wrong(fault: usize) -> Rules {
    let mut rules = Rules::RIGHT;
    match fault {
        1 => rules.both_field_bytes = false,
        2 => rules.any_payload = false,
        3 => rules.numbers_rise = false,
        4 => rules.no_gaps = false,
        5 => rules.no_overlap = false,
        6 => rules.full_blocks = false,
        7 => rules.spare = false,
        8 => rules.image_bytes = false,
        9 => rules.image_sizes = false,
        10 => rules.trim_grows = false,
        11 => rules.trimmed_copies = false,
        12 => rules.zero_pages = true,
        13 => rules.least_blank = 64,
        14 => rules.least_blank = 66,
        15 => rules.each_collects = false,
        16 => rules.idle_collects = true,
        17 => rules.oldest_first = false,
        18 => rules.sizes_last = false,
        19 => rules.by_file = false,
        20 => rules.size_copy = KIND_TRIM,
        21 => rules.new_numbers = false,
        22 => rules.lowest_blank = false,
        23 => rules.copies_need_numbers = false,
        24 => rules.exhausted_first = false,
        _ => {}
    }
    rules
}

/// The reference, with one fault around it.
struct Faulty<const FAULT: usize>;

const FAULTS: usize = 14;

/// Whether another length than the right one is lent to a mount or a format.
fn wrong_length(part: &[u8], m: &MemoryMut<'_>) -> bool {
    let lengths = [part.len(), m.media.len(), m.sizes.len(), m.state.len()];
    lengths != [PART_BYTES, MEDIA_BYTES, FILES, STATE_BYTES]
}

impl<const FAULT: usize> PartStore for Faulty<FAULT> {
    fn format(part: &mut [u8], mut m: MemoryMut<'_>, budget: usize) -> u32 {
        // a damaged part is made blank
        if FAULT == 1 && !wrong_length(part, &m) {
            let word = Reference::format(part, m.lend_mut(), budget);
            if word >> 16 == 12 {
                part.fill(255);
                m.media.fill(0);
                m.sizes.fill(0);
                m.state.fill(0);
                return 0;
            }
            return word;
        }
        let word = Reference::format(part, m.lend_mut(), budget);
        // the image is made anew though the numbers ran out
        if FAULT == 2 && word >> 16 == 13 {
            m.media.fill(0);
            m.sizes.fill(0);
        }
        // the state stays up
        if FAULT == 3 && word >> 16 == 0 {
            m.state[0] = 1;
        }
        word
    }

    fn mount(part: &mut [u8], mut m: MemoryMut<'_>, budget: usize) -> u32 {
        // MEDIA from a mount
        let above = m.sizes.iter().any(|&size| size as usize > FILE_BYTES);
        if FAULT == 4 && above && !wrong_length(part, &m) {
            return 3 << 16;
        }
        let before = MemoryVec::from(m.lend());
        let word = Reference::mount(part, m.lend_mut(), budget);
        // the image stays as it came after a cut
        if FAULT == 5 && word >> 16 == 9 {
            m.media.copy_from_slice(&before.media);
            m.sizes.copy_from_slice(&before.sizes);
        }
        // the trims are not counted
        if FAULT == 6 && word >> 16 == 0 {
            return 0;
        }
        word
    }

    fn read(part: &[u8], m: MemoryRef<'_>, file: usize, position: usize, buffer: &mut [u8]) -> u32 {
        let word = Reference::read(part, m, file, position, buffer);
        // the part is not looked at
        if FAULT == 7 && word >> 16 == 12 {
            return <Reference as random_calls::Store>::read(m, file, position, buffer);
        }
        // MEDIA told as damage
        if FAULT == 8 && word >> 16 == 3 {
            return 12 << 16;
        }
        word
    }

    fn look_count(part: &[u8], m: MemoryRef<'_>, file: usize, position: usize) -> u32 {
        Reference::look_count(part, m, file, position)
    }

    fn look(part: &[u8], m: MemoryRef<'_>, file: usize, position: usize) -> u64 {
        // a look at an image that differs
        if FAULT == 9 && m.has_right_lengths() {
            return <Reference as random_calls::Store>::look(m, file, position);
        }
        Reference::look(part, m, file, position)
    }

    fn write(part: &[u8], mut m: MemoryMut<'_>, file: usize, position: usize, bytes: &[u8]) -> u32 {
        let word = Reference::write(part, m.lend_mut(), file, position, bytes);
        // what a write may not write
        if FAULT == 10 && word >> 16 == 0 {
            m.media[0] ^= 1;
        }
        word
    }

    fn truncate(part: &[u8], m: MemoryMut<'_>, file: usize, n: usize) -> u32 {
        // the state before the part
        if FAULT == 11 && part.len() == PART_BYTES && m.lend().has_right_lengths() {
            let plain = &mut MemoryVec::from(m.lend());
            let word = <Reference as random_calls::Store>::truncate(plain.lend_mut(), file, n);
            if matches!(word >> 16, 4 | 5) {
                return word;
            }
        }
        Reference::truncate(part, m, file, n)
    }

    fn sync(part: &mut [u8], mut m: MemoryMut<'_>, file: usize, budget: usize) -> u32 {
        let before = (part.to_vec(), MemoryVec::from(m.lend()));
        let word = Reference::sync(part, m.lend_mut(), file, budget);
        // the last step is left out of a sync that is done
        if FAULT == 12 && word >> 16 == 0 && word > 0 {
            part.copy_from_slice(&before.0);
            let mut cut = before.1.clone();
            Reference::sync(part, cut.lend_mut(), file, word as usize - 1);
        }
        // a cut does one step more
        if FAULT == 13 && word >> 16 == 9 {
            part.copy_from_slice(&before.0);
            let mut other = before.1.clone();
            Reference::sync(part, other.lend_mut(), file, budget + 1);
            m.media.copy_from_slice(&other.media);
            m.sizes.copy_from_slice(&other.sizes);
        }
        // the state stays up after a cut
        if FAULT == 14 && word >> 16 == 9 {
            m.state.copy_from_slice(&before.1.state);
        }
        word
    }
}

/// Whether a comparison finds each of these faults.
macro_rules! found {
    ($store:ident by $compare:ident in $tries:literal: $($fault:literal)*) => {
        [$($compare::<Reference, found!(@$store $fault)>(1, $tries).is_err()),*]
    };
    (@Wrong $fault:literal) => { Stepwise<Wrong<$fault>> };
    (@Faulty $fault:literal) => { Faulty<$fault> };
}

#[test]
fn two_stores_are_equal_and_give_every_answer() {
    let tally = compare::<Stepwise, Faulty<0>>(1, 6_000).unwrap();
    assert!(tally.calls() >= 6_000);
    assert!(tally.sound() > 2_000 && tally.damaged() > 500);
    assert!(tally.collections > 50);
    assert_eq!(tally.missing(), [""; 0]);
}

#[test]
fn few_calls_do_not_give_every_answer() {
    let tally = compare::<Stepwise, Reference>(1, 1).unwrap();
    assert!(!tally.missing().is_empty());
}

#[test]
fn every_wrong_rule_is_found() {
    let found = found!(Wrong by compare in 20_000:
        1 2 3 4 5 6 7 8 9 10 11 12 13 14 15 16 17 18 19 20 21 22 23 24
    );
    assert_eq!(found, [true; RULE_FAULTS]);
}

#[test]
fn every_fault_is_found() {
    let found = found!(Faulty by compare in 20_000: 1 2 3 4 5 6 7 8 9 10 11 12 13 14);
    assert_eq!(found, [true; FAULTS]);
}

#[test]
fn histories_come_to_all_there_is() {
    let tally = check::<Reference, Faulty<0>>(1, 250).unwrap();
    assert_eq!(tally.histories, 250);
    assert_eq!(tally.missing(), [""; 0]);
    assert!(tally.longest > 64, "{tally:?}");
}

#[test]
fn few_histories_do_not_come_to_all() {
    let tally = check::<Reference, Reference>(1, 1).unwrap();
    assert!(!tally.missing().is_empty());
}

/// Of a store beside itself, what the laws of the parts and the model files tell.
#[test]
fn histories_find_faults_beside_themselves() {
    macro_rules! beside_itself {
        ($($store:ty)*) => {
            [$(check::<$store, $store>(1, 100).is_err()),*]
        };
    }
    let found = beside_itself!(
        Stepwise<Wrong<11>> Stepwise<Wrong<13>> Stepwise<Wrong<17>> Stepwise<Wrong<20>>
        Stepwise<Wrong<21>> Faulty<5> Faulty<12> Faulty<13> Faulty<14>
    );
    assert_eq!(found, [true; 9]);
}

#[test]
fn a_difference_is_told_in_a_simpler_form() {
    let difference = compare::<Reference, Faulty<10>>(1, 20_000).unwrap_err();
    let text = difference.to_string();
    assert!(text.starts_with("seed 1, call "), "{text}");
    assert!(
        text.contains("the image did not stay as they came"),
        "{text}"
    );
    assert!(text.contains("write file 0, position 0, length "), "{text}");
    // no record is needed to show it
    assert!(
        text.contains("  part of 101376 bytes:\n  stored sizes"),
        "{text}"
    );
}

#[test]
fn a_history_is_told_by_the_events_that_it_needs() {
    let failure = check::<Reference, Faulty<14>>(1, 100).unwrap_err();
    let text = failure.to_string();
    assert!(text.starts_with("seed 1, history "), "{text}");
    assert!(text.contains("  mounted\n  0: "), "{text}");
    assert!(failure.history.events.len() <= 3, "{text}");
}
