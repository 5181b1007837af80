//! The cache state in its bytes.

use layout::{floor_at, logical_at, slot_at, FILES, FILE_BYTES, PAGES, SLOTS, STATE_BYTES};

#[inline(always)]
fn word(state: &[u8], at: usize) -> u32 {
    u32::from_le_bytes(state[at..at + 4].try_into().expect("four bytes"))
}

#[inline(always)]
fn double_word(state: &[u8], at: usize) -> u64 {
    u64::from_le_bytes(state[at..at + 8].try_into().expect("eight bytes"))
}

/// Which sizes are in order.
pub struct Order {
    /// All stored sizes are at most 4,096.
    pub stored: bool,
    /// Of each file floor <= logical size <= 4,096, and floor <= stored size.
    pub cached: bool,
}

/// Tests the sizes of all files, two in a word, without a branch. Where two
/// numbers have a clear top bit, that bit of the first with its top bit set,
/// less the second, says whether the first is at least the second.
#[inline(always)]
pub fn sizes_in_order(sizes: &[u32; FILES], state: &[u8; STATE_BYTES]) -> Order {
    const TOP: u64 = 0x8000_0000_8000_0000;
    const FILE: u64 = TOP | (FILE_BYTES as u64) << 32 | FILE_BYTES as u64;
    let mut stored_tops = 0;
    let mut stored_fits = TOP;
    let mut tops = 0;
    let mut fits = TOP;
    for pair in 0..FILES / 2 {
        let stored = u64::from(sizes[2 * pair]) | u64::from(sizes[2 * pair + 1]) << 32;
        let logical = double_word(state, logical_at(2 * pair));
        let floor = double_word(state, floor_at(2 * pair));
        stored_tops |= stored;
        stored_fits &= FILE.wrapping_sub(stored);
        tops |= logical | floor;
        fits &= FILE.wrapping_sub(logical)
            & (logical | TOP).wrapping_sub(floor)
            & (stored | TOP).wrapping_sub(floor);
    }
    Order {
        stored: stored_tops & TOP == 0 && stored_fits == TOP,
        cached: tops & TOP == 0 && fits == TOP,
    }
}

/// No slot.
const NONE: u8 = 0xff;

/// The slot of each page of each file, at 16 * file + page, or [`NONE`].
pub struct Slots([u8; FILES * PAGES]);

impl Slots {
    /// No page has a slot.
    #[inline(always)]
    pub fn none() -> Slots {
        Slots([NONE; FILES * PAGES])
    }

    /// The slot of a page.
    #[inline(always)]
    pub fn get(&self, file: usize, page: usize) -> Option<usize> {
        let slot = self.0[(PAGES * file + page) % (FILES * PAGES)];
        (slot != NONE).then_some(usize::from(slot) % SLOTS)
    }

    /// Puts the slots of a state down. False where a slot is neither free nor
    /// names a page that there is, or two name the same page.
    #[inline(always)]
    pub fn find(&mut self, state: &[u8; STATE_BYTES]) -> bool {
        let mut wrong = 0;
        let mut first = NONE;
        let mut put = |slot: usize| {
            // The top byte is the next slot's.
            let bits = word(state, slot_at(slot)) & 0xff_ffff;
            if bits != 0 {
                // A used slot has 1 in its low byte, and a file and a page.
                wrong |= (bits ^ 1) & !0x0f_0700;
                let page = ((bits >> 4 | bits >> 16) & 0x7f) as usize;
                first &= self.0[page];
                self.0[page] = slot as u8;
            }
        };
        // Eight slots at a time; those that are all free in three words.
        for group in 0..SLOTS / 8 {
            let [a, b, c] = [0, 8, 16].map(|i| double_word(state, slot_at(8 * group) + i));
            if a | b | c != 0 {
                for slot in [0, 1, 2, 3, 4, 5, 6, 7] {
                    put(8 * group + slot);
                }
            }
        }
        wrong == 0 && first == NONE
    }
}

/// Whether all bytes are 0.
#[inline(always)]
pub fn is_down(state: &[u8; STATE_BYTES]) -> bool {
    state.iter().fold(0, |all, byte| all | byte) == 0
}
