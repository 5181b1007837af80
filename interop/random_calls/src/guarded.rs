//! A slice in the middle of a larger buffer.

use std::fmt;
use std::ops::{Deref, DerefMut};

/// Elements of a guard.
const GUARD: usize = 32;

/// What can be guarded.
pub trait Element: Copy + PartialEq {
    /// The value of a guard.
    const VALUE: Self;
}

impl Element for u8 {
    const VALUE: u8 = 0xc3;
}

impl Element for u32 {
    const VALUE: u32 = 0xc3c3_c3c3;
}

/// A slice between two guards, which show a write before or past it.
pub struct Guarded<T> {
    /// The first guard, the slice and the second guard.
    elements: Vec<T>,
}

impl<T: Element> Guarded<T> {
    /// Gives the slice another length; what is added has this value.
    pub fn resize(&mut self, length: usize, value: T) {
        self.elements.truncate(self.elements.len() - GUARD);
        self.elements.resize(GUARD + length, value);
        self.elements.extend([T::VALUE; GUARD]);
    }

    /// Whether both guards are as they were made.
    pub fn is_intact(&self) -> bool {
        let (rest, second) = self.elements.split_at(self.elements.len() - GUARD);
        let guards = [&rest[..GUARD], second];
        guards.iter().all(|&guard| guard == [T::VALUE; GUARD])
    }

    /// Alters an element of a guard, for tests: the last before the slice or the
    /// first past it.
    pub fn spoil(&mut self, past: bool, value: T) {
        let at = if past { GUARD + self.len() } else { GUARD - 1 };
        self.elements[at] = value;
    }
}

impl<T: Element> From<&[T]> for Guarded<T> {
    fn from(slice: &[T]) -> Guarded<T> {
        let guard = [T::VALUE; GUARD];
        Guarded {
            elements: [&guard, slice, &guard].concat(),
        }
    }
}

impl<T: Element> From<Vec<T>> for Guarded<T> {
    fn from(elements: Vec<T>) -> Guarded<T> {
        Guarded::from(&*elements)
    }
}

/// Compares the slices.
impl<T: PartialEq> PartialEq for Guarded<T> {
    fn eq(&self, other: &Guarded<T>) -> bool {
        **self == **other
    }
}

impl<T: Eq> Eq for Guarded<T> {}

impl<T: Clone> Clone for Guarded<T> {
    fn clone(&self) -> Guarded<T> {
        Guarded {
            elements: self.elements.clone(),
        }
    }

    fn clone_from(&mut self, other: &Guarded<T>) {
        self.elements.clone_from(&other.elements);
    }
}

impl<T> Deref for Guarded<T> {
    type Target = [T];

    fn deref(&self) -> &[T] {
        &self.elements[GUARD..self.elements.len() - GUARD]
    }
}

impl<T> DerefMut for Guarded<T> {
    fn deref_mut(&mut self) -> &mut [T] {
        let end = self.elements.len() - GUARD;
        &mut self.elements[GUARD..end]
    }
}

impl<T: fmt::Debug> fmt::Debug for Guarded<T> {
    fn fmt(&self, f: &mut fmt::Formatter<'_>) -> fmt::Result {
        fmt::Debug::fmt(&**self, f)
    }
}

/// Lends a buffer between guards. Answers what the call answers, and whether
/// the guards are as they were made.
pub fn guarded<T: Element, R>(
    buffer: &mut [T],
    call: impl FnOnce(&mut Guarded<T>) -> R,
) -> (R, bool) {
    let mut lent = Guarded::from(&*buffer);
    let answer = call(&mut lent);
    buffer.copy_from_slice(&lent);
    (answer, lent.is_intact())
}

#[cfg(test)]
mod tests {
    use super::*;

    #[test]
    fn a_write_beside_the_slice_shows() {
        for length in [0, 1, 100] {
            let guarded = Guarded::from(vec![7; length]);
            assert_eq!(*guarded, vec![7; length]);
            assert!(guarded.is_intact());
            for past in [false, true] {
                let mut spoilt = guarded.clone();
                spoilt.spoil(past, 0_u8);
                assert_eq!(*spoilt, *guarded);
                assert!(!spoilt.is_intact());
            }
        }
    }

    #[test]
    fn lengths_change() {
        let mut guarded = Guarded::from(&[1_u32, 2, 3][..]);
        guarded.resize(2, 9);
        assert_eq!(*guarded, [1, 2]);
        guarded.resize(4, 9);
        assert_eq!(*guarded, [1, 2, 9, 9]);
        guarded.fill(0);
        assert!(guarded.is_intact());
    }

    #[test]
    fn a_buffer_is_lent_between_guards() {
        let mut buffer = [1, 2, 3];
        let ran = guarded(&mut buffer, |lent| {
            lent[2] = 7;
            lent.len()
        });
        assert_eq!((ran, buffer), ((3, true), [1, 2, 7]));
        for past in [false, true] {
            let ran = guarded(&mut buffer, |lent| lent.spoil(past, 0_u8));
            assert_eq!((ran, buffer), (((), false), [1, 2, 7]));
        }
    }
}
