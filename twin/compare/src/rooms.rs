//! A room that is lent: filled with a pattern, and with elements before and behind it that are not lent.

use twin::words::Answer;

/// The elements on each side of a room that are not lent.
const GUARD: usize = 8;

pub(crate) struct Room<T> {
    elements: Vec<T>,
    pattern: T,
    length: usize,
}

impl<T: Copy + PartialEq> Room<T> {
    pub fn new(pattern: T) -> Room<T> {
        Room { elements: vec![pattern; 2 * GUARD], pattern, length: 0 }
    }

    /// The room at this length, filled with the pattern.
    pub fn lend(&mut self, length: usize) -> &mut [T] {
        let all = length + 2 * GUARD;
        if self.elements.len() < all {
            self.elements.resize(all, self.pattern);
        }
        self.elements[..all].fill(self.pattern);
        self.length = length;
        &mut self.elements[GUARD..GUARD + length]
    }

    /// What stands in the room that was lent.
    pub fn lent(&self) -> &[T] {
        &self.elements[GUARD..GUARD + self.length]
    }

    /// Whether nothing but the first elements of the room was written.
    pub fn is_untouched_behind(&self, answered: usize) -> bool {
        let is_pattern = |element: &T| *element == self.pattern;
        let end = self.length + 2 * GUARD;
        self.elements[..GUARD].iter().all(is_pattern)
            && self.elements[GUARD + answered..end].iter().all(is_pattern)
    }

    /// Whether the room begins with the answer and nothing else was written.
    pub fn holds(&self, answer: &[T]) -> bool {
        self.lent().starts_with(answer) && self.is_untouched_behind(answer.len())
    }
}

/// The lengths of the rooms that are lent, in elements.
#[derive(Clone, Copy, Debug, PartialEq, Eq)]
pub struct Lengths {
    pub words: usize,
    pub bytes: usize,
    pub doubles: usize,
}

impl Lengths {
    /// What an answer takes.
    pub fn of(answer: &Answer) -> Lengths {
        Lengths {
            words: answer.words.len(),
            bytes: answer.bytes.len(),
            doubles: answer.double_bits.len(),
        }
    }

    /// So many elements more of each.
    pub fn and(self, more: usize) -> Lengths {
        Lengths { words: self.words + more, bytes: self.bytes + more, doubles: self.doubles + more }
    }
}

/// Bits lent as doubles.
pub(crate) fn as_doubles(bits: &mut [u64]) -> &mut [f64] {
    // Safety: both have the same size and alignment, and every pattern of bits is a value of both.
    unsafe { std::slice::from_raw_parts_mut(bits.as_mut_ptr().cast(), bits.len()) }
}
