//! Output buffers that show every stray write.

use crate::rng::Rng;

/// Bytes of a margin.
const MARGIN: usize = 64;

/// A buffer between two margins, all filled with a pattern.
pub struct Guarded<T> {
    items: Vec<T>,
    before: Vec<T>,
    start: usize,
    end: usize,
}

impl Guarded<u8> {
    /// A buffer of bytes. The seed decides the pattern and how the buffer is
    /// aligned.
    pub fn new(len: usize, seed: u64) -> Guarded<u8> {
        let start = MARGIN + (seed % 8) as usize;
        let end = start + len;
        let mut rng = Rng::new(seed);
        let mut items = Vec::with_capacity(end + MARGIN + 8);
        while items.len() < end + MARGIN {
            items.extend_from_slice(&rng.next().to_le_bytes());
        }
        Guarded {
            before: items.clone(),
            items,
            start,
            end,
        }
    }
}

impl<T: Copy> Guarded<T> {
    /// A buffer of items, each made of a number at random.
    fn of_numbers(len: usize, seed: u64, item: fn(u64) -> T) -> Guarded<T> {
        let start = MARGIN / 8;
        let end = start + len;
        let mut rng = Rng::new(seed);
        let items: Vec<T> = (0..end + MARGIN / 8).map(|_| item(rng.next())).collect();
        Guarded {
            before: items.clone(),
            items,
            start,
            end,
        }
    }
}

impl Guarded<u64> {
    /// A buffer of 64-bit numbers.
    pub fn numbers(len: usize, seed: u64) -> Guarded<u64> {
        Guarded::of_numbers(len, seed, |number| number)
    }
}

impl Guarded<usize> {
    /// A buffer of lengths.
    pub fn lengths(len: usize, seed: u64) -> Guarded<usize> {
        Guarded::of_numbers(len, seed, |number| number as usize)
    }
}

impl<T: Copy + PartialEq> Guarded<T> {
    /// The same buffer holding `content`, of its own length.
    pub fn holding(mut self, content: &[T]) -> Guarded<T> {
        self.items[self.start..self.end].copy_from_slice(content);
        self.before[self.start..self.end].copy_from_slice(content);
        self
    }

    /// The buffer without its margins.
    pub fn buffer(&mut self) -> &mut [T] {
        &mut self.items[self.start..self.end]
    }

    /// What it holds now.
    pub fn content(&self) -> &[T] {
        &self.items[self.start..self.end]
    }

    /// Nothing was written, in the buffer or in its margins.
    pub fn is_untouched(&self) -> bool {
        self.items == self.before
    }

    /// The buffer is `expected` and nothing was written in its margins.
    pub fn holds(&self, expected: &[T]) -> bool {
        self.begins(expected) && expected.len() == self.end - self.start
    }

    /// The buffer begins with `expected`, and nothing else was written.
    pub fn begins(&self, expected: &[T]) -> bool {
        let end = self.start + expected.len();
        end <= self.end
            && self.items[self.start..end] == *expected
            && self.items[..self.start] == self.before[..self.start]
            && self.items[end..] == self.before[end..]
    }
}
