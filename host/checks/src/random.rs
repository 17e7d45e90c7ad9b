//! Random choices that are the same in each run: the generator splitmix64 and what the tests draw.

use std::ops::{Range, RangeInclusive};

use mound::Shape;

pub struct Random {
    state: u64,
}

impl Random {
    pub fn new(seed: u64) -> Random {
        Random { state: seed }
    }

    fn next(&mut self) -> u64 {
        self.state = self.state.wrapping_add(0x9e37_79b9_7f4a_7c15);
        let mixed = (self.state ^ (self.state >> 30)).wrapping_mul(0xbf58_476d_1ce4_e5b9);
        let mixed = (mixed ^ (mixed >> 27)).wrapping_mul(0x94d0_49bb_1331_11eb);
        mixed ^ (mixed >> 31)
    }

    /// Any number of the range.
    pub fn among(&mut self, range: RangeInclusive<u32>) -> u32 {
        let size = u64::from(range.end() - range.start()) + 1;
        let above = u32::try_from(self.next() % size).expect("less than the size");
        range.start() + above
    }

    /// The same of wide numbers.
    pub fn wide_among(&mut self, range: RangeInclusive<u64>) -> u64 {
        range.start() + self.next() % (range.end() - range.start() + 1)
    }

    /// Any number of the range, its ends and their neighbours as often as all others together.
    pub fn among_or_extreme(&mut self, range: RangeInclusive<u32>) -> u32 {
        let (least, greatest) = (*range.start(), *range.end());
        match self.among(0..=7) {
            0 => least,
            1 => greatest,
            2 => greatest.min(least.saturating_add(1)),
            3 => least.max(greatest.saturating_sub(1)),
            _ => self.among(range),
        }
    }

    /// Any of these indices.
    pub fn index(&mut self, indices: Range<usize>) -> usize {
        let [start, end] = [indices.start, indices.end].map(|at| u32::try_from(at).expect("small"));
        self.among(start..=end - 1) as usize
    }

    /// One of the values.
    pub fn one_of<T: Copy>(&mut self, values: &[T]) -> T {
        values[self.index(0..values.len())]
    }

    pub fn bytes(&mut self, length: usize) -> Vec<u8> {
        let mut bytes: Vec<u8> =
            (0..length.div_ceil(8)).flat_map(|_| self.next().to_le_bytes()).collect();
        bytes.truncate(length);
        bytes
    }

    /// A permission for each thread of the shape.
    pub fn permissions(&mut self, shape: Shape) -> Vec<u8> {
        (0..shape.threads).map(|_| self.one_of(&[0, 1, 2, 3])).collect()
    }

    /// The same, most of them both permissions.
    pub fn generous_permissions(&mut self, shape: Shape) -> Vec<u8> {
        (0..shape.threads).map(|_| self.one_of(&[0, 1, 2, 3, 3, 3, 3, 3])).collect()
    }

    /// A shape in range, at most so deep.
    pub fn shape(&mut self, greatest_depth: u32) -> Shape {
        let depth = self.among(1..=greatest_depth);
        Shape {
            depth,
            cells: self.among_or_extreme(1..=1 << (depth - 1)),
            threads: self.among_or_extreme(1..=64),
            threshold: self.among_or_extreme(1..=16),
        }
    }

    /// A shape whose operations meet often: at most seven levels, few tries, this many threads.
    pub fn crowded_shape(&mut self, threads: RangeInclusive<u32>) -> Shape {
        let depth = self.among(1..=7);
        Shape {
            depth,
            cells: self.among_or_extreme(1..=1 << (depth - 1)),
            threads: self.among(threads),
            threshold: self.among(1..=4),
        }
    }
}
