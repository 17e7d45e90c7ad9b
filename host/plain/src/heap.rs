//! A binary heap in an array, for the items of as many puts as there can be records.

use crate::native_by_position::MOST_RECORDS;

/// The children of entry i are the entries 2 × i and 2 × i + 1, neither less than it; the first is
/// entry 1.
pub(crate) struct Heap {
    entries: [u64; MOST_RECORDS + 1],
    count: usize,
}

impl Heap {
    pub fn new() -> Heap {
        Heap { entries: [0; MOST_RECORDS + 1], count: 0 }
    }

    pub fn least(&self) -> Option<u64> {
        (self.count != 0).then(|| self.entries[1])
    }

    /// Adds an item: parents that are greater move down, from the first free entry on.
    pub fn push(&mut self, item: u64) {
        self.count += 1;
        let mut hole = self.count;
        while hole > 1 && item < self.entries[hole / 2] {
            self.entries[hole] = self.entries[hole / 2];
            hole /= 2;
        }
        self.entries[hole] = item;
    }

    /// Removes the least item, where there is one. The last entry is to stand elsewhere: lesser
    /// children move up, from the first entry on.
    pub fn remove_least(&mut self) {
        let last = self.entries[self.count];
        self.count -= 1;
        let mut hole = 1;
        while let Some(child) = self.lesser_child(hole).filter(|&child| self.entries[child] < last)
        {
            self.entries[hole] = self.entries[child];
            hole = child;
        }
        self.entries[hole] = last;
    }

    fn lesser_child(&self, entry: usize) -> Option<usize> {
        let [left, right] = [2 * entry, 2 * entry + 1];
        if right <= self.count && self.entries[right] < self.entries[left] {
            Some(right)
        } else {
            (left <= self.count).then_some(left)
        }
    }
}
