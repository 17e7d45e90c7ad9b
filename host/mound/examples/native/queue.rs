//! A queue behind one lock, and three ways in which it may go wrong. It tells whether it did.

use std::cmp::Reverse;
use std::collections::BinaryHeap;
use std::fmt;
use std::mem;
use std::sync::{Mutex, MutexGuard};
use std::thread;

/// A key with a tag.
pub type Item = (u32, u32);

/// What a queue does where it is asked to go wrong.
#[derive(Clone, Copy, PartialEq, Eq, Debug)]
pub enum Queue {
    /// Nothing else than a right queue.
    Right,
    /// A take gives the second item.
    SecondItem,
    /// A take gives the item of the take before it once more.
    SameItem,
    /// A put takes its position when it has left the lock, so that a take of its item may have
    /// taken one before.
    LatePosition,
}

impl Queue {
    pub const ALL: [Queue; 4] =
        [Queue::Right, Queue::SecondItem, Queue::SameItem, Queue::LatePosition];
}

impl fmt::Display for Queue {
    fn fmt(&self, f: &mut fmt::Formatter<'_>) -> fmt::Result {
        f.pad(match self {
            Queue::Right => "right",
            Queue::SecondItem => "gives another item than the least",
            Queue::SameItem => "gives an item twice",
            Queue::LatePosition => "lets a put take its position after the lock",
        })
    }
}

/// What the lock guards.
#[derive(Default)]
struct Inside {
    heap: BinaryHeap<Reverse<Item>>,
    /// The positions taken so far.
    positions: u32,
    last_given: Option<Item>,
    went_wrong: bool,
}

/// A queue that threads share.
pub struct Shared {
    queue: Queue,
    inside: Mutex<Inside>,
}

impl Shared {
    pub fn new(queue: Queue) -> Shared {
        Shared { queue, inside: Mutex::default() }
    }

    /// Puts an item and answers the put's position. Where positions come late, no two items may be
    /// equal.
    pub fn put(&self, item: Item, wrongly: bool) -> u32 {
        let mut inside = self.lock();
        inside.heap.push(Reverse(item));
        if wrongly && self.queue == Queue::LatePosition {
            drop(inside);
            thread::yield_now();
            inside = self.lock();
            inside.went_wrong |= !inside.heap.iter().any(|&Reverse(other)| other == item);
        }
        inside.next_position()
    }

    /// Takes an item, if there is one, and answers the take's position too.
    pub fn take(&self, wrongly: bool) -> (Option<Item>, u32) {
        let mut inside = self.lock();
        let item = match self.queue {
            Queue::SecondItem if wrongly => inside.take_second(),
            Queue::SameItem if wrongly => inside.give_again(),
            _ => inside.take_least(),
        };
        (item, inside.next_position())
    }

    pub fn went_wrong(&self) -> bool {
        self.lock().went_wrong
    }

    fn lock(&self) -> MutexGuard<'_, Inside> {
        self.inside.lock().expect("no thread panics")
    }
}

impl Inside {
    fn next_position(&mut self) -> u32 {
        self.positions += 1;
        self.positions
    }

    fn take_least(&mut self) -> Option<Item> {
        let Reverse(item) = self.heap.pop()?;
        self.last_given = Some(item);
        Some(item)
    }

    /// The second item, where there is one that differs from the least.
    fn take_second(&mut self) -> Option<Item> {
        let mut given = self.take_least()?;
        if let Some(mut second) = self.heap.peek_mut().filter(|second| second.0 != given) {
            mem::swap(&mut given, &mut second.0);
            drop(second);
            self.went_wrong = true;
        }
        Some(given)
    }

    /// The item of the take before, where that is not the least again.
    fn give_again(&mut self) -> Option<Item> {
        let again = self.last_given.filter(|&item| self.heap.peek() != Some(&Reverse(item)));
        self.went_wrong |= again.is_some();
        again.or_else(|| self.take_least())
    }
}
