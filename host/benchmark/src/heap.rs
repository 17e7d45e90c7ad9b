//! A queue behind one lock, for orientation: std's heap in std's mutex.

use std::cmp::Reverse;
use std::collections::BinaryHeap;
use std::hint::black_box;
use std::sync::Mutex;
use std::time::Instant;

use crate::measure::{median, nanoseconds_since, ROUNDS};
use crate::play::Item;
use crate::record::Random;
use crate::work::PAIRS;

/// Nanoseconds of a push and a pop in a heap that holds this many random items.
pub fn pair(items: u32) -> f64 {
    let mut random = Random::new();
    let held: BinaryHeap<Reverse<Item>> = (0..items).map(|_| Reverse(random.next_item())).collect();
    let pushed: Vec<Item> = (0..PAIRS).map(|_| random.next_item()).collect();
    let round = |_| {
        let heap = Mutex::new(held.clone());
        let start = Instant::now();
        for &item in &pushed {
            heap.lock().expect("no one has panicked").push(Reverse(item));
            black_box(heap.lock().expect("no one has panicked").pop());
        }
        nanoseconds_since(start) / f64::from(PAIRS)
    };
    median((0..ROUNDS).map(round).collect())
}
