//! Records of a simulated run on several cores: operations of threads begin, take effect and are
//! answered one event at a time, in any order.

use std::cmp::Reverse;
use std::collections::BinaryHeap;

use mound::{Operation, Record};

use crate::play::Item;
use crate::record::Random;

const THREADS: u32 = 8;

/// A thread's operation that is not answered.
#[derive(Clone, Copy)]
enum Pending {
    Begun { begin: u32 },
    Decided { begin: u32, position: u32, operation: Operation },
}

/// The records of so many operations, those of each thread behind each other. Of the first half
/// three in four are puts, of the second half one in four.
pub fn records(operations: u32) -> Vec<Record> {
    let mut random = Random::new();
    let mut bag = BinaryHeap::new();
    let mut pending = [None; THREADS as usize];
    let mut records = [const { vec![] }; THREADS as usize];
    let (mut begun, mut decided) = (0, 0);
    // Each event is a begin, a decision or an answer.
    let mut time = 0;
    while records.iter().map(Vec::len).sum::<usize>() < operations as usize {
        time += 1;
        let thread = random.next() % THREADS + 1;
        let index = thread as usize - 1;
        pending[index] = match pending[index] {
            None if begun == operations => None,
            None => {
                begun += 1;
                Some(Pending::Begun { begin: time })
            }
            Some(Pending::Begun { begin }) => {
                decided += 1;
                let puts = if 2 * decided <= operations { 3 } else { 1 };
                let operation = decide(&mut random, &mut bag, puts);
                Some(Pending::Decided { begin, position: decided, operation })
            }
            Some(Pending::Decided { begin, position, operation }) => {
                records[index].push(Record { operation, thread, begin, answer: time, position });
                None
            }
        };
    }
    records.concat()
}

/// A put, so many times in four, or a take.
fn decide(random: &mut Random, bag: &mut BinaryHeap<Reverse<Item>>, puts: u32) -> Operation {
    if random.next() % 4 < puts {
        let (key, tag) = random.next_item();
        bag.push(Reverse((key, tag)));
        return Operation::Put { key, tag };
    }
    match bag.pop() {
        Some(Reverse((key, tag))) => Operation::Take { key, tag },
        None => Operation::Empty,
    }
}
