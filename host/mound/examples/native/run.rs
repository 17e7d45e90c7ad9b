//! A run: threads that use a queue at once, and the recorder of their operations.

use std::sync::atomic::{AtomicU32, Ordering};
use std::sync::Barrier;
use std::thread;

use mound::{Operation, Record};

use crate::queue::{Item, Queue, Shared};
use crate::random::Random;

/// One counter for all threads: each moment is told once.
#[derive(Default)]
struct Clock(AtomicU32);

impl Clock {
    fn now(&self) -> u32 {
        self.0.fetch_add(1, Ordering::SeqCst)
    }
}

/// What the threads of a run share.
struct Run {
    queue: Shared,
    clock: Clock,
    start: Barrier,
    operations_each: u32,
    /// Of ten operations.
    puts: u32,
    /// Whether no two items are equal.
    items_differ: bool,
}

/// Runs a queue of 2 to 8 threads; gives the records and whether the queue went wrong.
pub fn run(queue: Queue, seed: u64) -> (Vec<Record>, bool) {
    let mut random = Random::new(seed);
    let threads = 2 + random.below(7);
    let most_each = u32::try_from(Record::MOST).expect("a small number") / threads;
    let run = &Run {
        queue: Shared::new(queue),
        clock: Clock::default(),
        start: Barrier::new(threads as usize),
        operations_each: most_each - if random.once_in(2) { 0 } else { random.below(most_each) },
        puts: 4 + random.below(4),
        items_differ: queue == Queue::LatePosition || random.once_in(2),
    };
    let records = thread::scope(|scope| {
        let spawn = |thread| scope.spawn(move || run.work(thread, seed));
        let workers: Vec<_> = (1..=threads).map(spawn).collect();
        workers.into_iter().flat_map(|worker| worker.join().expect("no thread panics")).collect()
    });
    (records, run.queue.went_wrong())
}

impl Run {
    /// The operations of one thread, recorded.
    fn work(&self, thread: u32, seed: u64) -> Vec<Record> {
        let mut random = Random::new(seed << 8 | u64::from(thread));
        let first = self.operations_each * (thread - 1);
        self.start.wait();
        (first..first + self.operations_each)
            .map(|number| {
                let begin = self.clock.now();
                let (operation, position) = self.operate(&mut random, number);
                let answer = self.clock.now();
                Record { operation, thread, begin, answer, position }
            })
            .collect()
    }

    /// One operation, the one of this number in the run, and its position.
    fn operate(&self, random: &mut Random, number: u32) -> (Operation, u32) {
        if random.once_in(8) {
            // Another thread may come first.
            thread::yield_now();
        }
        let wrongly = random.once_in(100);
        if random.below(10) < self.puts {
            let (key, tag) = self.any_item(random, number);
            return (Operation::Put { key, tag }, self.queue.put((key, tag), wrongly));
        }
        let (item, position) = self.queue.take(wrongly);
        let answered = item.map_or(Operation::Empty, |(key, tag)| Operation::Take { key, tag });
        (answered, position)
    }

    fn any_item(&self, random: &mut Random, number: u32) -> Item {
        let tag = if self.items_differ { number } else { random.below(4) };
        (random.below(20), tag)
    }
}
