//! Runs of a queue on several cores, simulated: operations of threads begin, take effect and are
//! answered one event at a time, in any order. So each run's records are to be accepted.

use mound::{Operation, Record};

use crate::queue::Item;
use crate::random::Random;

/// The number of each word of a record.
pub const KIND: usize = 0;
pub const THREAD: usize = 1;
pub const BEGIN: usize = 2;
pub const ANSWER: usize = 3;
pub const POSITION: usize = 4;
pub const KEY: usize = 5;
pub const TAG: usize = 6;

/// The words of a record, in range or not.
pub type RecordWords = [u32; 7];

pub fn bytes_of(records: &[RecordWords]) -> Vec<u8> {
    records.iter().flatten().flat_map(|word| word.to_le_bytes()).collect()
}

/// What a thread of a simulated run does.
#[derive(Clone, Copy)]
enum Doing {
    /// Nothing since its last answer, if it had one.
    Nothing { answered: Option<u32> },
    /// An operation that has not taken effect.
    Begun { begin: u32 },
    /// One that is not answered; the answer's time in its record is not the right one.
    Decided(Record),
}

/// A simulated run.
struct Native {
    /// Each thread's number, and what it does.
    threads: Vec<(u32, Doing)>,
    /// The greatest key and tag that are put, and the puts among ten operations.
    greatest: Item,
    puts: u32,
    time: u32,
    bag: Vec<Item>,
    position: u32,
    records: Vec<RecordWords>,
}

/// The records of a run with this many operations, in any order: of few threads or many, with items
/// that are often equal or seldom, with times from 0 on, up to the greatest or anywhere.
pub fn accepted_records(random: &mut Random, operations: usize) -> Vec<RecordWords> {
    let mut native = Native::start(random);
    while native.records.len() < operations {
        let begun = native.position as usize + native.undecided();
        native.go_on(random, begun < operations);
    }
    let room = u32::MAX - native.time;
    let later = random.among_or_extreme(0..=room);
    let mut records = native.records;
    for record in &mut records {
        record[BEGIN] += later;
        record[ANSWER] += later;
    }
    shuffle(random, &mut records);
    records
}

impl Native {
    fn start(random: &mut Random) -> Native {
        let count = random.one_of(&[1, 2, 3, 4, 8, 64]);
        let first = random.among_or_extreme(1..=65 - count);
        let threads = first..first + count;
        let greatest_key = random.one_of(&[0, 1, 5, u32::MAX - 1]);
        let greatest_tag = random.one_of(&[0, 1, 65_535]);
        Native {
            threads: threads.map(|thread| (thread, Doing::Nothing { answered: None })).collect(),
            greatest: (greatest_key, greatest_tag),
            puts: random.among(3..=8),
            time: 0,
            bag: vec![],
            position: 0,
            records: vec![],
        }
    }

    /// The operations that have not taken effect.
    fn undecided(&self) -> usize {
        self.threads.iter().filter(|(_, doing)| matches!(doing, Doing::Begun { .. })).count()
    }

    /// The next event of some thread, which begins an operation only if it may.
    fn go_on(&mut self, random: &mut Random, may_begin: bool) {
        let index = random.index(0..self.threads.len());
        let (thread, doing) = self.threads[index];
        self.threads[index].1 = match doing {
            Doing::Nothing { answered } if may_begin => {
                self.pass_time(random, answered);
                Doing::Begun { begin: self.time }
            }
            Doing::Nothing { answered } => Doing::Nothing { answered },
            Doing::Begun { begin } => {
                self.position += 1;
                let operation = self.decide(random);
                let position = self.position;
                Doing::Decided(Record { operation, thread, begin, answer: begin, position })
            }
            Doing::Decided(record) => {
                self.pass_time(random, Some(record.begin));
                self.records.push(Record { answer: self.time, ..record }.words());
                Doing::Nothing { answered: Some(self.time) }
            }
        };
    }

    /// Goes on in time, or not, as long as it is then later than this.
    fn pass_time(&mut self, random: &mut Random, earlier: Option<u32>) {
        self.time += random.one_of(&[0, 1, 1, 2]);
        if earlier == Some(self.time) {
            self.time += 1;
        }
    }

    fn decide(&mut self, random: &mut Random) -> Operation {
        if random.among(1..=10) <= self.puts {
            let (greatest_key, greatest_tag) = self.greatest;
            let key = random.among_or_extreme(0..=greatest_key);
            let tag = random.among_or_extreme(0..=greatest_tag);
            self.bag.push((key, tag));
            return Operation::Put { key, tag };
        }
        self.bag.sort_unstable_by(|one, other| other.cmp(one));
        match self.bag.pop() {
            Some((key, tag)) => Operation::Take { key, tag },
            None => Operation::Empty,
        }
    }
}

/// Puts them in any order.
pub fn shuffle<T>(random: &mut Random, values: &mut [T]) {
    for end in (2..=values.len()).rev() {
        values.swap(random.index(0..end), end - 1);
    }
}
