//! A recorder beside a queue: it is told every moment of a history and writes the records that
//! request 9's check is to accept, one for each deciding access.

use std::collections::BTreeMap;
use std::hash::{Hash, Hasher};

use mound::{Answer, Operation, Record};

use crate::fields::place;
use crate::queue::{Call, Item, Queue};

/// A history without lists, up to now. Each call and each served turn is a moment, numbered from 1;
/// the turns that a run serves come before the run itself.
#[derive(Clone, Default)]
pub struct Recorder {
    moments: u32,
    /// Each thread's last beginning.
    begun: BTreeMap<u32, Beginning>,
    /// In the order of the deciding accesses.
    decided: Vec<Decided>,
}

/// A beginning: the moment's number, and the item of a put.
#[derive(Clone, Copy)]
struct Beginning {
    moment: u32,
    item: Item,
}

/// An operation that has decided; it may not be answered yet.
#[derive(Clone, Copy)]
struct Decided {
    operation: Operation,
    thread: u32,
    begin: u32,
    answer: Option<u32>,
}

impl Recorder {
    /// A history in which thread 1 has put these items, one after the other.
    pub fn of_puts(items: &[Item]) -> Recorder {
        let mut recorder = Recorder::default();
        for &(key, tag) in items {
            recorder.called(1, Call::Put((key, tag)), true);
            recorder.moments += 1;
            recorder.decide(1, Operation::Put { key, tag });
            recorder.answer(1);
        }
        recorder
    }

    /// A call that begins an operation, or is refused.
    pub fn called(&mut self, thread: u32, call: Call, begins: bool) {
        self.moments += 1;
        let item = match call {
            Call::Put(item) => item,
            Call::Take => (0, 0),
            Call::List => panic!("no record tells of a list"),
        };
        if begins {
            self.begun.insert(thread, Beginning { moment: self.moments, item });
        }
    }

    /// A call that begins nothing, refused or not: a permit, a check, a refused layout, or a run
    /// once its turns have been told.
    pub fn called_otherwise(&mut self) {
        self.moments += 1;
    }

    /// A served turn, with its answer and the queue before and after it.
    pub fn turned(&mut self, thread: u32, answer: Answer, (before, after): (&Queue, &Queue)) {
        self.moments += 1;
        let decided = match answer {
            Answer::Inserted if [place::I6, place::I8].contains(&before.place(thread)) => {
                let (key, tag) = self.begun[&thread].item;
                Some(Operation::Put { key, tag })
            }
            Answer::Moved if [before, after].map(|q| q.place(thread)) == [place::E2, place::M1] => {
                let (key, tag) = before.value_of(1).expect("an E2 removes an item");
                Some(Operation::Take { key, tag })
            }
            Answer::Empty if before.place(thread) == place::E1 => Some(Operation::Empty),
            _ => None,
        };
        if let Some(operation) = decided {
            self.decide(thread, operation);
        }
        if matches!(answer, Answer::Inserted | Answer::Took { .. } | Answer::Empty) {
            self.answer(thread);
        }
    }

    fn decide(&mut self, thread: u32, operation: Operation) {
        let begin = self.begun[&thread].moment;
        self.decided.push(Decided { operation, thread, begin, answer: None });
    }

    fn answer(&mut self, thread: u32) {
        for decided in self.decided.iter_mut().filter(|decided| decided.thread == thread) {
            decided.answer.get_or_insert(self.moments);
        }
    }

    /// How many moments there were.
    pub fn moments(&self) -> u32 {
        self.moments
    }

    /// How many operations have decided and are not answered.
    pub fn unanswered(&self) -> usize {
        self.decided.iter().filter(|decided| decided.answer.is_none()).count()
    }

    /// The records, by position. What is not answered counts as answered after the last moment.
    pub fn records(&self) -> Vec<Record> {
        let record = |(position, decided): (u32, &Decided)| {
            let Decided { operation, thread, begin, answer } = *decided;
            let answer = answer.unwrap_or(self.moments + 1);
            Record { operation, thread, begin, answer, position }
        };
        (1..).zip(&self.decided).map(record).collect()
    }
}

/// The same records with positions by the order of their answers. That is a mistake.
pub fn positions_by_answer(mut records: Vec<Record>) -> Vec<Record> {
    records.sort_by_key(|record| record.answer);
    for (position, record) in (1..).zip(&mut records) {
        record.position = position;
    }
    records
}

/// The order of what has happened, and not how many moments were between. No rule of the check can
/// tell two histories apart that have the same order.
impl Hash for Recorder {
    fn hash<H: Hasher>(&self, state: &mut H) {
        let begins = self.begun.values().map(|beginning| beginning.moment);
        let of_decided = self.decided.iter().flat_map(|d| [Some(d.begin), d.answer]).flatten();
        let mut moments: Vec<u32> = begins.chain(of_decided).collect();
        moments.sort_unstable();
        moments.dedup();
        let rank = |moment: u32| moments.binary_search(&moment).ok();
        self.begun.len().hash(state);
        for (thread, &Beginning { moment, item }) in &self.begun {
            (thread, rank(moment), item).hash(state);
        }
        for &Decided { operation, thread, begin, answer } in &self.decided {
            (operation, thread, rank(begin), answer.and_then(rank)).hash(state);
        }
    }
}
