//! The check of records, change request 9, sentence by sentence: each pair of records is compared,
//! and the bag is a list that is searched. It is as slow as that.

use mound::{Operation, Record, Refusal, Verdict};

use crate::fields::{GREATEST_KEY, GREATEST_TAG};
use crate::words::word;

const MOST_RECORDS: usize = 1024;
const RECORD_BYTES: usize = 28;

/// Checks the records of a queue that runs on several cores.
///
/// # Errors
///
/// [`Refusal::Records`] for a part of a record, for more than 1,024 of them, and for a kind, a
/// thread, a key or a tag out of its range.
pub fn check_records(bytes: &[u8]) -> Result<Verdict, Refusal> {
    let records = read(bytes)?;
    let rules = [
        each_begins_before_its_answer,
        no_thread_has_two_at_once,
        positions_are_1_to_n,
        answered_first_has_the_smaller_position,
        the_bag_gives_every_answer,
    ];
    if rules.iter().all(|rule| rule(&records)) {
        Ok(Verdict::Accepted)
    } else {
        Ok(Verdict::Rejected)
    }
}

fn read(bytes: &[u8]) -> Result<Vec<Record>, Refusal> {
    if bytes.len() > MOST_RECORDS * RECORD_BYTES {
        return Err(Refusal::Records);
    }
    bytes.chunks(RECORD_BYTES).map(|record| read_one(record).ok_or(Refusal::Records)).collect()
}

/// A record that is whole and in range.
fn read_one(bytes: &[u8]) -> Option<Record> {
    if bytes.len() != RECORD_BYTES {
        return None;
    }
    let [kind, thread, begin, answer, position, key, tag] =
        [0, 1, 2, 3, 4, 5, 6].map(|index| word(bytes, index));
    if thread == 0 || thread > 64 || key > GREATEST_KEY || tag > GREATEST_TAG {
        return None;
    }
    let operation = match kind {
        1 => Operation::Put { key, tag },
        2 => Operation::Take { key, tag },
        3 if key == 0 && tag == 0 => Operation::Empty,
        _ => return None,
    };
    Some(Record { operation, thread, begin, answer, position })
}

fn each_begins_before_its_answer(records: &[Record]) -> bool {
    records.iter().all(|record| record.begin < record.answer)
}

fn no_thread_has_two_at_once(records: &[Record]) -> bool {
    of_all_pairs(records, |one, other| {
        one.thread != other.thread || one.answer < other.begin || other.answer < one.begin
    })
}

fn positions_are_1_to_n(records: &[Record]) -> bool {
    let has_one = |position| records.iter().filter(|record| record.position == position).count();
    (1..).take(records.len()).all(|position| has_one(position) == 1)
}

fn answered_first_has_the_smaller_position(records: &[Record]) -> bool {
    of_all_pairs(records, |one, other| one.answer >= other.begin || one.position < other.position)
}

/// Whether it holds of each two different records, in either order.
fn of_all_pairs(records: &[Record], holds: impl Fn(&Record, &Record) -> bool) -> bool {
    let holds_of_others = |at: usize| {
        let (before, after) = (&records[..at], &records[at + 1..]);
        before.iter().chain(after).all(|other| holds(&records[at], other))
    };
    (0..records.len()).all(holds_of_others)
}

/// The records have the positions 1 to n.
fn the_bag_gives_every_answer(records: &[Record]) -> bool {
    let mut bag = vec![];
    let mut gives_answer_at = |position| {
        let record = records.iter().find(|record| record.position == position);
        match record.expect("each position is there").operation {
            Operation::Put { key, tag } => {
                bag.push((key, tag));
                true
            }
            Operation::Take { key, tag } => {
                let is_least = bag.iter().min() == Some(&(key, tag));
                if let Some(at) = bag.iter().position(|&item| item == (key, tag)) {
                    bag.swap_remove(at);
                }
                is_least
            }
            Operation::Empty => bag.is_empty(),
        }
    };
    (1..).take(records.len()).all(&mut gives_answer_at)
}
