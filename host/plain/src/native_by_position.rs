//! The check of records once more, change request 9, fast, as the library does it: the records are
//! put in the order of their positions, and each is compared with what came before it.

use mound::{Refusal, Verdict};

use crate::fields::{GREATEST_KEY, GREATEST_TAG};
use crate::heap::Heap;
use crate::words::Word;

pub(crate) const MOST_RECORDS: usize = 1024;
const GREATEST_THREAD: u32 = 64;

const PUT: u32 = 1;
const TAKE: u32 = 2;
const EMPTY: u32 = 3;

/// A record as its bytes lie in a slice: kind, thread, begin, answer, position, key, tag.
type RecordWords = [Word; 7];

/// By position, less 1, the number of the record that claims it, counted from 1; 0 for none.
type Order = [u32; MOST_RECORDS];

/// Checks the records of a queue that runs on several cores, as [`check_records`] does.
///
/// # Errors
///
/// Those of [`check_records`].
///
/// [`check_records`]: crate::check_records
pub fn check_records_by_position(bytes: &[u8]) -> Result<Verdict, Refusal> {
    let (words, part_of_word) = bytes.as_chunks();
    let (records, part_of_record) = words.as_chunks();
    let is_whole = part_of_word.is_empty() && part_of_record.is_empty();
    if !is_whole || records.len() > MOST_RECORDS || !records.iter().all(in_range) {
        return Err(Refusal::Records);
    }
    let mut order = [0; MOST_RECORDS];
    if fill(&mut order, records) && times_fit(&order, records) && answers_fit(&order, records) {
        Ok(Verdict::Accepted)
    } else {
        Ok(Verdict::Rejected)
    }
}

fn in_range(record: &RecordWords) -> bool {
    let [kind, thread, _begin, _answer, _position, key, tag] = record.map(u32::from_le_bytes);
    let item_in_range = match kind {
        PUT | TAKE => key <= GREATEST_KEY && tag <= GREATEST_TAG,
        EMPTY => key == 0 && tag == 0,
        _ => false,
    };
    item_in_range && (1..=GREATEST_THREAD).contains(&thread)
}

/// Fills the order. Tells whether each record begins before its answer and the positions are 1 to
/// n: none is outside or there twice, so none lacks.
fn fill(order: &mut Order, records: &[RecordWords]) -> bool {
    let order = &mut order[..records.len()];
    for (number, record) in (1..).zip(records) {
        let [_kind, _thread, begin, answer, position, _key, _tag] = record.map(u32::from_le_bytes);
        let Some(claimed) = order.get_mut((position as usize).wrapping_sub(1)) else {
            return false;
        };
        if begin >= answer || *claimed != 0 {
            return false;
        }
        *claimed = number;
    }
    true
}

/// The records by position, of an order that is filled.
fn by_position<'a>(
    order: &'a Order,
    records: &'a [RecordWords],
) -> impl Iterator<Item = [u32; 7]> + 'a {
    let record = |&number: &u32| records[number as usize - 1].map(u32::from_le_bytes);
    order[..records.len()].iter().map(record)
}

/// Whether no record is answered before one of a smaller position begins, and each begins after the
/// one that its thread had before it by position was answered. Of two records of a thread it is
/// then the one of the smaller position that is answered before the other begins.
fn times_fit(order: &Order, records: &[RecordWords]) -> bool {
    let mut greatest_begin = 0;
    // By thread; 0 is no answer's time.
    let mut last_answers = [0; GREATEST_THREAD as usize + 1];
    for [_kind, thread, begin, answer, ..] in by_position(order, records) {
        let last_answer = &mut last_answers[thread as usize];
        if answer < greatest_begin || (*last_answer != 0 && begin <= *last_answer) {
            return false;
        }
        greatest_begin = greatest_begin.max(begin);
        *last_answer = answer;
    }
    true
}

/// Whether the bag, played by position, gives every answer.
fn answers_fit(order: &Order, records: &[RecordWords]) -> bool {
    let mut bag = Heap::new();
    for [kind, _thread, _begin, _answer, _position, key, tag] in by_position(order, records) {
        let item = u64::from(key) << 16 | u64::from(tag);
        match kind {
            PUT => bag.push(item),
            TAKE if bag.least() == Some(item) => bag.remove_least(),
            EMPTY if bag.least().is_none() => {}
            _ => return false,
        }
    }
    true
}
