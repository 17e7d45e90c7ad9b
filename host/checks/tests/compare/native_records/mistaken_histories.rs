//! The records of histories with mistakes that a recorder could make.

use checks::native::{shuffle, RecordWords, ANSWER, BEGIN, KEY, KIND, POSITION, TAG};
use checks::random::Random;
use checks::recorder::positions_by_answer;
use mound::Record;

use super::history::{History, MOST_TURNS};
use super::{check, ALL, REJECTED};
use crate::tally::Outcome::Records;
use crate::tally::Tally;

/// Histories of so many calls at most.
fn histories(random: &mut Random, count: u32, most_calls: u32) -> Vec<History> {
    let mut history = |_| {
        let mut history = History::start(random);
        (0..random.among(0..=most_calls)).for_each(|_| history.go_on(random, MOST_TURNS));
        history
    };
    (0..count).map(&mut history).collect()
}

/// Each two records of histories for which this holds exchange these words, and are rejected. Tells
/// how many there were.
fn rejected_exchanges(
    random: &mut Random,
    words: &[usize],
    are_meant: fn(&RecordWords, &RecordWords) -> bool,
) -> usize {
    let mut rejected = 0;
    for history in histories(random, 200, 150) {
        let records = history.records();
        let pairs = (0..records.len()).flat_map(|one| (0..records.len()).map(move |o| (one, o)));
        for (one, other) in pairs.filter(|&(one, o)| are_meant(&records[one], &records[o])) {
            let mut exchanged = records.clone();
            for &word in words {
                exchanged[one][word] = records[other][word];
                exchanged[other][word] = records[one][word];
            }
            assert_eq!(check(random, &exchanged), REJECTED, "{records:?} {one} {other}");
            rejected += 1;
        }
    }
    println!("{rejected} rejected");
    rejected
}

/// A take and another take, or a put, of another item.
#[test]
fn items_exchanged() {
    let rejected = rejected_exchanges(&mut Random::new(210), &[KEY, TAG], |take, other| {
        take[KIND] == 2 && other[KIND] != 3 && take[KEY..] != other[KEY..]
    });
    assert!(rejected >= 1000);
}

/// Operations that do not overlap.
#[test]
fn positions_exchanged() {
    let rejected = rejected_exchanges(&mut Random::new(211), &[POSITION], |one, other| {
        one[ANSWER] < other[BEGIN]
    });
    assert!(rejected >= 5000);
}

/// Answers in the moment of their beginnings, or earlier.
#[test]
fn answers_before_their_beginnings() {
    let random = &mut Random::new(212);
    let mut rejected = 0;
    for history in histories(random, 200, 150) {
        let mut records = history.records();
        for at in 0..records.len() {
            let record = records[at];
            let [begin, answer] = [record[BEGIN], record[ANSWER]];
            for times in [[begin, begin], [begin, begin - 1], [begin, 0], [answer, begin]] {
                [records[at][BEGIN], records[at][ANSWER]] = times;
                assert_eq!(check(random, &records), REJECTED, "{records:?} {at}");
                rejected += 1;
            }
            records[at] = record;
        }
    }
    println!("{rejected} rejected");
    assert!(rejected >= 4000);
}

/// Checks the records of histories with a mistake that can pass unnoticed, where it makes any
/// difference. Both verdicts come up, each so often at least.
fn accepted_or_rejected(random: &mut Random, mistaken: fn(&History) -> Vec<Record>, least: u32) {
    let mut tally = Tally::default();
    for history in histories(random, 1000, 200) {
        let records = mistaken(&history);
        if records != history.recorder.records() {
            let mut words: Vec<RecordWords> = records.into_iter().map(Record::words).collect();
            shuffle(random, &mut words);
            tally.add(Records(check(random, &words)));
        }
    }
    tally.has_just(&[ALL[0], ALL[2]], least);
}

/// Answers come in another order than deciding accesses.
#[test]
#[cfg_attr(debug_assertions, ignore = "slow without --release")]
fn positions_in_the_order_of_answers() {
    let mistaken = |history: &History| positions_by_answer(history.recorder.records());
    accepted_or_rejected(&mut Random::new(213), mistaken, 50);
}

/// What is not answered may have taken an item all the same.
#[test]
#[cfg_attr(debug_assertions, ignore = "slow without --release")]
fn unanswered_operations_left_out() {
    let mistaken = |history: &History| {
        let mut records = history.recorder.records();
        records.retain(|record| record.answer <= history.recorder.moments());
        for (position, record) in (1..).zip(&mut records) {
            record.position = position;
        }
        records
    };
    accepted_or_rejected(&mut Random::new(214), mistaken, 20);
}
