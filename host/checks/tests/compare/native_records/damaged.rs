//! Records of simulated runs, damaged: words set to other values or exchanged, records left out,
//! doubled or told otherwise.

use checks::native::{
    accepted_records, RecordWords, ANSWER, BEGIN, KEY, KIND, POSITION, TAG, THREAD,
};
use checks::random::Random;

use super::{check, ALL};
use crate::tally::Outcome::Records;
use crate::tally::Tally;

/// What a word is set to: the ends of the ranges, neighbours of its value, and words of others.
fn values(random: &mut Random, records: &[RecordWords], at: usize, word: usize) -> Vec<u32> {
    let ends = [0, 1, 2, 3, 4, 64, 65, 65_535, 65_536, u32::MAX - 1, u32::MAX];
    let value = records[at][word];
    let neighbours = [value.wrapping_sub(1), value.wrapping_add(1)];
    let other = random.one_of(records);
    let of_others = [other[word], other[BEGIN], other[ANSWER], other[POSITION]];
    [&ends[..], &neighbours, &of_others].concat()
}

#[test]
fn each_word_of_each_record() {
    let random = &mut Random::new(170);
    let mut tally = Tally::default();
    for round in 0..250 {
        let mut records = accepted_records(random, 1 + round % 12);
        for at in 0..records.len() {
            for word in KIND..=TAG {
                let before = records[at][word];
                for value in values(random, &records, at, word) {
                    records[at][word] = value;
                    tally.add(Records(check(random, &records)));
                }
                records[at][word] = before;
            }
        }
    }
    tally.has_just(&ALL, 20_000);
}

/// Words that two records exchange: what is told, when, by whom or where in the order.
const EXCHANGED: [&[usize]; 10] = [
    &[KIND],
    &[THREAD],
    &[BEGIN],
    &[ANSWER],
    &[BEGIN, ANSWER],
    &[POSITION],
    &[KEY],
    &[TAG],
    &[KEY, TAG],
    &[KIND, KEY, TAG],
];

/// Each two records. An empty may come to have an item, which is refused.
#[test]
fn words_exchanged() {
    let random = &mut Random::new(171);
    let mut tally = Tally::default();
    for round in 0..150 {
        let records = accepted_records(random, 2 + round % 9);
        for (one, other) in (0..records.len()).flat_map(|one| (0..one).map(move |o| (one, o))) {
            for words in EXCHANGED {
                let mut exchanged = records.clone();
                for &word in words {
                    exchanged[one][word] = records[other][word];
                    exchanged[other][word] = records[one][word];
                }
                tally.add(Records(check(random, &exchanged)));
            }
        }
    }
    tally.has_just(&ALL, 1500);
}

/// The time of one event becomes that of another, so that they are at one moment, or just before or
/// after it.
#[test]
fn times_moved_to_others() {
    let random = &mut Random::new(172);
    let mut tally = Tally::default();
    for round in 0..250 {
        let records = accepted_records(random, 2 + round % 7);
        let times = records.iter().flat_map(|record| [record[BEGIN], record[ANSWER]]);
        for time in times.flat_map(|time| [time.saturating_sub(1), time, time.saturating_add(1)]) {
            for (at, word) in (0..records.len()).flat_map(|at| [(at, BEGIN), (at, ANSWER)]) {
                let mut moved = records.clone();
                moved[at][word] = time;
                tally.add(Records(check(random, &moved)));
            }
        }
    }
    tally.has_just(&[ALL[0], ALL[2]], 15_000);
}

/// The records without one of them, with the positions behind it moved up or not, and with one of
/// them twice.
#[test]
fn records_left_out_or_doubled() {
    let random = &mut Random::new(173);
    let mut tally = Tally::default();
    for round in 0..300 {
        let records = accepted_records(random, 1 + round % 20);
        for at in 0..records.len() {
            let mut without = records.clone();
            let left_out = without.remove(at);
            tally.add(Records(check(random, &without)));
            for record in &mut without {
                record[POSITION] -= u32::from(record[POSITION] > left_out[POSITION]);
            }
            tally.add(Records(check(random, &without)));
            let mut doubled = records.clone();
            doubled.push(left_out);
            tally.add(Records(check(random, &doubled)));
            doubled[at][POSITION] = doubled.len() as u32;
            tally.add(Records(check(random, &doubled)));
        }
    }
    tally.has_just(&[ALL[0], ALL[2]], 1000);
}

/// Neighbours by position exchange their positions, in runs of every length: where they overlap and
/// the bag allows it, that is accepted.
#[test]
fn neighbours_exchanged() {
    let random = &mut Random::new(174);
    let mut tally = Tally::default();
    for operations in (2..100).chain([250, 500, 1024]) {
        let mut records = accepted_records(random, operations);
        for _ in 0..operations.min(20) {
            let first = random.among(1..=operations as u32 - 1);
            let exchange = |records: &mut [RecordWords]| {
                for position in records.iter_mut().map(|record| &mut record[POSITION]) {
                    if *position == first {
                        *position += 1;
                    } else if *position == first + 1 {
                        *position -= 1;
                    }
                }
            };
            exchange(&mut records);
            tally.add(Records(check(random, &records)));
            exchange(&mut records);
        }
    }
    tally.has_just(&[ALL[0], ALL[2]], 500);
}

/// A few words of long runs set to other values.
#[test]
#[cfg_attr(debug_assertions, ignore = "slow without --release")]
fn long_runs() {
    let random = &mut Random::new(175);
    let mut tally = Tally::default();
    for _ in 0..20 {
        let mut records = accepted_records(random, 1024);
        for _ in 0..50 {
            let at = random.index(0..1024);
            let word = random.index(KIND..TAG + 1);
            let before = records[at][word];
            let values = values(random, &records, at, word);
            records[at][word] = random.one_of(&values);
            tally.add(Records(check(random, &records)));
            records[at][word] = before;
        }
    }
    tally.has_just(&ALL, 50);
}
