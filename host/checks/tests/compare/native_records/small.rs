//! Few records with all values of small ranges, and any records of small ranges.

use checks::native::{shuffle, RecordWords};
use checks::queue::Item;
use checks::random::Random;

use super::{check, put, record, take, Told, ALL, EMPTY};
use crate::tally::Outcome::Records;
use crate::tally::Tally;

/// Two items, which differ by tag alone.
const LESS: Item = (5, 0);
const GREATER: Item = (5, 1);

fn told() -> [Told; 5] {
    [put(LESS), put(GREATER), take(LESS), take(GREATER), EMPTY]
}

/// Each begin with each answer after it, out of four moments.
const TIMES: [[u32; 2]; 6] = [[0, 1], [0, 2], [0, 3], [1, 2], [1, 3], [2, 3]];

#[test]
fn one_record() {
    let random = &mut Random::new(180);
    let mut tally = Tally::default();
    let keys = [0, 1, u32::MAX - 1, u32::MAX];
    let items = || keys.into_iter().flat_map(|key| [0, 1, 65_535, 65_536].map(|tag| (key, tag)));
    let times =
        || [0, 1, u32::MAX].into_iter().flat_map(|one| [0, 1, u32::MAX].map(|two| [one, two]));
    for told in (0..=4).flat_map(|kind| items().map(move |item| (kind, item))) {
        for (thread, position) in [0, 1, 64, 65].into_iter().flat_map(|t| [0, 1, 2].map(|p| (t, p)))
        {
            for times in times() {
                tally.add(Records(check(random, &[record(thread, times, position, told)])));
            }
        }
    }
    // A put of nine items by two threads, or an empty, at three of the nine pairs of times.
    let accepted = (9 + 1) * 2 * 3;
    tally.has_just(&ALL, accepted);
}

/// Records of small ranges, by two threads, some of them with times that are none.
fn records_at(positions: &[u32], times: &[[u32; 2]]) -> Vec<RecordWords> {
    let mut records = vec![];
    for (&position, &times) in positions.iter().flat_map(|p| times.iter().map(move |t| (p, t))) {
        for thread in [1, 2] {
            records.extend(told().map(|told| record(thread, times, position, told)));
        }
    }
    records
}

#[test]
fn each_two_records() {
    let random = &mut Random::new(181);
    let mut tally = Tally::default();
    let times = [&TIMES[..], &[[1, 1], [2, 1]]].concat();
    let all = records_at(&[0, 1, 2, 3], &times);
    for &one in &all {
        for &other in &all {
            tally.add(Records(check(random, &[one, other])));
        }
    }
    tally.has_just(&[ALL[0], ALL[2]], 1000);
}

/// Each three records with the positions 1, 2 and 3, in any order.
#[test]
#[cfg_attr(debug_assertions, ignore = "slow without --release")]
fn each_three_records() {
    let random = &mut Random::new(182);
    let mut tally = Tally::default();
    let [first, second, third] = [1, 2, 3].map(|position| records_at(&[position], &TIMES));
    for &one in &first {
        for &two in &second {
            for &three in &third {
                let mut records = [one, two, three];
                shuffle(random, &mut records);
                tally.add(Records(check(random, &records)));
            }
        }
    }
    tally.has_just(&[ALL[0], ALL[2]], 800);
}

/// A record that often fits those before it by position: its answer is the bag's, and its times
/// grow with the position.
fn likely_record(random: &mut Random, position: u32, bag: &mut Vec<Item>) -> RecordWords {
    let item = (random.among(0..=1), random.among(0..=1));
    let told = match random.among(0..=19) {
        0 => take(item),
        1 => EMPTY,
        2..=10 => {
            bag.push(item);
            put(item)
        }
        _ => {
            bag.sort_unstable_by(|one, other| other.cmp(one));
            bag.pop().map_or(EMPTY, take)
        }
    };
    let begin = 2 * position + random.among(0..=2);
    let answer = begin + random.one_of(&[0, 1, 1, 1, 2, 2, 3, 4]);
    let position = match random.among(0..=29) {
        0 => random.among(0..=7),
        _ => position,
    };
    let thread = match random.among(0..=59) {
        0 => random.one_of(&[0, 65]),
        _ => random.among(1..=4),
    };
    record(thread, [begin, answer], position, told)
}

#[test]
fn any_small_records() {
    let random = &mut Random::new(183);
    let mut tally = Tally::default();
    for round in 0..200_000 {
        let mut bag = vec![];
        let mut records: Vec<RecordWords> =
            (1..=round % 7).map(|position| likely_record(random, position, &mut bag)).collect();
        shuffle(random, &mut records);
        tally.add(Records(check(random, &records)));
    }
    tally.has_just(&ALL, 5000);
}

/// Each word any of its small range.
#[test]
fn records_without_any_order() {
    let random = &mut Random::new(184);
    let mut tally = Tally::default();
    for round in 0..200_000 {
        let any_record = |_| [3, 3, 3, 4, 3, 0, 1].map(|greatest| random.among(0..=greatest));
        let records: Vec<RecordWords> = (0..=round % 3).map(any_record).collect();
        tally.add(Records(check(random, &records)));
    }
    tally.has_just(&ALL, 500);
}
