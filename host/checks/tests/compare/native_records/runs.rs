//! Records of simulated runs, all of which are accepted, and of runs whose bag grows large.

use checks::native::{accepted_records, shuffle, RecordWords, ANSWER, BEGIN, KIND};
use checks::queue::Item;
use checks::random::Random;

use super::{check, put, record, take, ACCEPTED, EMPTY, REJECTED};

#[test]
fn simulated_runs() {
    let random = &mut Random::new(160);
    let mut of_kinds = [0; 4];
    let mut inside_others = 0;
    for round in 0..2000 {
        let records = accepted_records(random, round % 60);
        assert_eq!(check(random, &records), ACCEPTED, "{records:?}");
        for record in &records {
            of_kinds[record[KIND] as usize] += 1;
        }
        let pairs = records.iter().flat_map(|one| records.iter().map(move |other| (one, other)));
        let is_inside = |(one, other): &(&RecordWords, &RecordWords)| {
            one[BEGIN] > other[BEGIN] && one[ANSWER] < other[ANSWER]
        };
        inside_others += pairs.filter(is_inside).count();
    }
    assert!(of_kinds[1..].iter().all(|&count| count >= 4000), "{of_kinds:?}");
    assert!(inside_others >= 50_000, "{inside_others}");
}

#[test]
fn simulated_runs_of_the_most_operations() {
    let random = &mut Random::new(161);
    for operations in [1000, 1023].into_iter().chain([1024; 18]) {
        let records = accepted_records(random, operations);
        assert_eq!(check(random, &records), ACCEPTED);
    }
}

/// Items for one order of puts after the other: rising, falling, all equal, and any.
fn items(random: &mut Random, count: u32) -> [Vec<Item>; 5] {
    let rising: Vec<Item> = (0..count).map(|n| (n / 3, n % 3)).collect();
    let mut any = |greatest_key, greatest_tag| {
        (0..count)
            .map(|_| (random.among(0..=greatest_key), random.among(0..=greatest_tag)))
            .collect()
    };
    [
        rising.iter().rev().copied().collect(),
        rising,
        vec![(7, 7); count as usize],
        any(20, 3),
        any(u32::MAX - 1, 65_535),
    ]
}

/// Puts of these items, one after the other, takes of these, and an empty.
fn puts_and_takes(puts: &[Item], takes: &[Item]) -> Vec<RecordWords> {
    let told = puts.iter().map(|&item| put(item)).chain(takes.iter().map(|&item| take(item)));
    let told = told.chain([EMPTY]);
    (1..).zip(told).map(|(at, told)| record(1, [2 * at, 2 * at + 1], at, told)).collect()
}

/// All items leave in their order. Two takes that follow each other, exchanged, are rejected unless
/// their items are equal.
#[test]
fn all_puts_before_all_takes() {
    let random = &mut Random::new(162);
    for count in [1, 2, 3, 7, 8, 100, 511] {
        for puts in items(random, count) {
            let mut takes = puts.clone();
            takes.sort_unstable();
            let mut records = puts_and_takes(&puts, &takes);
            shuffle(random, &mut records);
            assert_eq!(check(random, &records), ACCEPTED, "{count}");
            for _ in 0..takes.len().min(6) - 1 {
                let at = random.index(1..takes.len());
                let mut exchanged = takes.clone();
                exchanged.swap(at - 1, at);
                let due = if exchanged == takes { ACCEPTED } else { REJECTED };
                assert_eq!(check(random, &puts_and_takes(&puts, &exchanged)), due, "{count} {at}");
            }
        }
    }
}
