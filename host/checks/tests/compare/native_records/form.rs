//! What is refused: parts of records, too many of them, and words out of their ranges; wherever they
//! are, and whatever a comparison would say.

use checks::native::{
    accepted_records, bytes_of, RecordWords, ANSWER, BEGIN, KEY, KIND, POSITION, TAG, THREAD,
};
use checks::random::Random;

use super::{check, put, record, ACCEPTED, REFUSED, REJECTED};
use crate::both;

/// The records of a simulated run by position, so that the first of them are a run too.
fn by_position(random: &mut Random, operations: usize) -> Vec<RecordWords> {
    let mut records = accepted_records(random, operations);
    records.sort_unstable_by_key(|record| record[POSITION]);
    records
}

#[test]
fn each_length() {
    let random = &mut Random::new(190);
    for _ in 0..20 {
        let bytes = bytes_of(&by_position(random, 6));
        for length in 0..=bytes.len() {
            let due = if length % 28 == 0 { ACCEPTED } else { REFUSED };
            assert_eq!(both::check_records(random, &bytes[..length]), due, "{length} bytes");
        }
    }
}

/// The most records are accepted, and a byte or a record more is refused.
#[test]
fn lengths_about_1024_records() {
    let random = &mut Random::new(191);
    let mut bytes = bytes_of(&by_position(random, 1024));
    assert_eq!(bytes.len(), 28_672);
    bytes.extend(bytes_of(&[record(1, [1, 2], 1025, put((5, 0)))]));
    for length in 28_672 - 29..=bytes.len() {
        let due = if [28_644, 28_672].contains(&length) { ACCEPTED } else { REFUSED };
        assert_eq!(both::check_records(random, &bytes[..length]), due, "{length} bytes");
    }
}

/// Numbers of records whose last bits are those of a small number.
#[test]
fn far_too_many_records() {
    let random = &mut Random::new(192);
    let bytes = bytes_of(&by_position(random, 1024));
    for count in [1025, 1026, 2048, 4096, 65_536, 65_537, 65_536 + 1024] {
        let many = bytes.repeat(usize::div_ceil(count, 1024));
        assert_eq!(both::check_records(random, &many[..28 * count]), REFUSED, "{count} records");
    }
}

/// Values out of the range of a word, by little and by much; the last bits of some are in range.
const BAD: [(usize, &[u32]); 4] = [
    (KIND, &[0, 4, 5, 255, 257, 65_537, (1 << 31) + 1, u32::MAX]),
    (THREAD, &[0, 65, 66, 128, 257, 65_536, 65_537, (1 << 31) + 1, u32::MAX]),
    (KEY, &[u32::MAX]),
    (TAG, &[65_536, 65_537, 131_071, 1 << 31, u32::MAX]),
];

/// What an empty may not have, though a put may.
const BAD_OF_EMPTY: [(usize, &[u32]); 2] =
    [(KEY, &[1, 255, 65_536, u32::MAX - 1]), (TAG, &[1, 256, 65_535])];

/// Records that a comparison rejects, each for a reason of its own.
fn rejected(random: &mut Random, operations: usize) -> [Vec<RecordWords>; 4] {
    let mut records = || by_position(random, operations);
    let [mut answered_early, mut positions, mut thread, mut kind] =
        std::array::from_fn(|_| records());
    answered_early[0][ANSWER] = answered_early[0][BEGIN];
    positions[0][POSITION] = operations as u32 + 1;
    // A second operation of the thread at the same time.
    thread[1] = thread[0];
    thread[1][POSITION] = 2;
    // Nothing is there to be taken.
    kind[0][KIND] = 2;
    [answered_early, positions, thread, kind]
}

/// Each bad value at each record of runs that are accepted, or would be rejected.
#[test]
fn each_word_out_of_its_range() {
    let random = &mut Random::new(193);
    let mut refused = 0;
    for operations in (2..12).chain([100]) {
        let accepted = by_position(random, operations);
        assert_eq!(check(random, &accepted), ACCEPTED);
        let rejected = rejected(random, operations);
        for records in &rejected {
            assert_eq!(check(random, records), REJECTED);
        }
        for records in rejected.iter().chain([&accepted]) {
            for at in 0..operations {
                refused += refused_at(random, &mut records.clone(), at);
            }
        }
    }
    assert!(refused >= 15_000, "only {refused} were refused");
}

/// Sets each word of that record to each of its bad values; tells how many there were.
fn refused_at(random: &mut Random, records: &mut [RecordWords], at: usize) -> u32 {
    let of_empty = if records[at][KIND] == 3 { &BAD_OF_EMPTY[..] } else { &[] };
    let mut refused = 0;
    for &(word, values) in BAD.iter().chain(of_empty) {
        let before = records[at][word];
        for &value in values {
            records[at][word] = value;
            assert_eq!(check(random, records), REFUSED, "word {word} of {:?}", records[at]);
            refused += 1;
        }
        records[at][word] = before;
    }
    refused
}

/// Times and positions are free: at any value they may be rejected, but not refused.
#[test]
fn times_and_positions_are_never_refused() {
    let random = &mut Random::new(194);
    for _ in 0..5000 {
        let operations = random.index(1..8);
        let mut records = accepted_records(random, operations);
        for record in &mut records {
            let word = random.one_of(&[BEGIN, ANSWER, POSITION]);
            record[word] = random.among_or_extreme(0..=u32::MAX);
        }
        assert_ne!(check(random, &records), REFUSED);
    }
}

#[test]
fn bytes_of_no_meaning() {
    let random = &mut Random::new(195);
    for length in (1..300).chain([28 * 1024, 28 * 1025]) {
        for _ in 0..5 {
            let bytes = random.bytes(length);
            assert_eq!(both::check_records(random, &bytes), REFUSED, "{length} bytes");
        }
    }
}
